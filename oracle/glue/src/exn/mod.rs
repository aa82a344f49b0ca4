//! Stands in for a file that was not at hand: the modules of the exception type and what they export.

pub(crate) mod ext;
pub(crate) mod impls;

pub use impls::{BreadthFirstFrames, Frame, Untyped};
