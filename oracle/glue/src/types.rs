//! Stands in for a file that was not at hand: re-exports of the utility types, and the oracle's own module.

pub use crate::concrete::chain::ChainedError;
pub use crate::error::{Classification, Classifications, DisplaySource};

pub mod probe;
