//! Stands in for a file that was not at hand: the modules of the concrete errors.

pub(crate) mod chain;
pub(crate) mod classify;
pub(crate) mod message;
pub(crate) mod metadata;
