//! Cases in plain text: a host of errors, layers over it, building calls and questions.
//!
//! The format is described in `docs/CASES.md`. This crate knows nothing of the Rust crate under comparison.

pub mod case;
pub mod draft;
pub mod families;
pub mod host;
pub mod mix;
pub mod names;
pub mod parse;
pub mod quote;
pub mod random;
pub mod script;
