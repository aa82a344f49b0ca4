//! The Rust crate in its auto-chain build, where an `Error` is a flattened chain: questions to chains, their print, and the ways
//! between reports and chains.

use chain_build as gix_error;

#[path = "errors.rs"]
pub mod errors;

pub use gix_error::Error;
