//! Stands in for a file that was not at hand: the two names that the crate root re-exports from it.

/// Has no values: nothing of the crate's test reports is used or compared.
#[derive(Debug)]
pub enum TestError {}

/// The result type of the crate's test helpers.
pub type TestResult<T = ()> = std::result::Result<T, TestError>;
