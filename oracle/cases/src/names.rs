//! Classes and io kinds by name; the position in each list is the number that the library uses.

use std::fmt;

/// The classes in order of rank.
pub const CLASSES: [&str; 11] = [
    "Cancelled",
    "Corruption",
    "AllocationLimit",
    "AllocationFailure",
    "Validation",
    "Unsupported",
    "Unauthenticated",
    "PermissionDenied",
    "Conflict",
    "NotFound",
    "Retryable",
];

/// The io kinds in order of number; `Other` stands for every kind that is not named.
pub const IO_KINDS: [&str; 16] = [
    "Other",
    "NotFound",
    "PermissionDenied",
    "Unsupported",
    "OutOfMemory",
    "Interrupted",
    "TimedOut",
    "UnexpectedEof",
    "BrokenPipe",
    "AddrInUse",
    "ConnectionAborted",
    "ConnectionReset",
    "ConnectionRefused",
    "WouldBlock",
    "AlreadyExists",
    "InvalidData",
];

/// The rank of a class, 0 to 10.
#[derive(Clone, Copy, Debug, Eq, Ord, PartialEq, PartialOrd)]
pub struct Rank(pub usize);

/// The number of an io kind, 0 to 15.
#[derive(Clone, Copy, Debug, Eq, PartialEq)]
pub struct IoKind(pub usize);

impl Rank {
    /// The class with this name.
    pub fn named(name: &str) -> Option<Self> {
        CLASSES.iter().position(|known| *known == name).map(Rank)
    }

    /// Every rank, least first.
    pub fn all() -> impl Iterator<Item = Rank> {
        (0..CLASSES.len()).map(Rank)
    }
}

impl IoKind {
    /// The io kind with this name.
    pub fn named(name: &str) -> Option<Self> {
        IO_KINDS.iter().position(|known| *known == name).map(IoKind)
    }

    /// Every io kind in order of number.
    pub fn all() -> impl Iterator<Item = IoKind> {
        (0..IO_KINDS.len()).map(IoKind)
    }
}

impl fmt::Display for Rank {
    fn fmt(&self, f: &mut fmt::Formatter<'_>) -> fmt::Result {
        f.write_str(CLASSES[self.0])
    }
}

impl fmt::Display for IoKind {
    fn fmt(&self, f: &mut fmt::Formatter<'_>) -> fmt::Result {
        f.write_str(IO_KINDS[self.0])
    }
}
