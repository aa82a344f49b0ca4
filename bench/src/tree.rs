//! The Rust crate in its tree build: building, questions to reports, and the print of a tree.

use tree_build as gix_error;

#[path = "errors.rs"]
pub mod errors;

use gix_error::{Exn, Message};

pub type Built = Exn<Message>;
pub type Report = Exn<errors::Plain>;

const TEXT: &str = "drive 0 does not move";

fn new() -> Built {
    Exn::new(Message::new(TEXT))
}

/// So many raises, one over the other.
pub fn raises(size: usize) -> Built {
    let mut report = new();
    for _ in 0..size {
        report = report.raise(Message::new(TEXT));
    }
    report
}

/// So many reports joined to one root.
pub fn joins(size: usize) -> Built {
    let mut root = new();
    for _ in 0..size {
        root = root.chain(new());
    }
    root
}

/// One raise over so many new reports, which are collected before.
pub fn raise_all(size: usize) -> Built {
    let mut basket = Vec::new();
    for _ in 0..size {
        basket.push(new());
    }
    Exn::raise_all(basket, Message::new(TEXT))
}
