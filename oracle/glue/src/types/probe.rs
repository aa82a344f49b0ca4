//! Opens what the crate keeps to itself, for reading only: the nodes of a chain and what an [`Error`] stores.

use std::error::Error as StdError;
use std::panic::Location;

use super::ChainedError;
use crate::{Error, exn::Frame};

/// One node of a flattened chain.
#[derive(Clone, Copy)]
pub struct ChainNode<'a> {
    /// The error at this node.
    pub error: &'a (dyn StdError + 'static),
    /// The call site of the frame that owns the error.
    pub location: &'static Location<'static>,
    /// The index of the parent in the chain.
    pub parent: Option<usize>,
    /// Whether the chain itself says that the error is a native source; only the chain form knows.
    pub native: Option<bool>,
}

/// The nodes of `chain` in their order.
pub fn chain_nodes(chain: &ChainedError) -> Vec<ChainNode<'_>> {
    std::iter::successors(Some(chain), |node| node.source.as_deref())
        .map(|node| ChainNode {
            error: node.err.error(),
            location: node.location,
            parent: node.logical_parent,
            native: says_native(node),
        })
        .collect()
}

#[cfg(all(feature = "auto-chain-error", not(feature = "tree-error")))]
fn says_native(node: &ChainedError) -> Option<bool> {
    Some(node.err.is_native_source())
}

#[cfg(any(feature = "tree-error", not(feature = "auto-chain-error")))]
fn says_native(_node: &ChainedError) -> Option<bool> {
    None
}

/// An error that was raised explicitly, with its call site.
pub type Raised<'a> = (&'a (dyn StdError + 'static), &'static Location<'static>);

/// The explicitly raised errors in and beneath `frame`.
pub fn raised_in_tree(frame: &Frame) -> Vec<Raised<'_>> {
    let mut raised = Vec::new();
    let mut waiting = vec![frame];
    while let Some(frame) = waiting.pop() {
        raised.push((frame.error() as &(dyn StdError + 'static), frame.location()));
        waiting.extend(frame.children());
    }
    raised
}

/// The explicitly raised errors that `error` stores.
#[cfg(any(feature = "tree-error", not(feature = "auto-chain-error")))]
pub fn raised_in_error(error: &Error) -> Vec<Raised<'_>> {
    raised_in_tree(error.inner.frame())
}

/// The explicitly raised errors that `error` stores.
#[cfg(all(feature = "auto-chain-error", not(feature = "tree-error")))]
pub fn raised_in_error(error: &Error) -> Vec<Raised<'_>> {
    chain_nodes(&error.inner)
        .into_iter()
        .filter(|node| node.native == Some(false))
        .map(|node| (node.error, node.location))
        .collect()
}
