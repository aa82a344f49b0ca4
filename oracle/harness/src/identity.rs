//! Which node an error object is: decided by its address, never by what it displays.

use std::collections::HashMap;
use std::error::Error;

use gix_error::types::probe::{ChainNode, Raised};

use crate::errors::native_source;
use crate::world::World;

/// A node of a report: a frame of the run, and how many native sources lie between its error and the node.
#[derive(Clone, Copy, Debug, Eq, Hash, PartialEq)]
pub struct NodeId {
    pub frame: usize,
    pub depth: usize,
}

/// The error objects of one report by address.
///
/// None of the objects is of size zero and none lies inside another, so that no two have the same address.
pub struct Identity {
    by_address: HashMap<*const (), NodeId>,
}

impl Identity {
    /// Name the objects of the frames `raised` and all their native sources.
    pub fn of(world: &World, raised: &[Raised<'_>]) -> Self {
        let mut by_address = HashMap::new();
        for (error, location) in raised {
            let frame = world.frame_at(location);
            let objects = std::iter::successors(Some(*error), |error| native_source(*error));
            for (depth, object) in objects.enumerate() {
                let earlier = by_address.insert(address(object), NodeId { frame, depth });
                assert_eq!(earlier, None, "two live error objects share an address");
            }
        }
        Identity { by_address }
    }

    /// Which node `error` is.
    pub fn node(&self, error: &(dyn Error + 'static)) -> NodeId {
        *self.by_address.get(&address(error)).expect("an answer is an error of the report")
    }

    /// Which node of a chain made from this report `node` is.
    ///
    /// Going into a chain moves the frames' own errors to new addresses and leaves their sources where they are.
    /// An error at an unknown address is therefore a frame's own, and its location tells of which frame.
    pub fn chain_node(&self, world: &World, node: &ChainNode<'_>) -> NodeId {
        let frame = world.frame_at(node.location);
        let known = self.by_address.get(&address(node.error)).copied().filter(|known| known.depth > 0);
        let named = known.unwrap_or(NodeId { frame, depth: 0 });
        assert_eq!(named.frame, frame, "a native source has the location of its frame");
        assert!(node.native.is_none_or(|native| native == (named.depth > 0)), "the chain knows its native sources");
        named
    }
}

fn address(error: &(dyn Error + 'static)) -> *const () {
    std::ptr::from_ref(error).cast()
}
