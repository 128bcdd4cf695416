//! Which node covers a TLP.

use super::Walk;
use crate::header::{Completion, Request, Tlp};
use crate::snapshot::record::{Kind, Node};

impl Walk<'_> {
    pub fn covers(&self, node: &Node) -> bool {
        match self.tlp {
            Tlp::Request(request) => covers_address(node, request),
            Tlp::Completion(completion) => covers_id(node, completion),
        }
    }

    /// The child that covers it, or the root port if there is no parent.
    /// Siblings don't overlap, so there is at most one.
    pub fn covering_child(&self, parent: Option<u16>) -> Option<u16> {
        self.tree
            .children(parent)
            .find(|&child| self.covers(self.node(child)))
    }
}

/// A node covers a memory request if the address is in one of its open ranges.
fn covers_address(node: &Node, request: Request) -> bool {
    node.ranges().any(|range| range.contains(request.address))
}

/// A bridge covers a completion if its bus lies in secondary..subordinate; an
/// endpoint if bus and byte 5 both equal the ID.
fn covers_id(node: &Node, completion: Completion) -> bool {
    if node.kind == Kind::Endpoint {
        node.own_bus == completion.bus && node.device_function == completion.device_function
    } else {
        node.bus_in_range(completion.bus)
    }
}
