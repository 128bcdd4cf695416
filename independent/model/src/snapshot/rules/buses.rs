//! Bus numbers, against the parent's.

use crate::snapshot::record::Node;

pub fn right(node: &Node, parent: Option<&Node>) -> bool {
    own_bus_right(node, parent)
        && (!node.kind.is_bridge() || bridge_right(node) && in_parent(node, parent))
}

/// Own bus: 0 for kind 1; else the parent's secondary.
fn own_bus_right(node: &Node, parent: Option<&Node>) -> bool {
    match parent {
        None => node.own_bus == 0,
        Some(parent) => node.own_bus == parent.secondary,
    }
}

/// For bridges own bus < secondary <= subordinate.
fn bridge_right(node: &Node) -> bool {
    node.own_bus < node.secondary && node.secondary <= node.subordinate
}

/// A bridge's subordinate <= the parent's subordinate.
fn in_parent(node: &Node, parent: Option<&Node>) -> bool {
    parent.is_none_or(|parent| node.subordinate <= parent.subordinate)
}
