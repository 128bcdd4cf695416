//! A node beside each of its earlier siblings.

use crate::snapshot::record::Node;
use crate::snapshot::tree::Tree;

/// Root ports count as siblings in every rule here.
pub fn right(tree: &Tree, node: &Node) -> bool {
    tree.children(node.parent)
        .all(|sibling| pair_right(node, tree.node(sibling)))
}

fn pair_right(node: &Node, sibling: &Node) -> bool {
    buses_apart(node, sibling)
        && port_numbers_differ(node, sibling)
        && byte_five_differs(node, sibling)
        && ranges_apart(node, sibling)
}

/// Siblings' bus ranges don't meet.
fn buses_apart(node: &Node, sibling: &Node) -> bool {
    let bridges = node.kind.is_bridge() && sibling.kind.is_bridge();
    let meet = node.secondary <= sibling.subordinate && sibling.secondary <= node.subordinate;
    !(bridges && meet)
}

/// Port Numbers differ among sibling ports.
fn port_numbers_differ(node: &Node, sibling: &Node) -> bool {
    let ports = node.kind.is_port() && sibling.kind.is_port();
    !(ports && node.port_number == sibling.port_number)
}

/// Byte 5 differs among sibling ports.
fn byte_five_differs(node: &Node, sibling: &Node) -> bool {
    let ports = node.kind.is_port() && sibling.kind.is_port();
    !(ports && node.device_function == sibling.device_function)
}

/// A node's open ranges don't overlap a sibling's.
fn ranges_apart(node: &Node, sibling: &Node) -> bool {
    node.ranges()
        .all(|a| sibling.ranges().all(|b| !a.overlaps(b)))
}
