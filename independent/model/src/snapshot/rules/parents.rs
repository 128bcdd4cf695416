//! The parent: FFFFh for kind 1; else a lower index, of the right kind.

use crate::bytes::le16;
use crate::snapshot::head::RECORD;
use crate::snapshot::record::{Kind, Node};
use crate::snapshot::tree::Tree;

const NO_PARENT: u16 = 0xFFFF;

pub fn right(tree: &Tree, index: u16, record: &[u8; RECORD], kind: Kind) -> bool {
    let parent = le16(record, 2);
    if kind == Kind::RootPort {
        return parent == NO_PARENT;
    }
    if parent >= index {
        return false;
    }
    let parent = tree.node(parent);
    kind_right(kind, parent.kind) && only_child(parent)
}

/// Kind 2 or 4 stands under a port, kind 3 under kind 2.
fn kind_right(kind: Kind, parent: Kind) -> bool {
    match kind {
        Kind::Downstream => parent == Kind::Upstream,
        _ => parent.is_port(),
    }
}

/// A port has at most one child.
fn only_child(parent: &Node) -> bool {
    !parent.kind.is_port() || parent.last_child.is_none()
}
