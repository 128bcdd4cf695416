//! The rules that a record keeps, against itself and earlier records.

mod buses;
mod parents;
mod ranges;
mod registers;
mod siblings;
mod zeros;

use super::head::RECORD;
use super::record::Node;
use super::tree::Tree;

/// Whether a record keeps them all. Kinds and pairs of addresses were tested
/// when its fields were read.
pub fn kept(tree: &Tree, index: u16, record: &[u8; RECORD], node: &Node) -> bool {
    if !parents::right(tree, index, record, node.kind) {
        return false;
    }
    let parent = node.parent.map(|parent| tree.node(parent));
    zeros::right(record, node.kind)
        && buses::right(node, parent)
        && registers::right(node)
        && ranges::right(node)
        && siblings::right(tree, node)
        && ranges::nested(node, parent)
}
