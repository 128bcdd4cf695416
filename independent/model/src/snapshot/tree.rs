//! The tree that accepted records form.

use super::record::Node;

/// The records read so far, all of them right.
pub struct Tree<'a> {
    flags: u8,
    pub nodes: Vec<Node<'a>>,
    last_root: Option<u16>,
}

impl<'a> Tree<'a> {
    pub fn new(flags: u8, count: usize) -> Tree<'a> {
        Tree {
            flags,
            nodes: Vec::with_capacity(count),
            last_root: None,
        }
    }

    /// Adds a node behind its earlier siblings.
    pub fn add(&mut self, index: u16, mut node: Node<'a>) {
        let last = match node.parent {
            Some(parent) => &mut self.nodes[usize::from(parent)].last_child,
            None => &mut self.last_root,
        };
        node.previous_sibling = last.replace(index);
        self.nodes.push(node);
    }

    /// Flags bit 0: root ports may reach each other.
    pub fn root_ports_reach_each_other(&self) -> bool {
        self.flags & 1 != 0
    }

    /// Flags bit 1: redirected request validation reflects, else it blocks.
    pub fn validation_reflects(&self) -> bool {
        self.flags & 2 != 0
    }

    pub fn node(&self, index: u16) -> &Node<'a> {
        &self.nodes[usize::from(index)]
    }

    /// The indexes of a node's children, or of the root ports: those count as
    /// siblings of each other.
    pub fn children(&self, parent: Option<u16>) -> impl Iterator<Item = u16> + '_ {
        let last = match parent {
            Some(parent) => self.node(parent).last_child,
            None => self.last_root,
        };
        std::iter::successors(last, |&child| self.node(child).previous_sibling)
    }
}
