//! Following one TLP through an accepted snapshot.

mod covering;
mod down;
mod peers;
mod up;

use crate::answer::{Action, Hop, Letter, Outcome};
use crate::header::Tlp;
use crate::snapshot::record::Node;
use crate::snapshot::tree::Tree;

/// Where and how a TLP ended, and the hops it made.
pub struct Journey {
    pub outcome: Outcome,
    pub node: u16,
    pub hops: Vec<Hop>,
}

/// Follows a TLP of the host (`None`) or of an endpoint.
pub fn follow(tree: &Tree, origin: Option<u16>, tlp: Tlp) -> Journey {
    let mut walk = Walk {
        tree,
        tlp,
        hops: Vec::with_capacity(16),
    };
    let (outcome, node) = match origin {
        Some(endpoint) => walk.up_from(endpoint),
        None => walk.down_from_complex(false),
    };
    Journey {
        outcome,
        node,
        hops: walk.hops,
    }
}

/// An outcome and the node where it ended.
type End = (Outcome, u16);

/// A TLP on its way, with the hops so far. Each port entered gives one hop, each
/// time entered; kind 2 only as end.
struct Walk<'a> {
    tree: &'a Tree<'a>,
    tlp: Tlp,
    hops: Vec<Hop>,
}

impl<'a> Walk<'a> {
    fn node(&self, index: u16) -> &'a Node<'a> {
        self.tree.node(index)
    }

    fn hop(&mut self, index: u16, action: Action) {
        self.hops.push(Hop { index, action });
    }

    fn end(&mut self, outcome: Outcome, index: u16) -> End {
        self.hop(index, Action::End);
        (outcome, index)
    }

    /// A violation says "completer abort" for reads, "drop" for writes. A
    /// completion is never in violation.
    fn violation(&self, letter: Letter) -> Outcome {
        let abort = matches!(self.tlp, Tlp::Request(request) if !request.write);
        Outcome::Violation { letter, abort }
    }
}
