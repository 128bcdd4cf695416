//! From port to port: step 4.

use super::up::Decision;
use super::{End, Walk};
use crate::answer::{Action, Letter, Outcome, COMPLEX};
use crate::header::{Completion, Request, Tlp, TRANSLATED};
use crate::snapshot::record::{acs, Kind, Node};

/// How a TLP to a peer is handled.
enum Handling {
    Direct,
    Redirect,
    ViolationE,
}

impl Walk<'_> {
    /// The sibling port that covers it. Siblings don't overlap, so there is at
    /// most one.
    pub fn covering_peer(&self, index: u16) -> Option<u16> {
        self.tree
            .children(self.node(index).parent)
            .find(|&peer| peer != index && self.covers(self.node(peer)))
    }

    /// Step 4. Sibling port q covers it.
    pub fn to_peer(&self, port: &Node, peer: u16) -> Decision {
        let handling = match self.tlp {
            Tlp::Request(request) => request_to_peer(port, self.node(peer), request),
            Tlp::Completion(completion) => completion_to_peer(port, completion),
        };
        match handling {
            Handling::Direct => Decision::Direct(peer),
            Handling::Redirect => self.sent_up(port, Action::Redirected),
            Handling::ViolationE => Decision::Ends(self.violation(Letter::E)),
        }
    }

    /// Direct between root ports with flag bit 0 clear: unclaimed at FFFFh.
    /// What is delivered was not checked.
    pub fn direct(&mut self, port: u16, peer: u16) -> End {
        self.hop(port, Action::Direct);
        if self.node(port).kind == Kind::RootPort && !self.tree.root_ports_reach_each_other() {
            return self.end(Outcome::Unclaimed, COMPLEX);
        }
        self.down(peer, false)
    }
}

/// Request: with T on and AT 2, direct to q; else by E, R and the vector bit for
/// q's Port Number.
fn request_to_peer(port: &Node, peer: &Node, request: Request) -> Handling {
    if port.has(acs::T) && request.address_type == TRANSLATED {
        return Handling::Direct;
    }
    let bit = port.vector_bit(peer.port_number);
    table(port.has(acs::E), port.has(acs::R), bit)
}

/// The table of document 000, section 6.11.3.
fn table(e: bool, r: bool, bit: bool) -> Handling {
    match (e, r, bit) {
        (false, false, _) => Handling::Direct,
        (false, true, _) => Handling::Redirect,
        (true, false, true) => Handling::ViolationE,
        (true, false, false) => Handling::Direct,
        (true, true, true) => Handling::Redirect,
        (true, true, false) => Handling::Direct,
    }
}

/// Completion: redirect if C is on and Relaxed Ordering clear, else direct.
fn completion_to_peer(port: &Node, completion: Completion) -> Handling {
    if port.has(acs::C) && !completion.relaxed_ordering {
        Handling::Redirect
    } else {
        Handling::Direct
    }
}
