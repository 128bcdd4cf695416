//! Going up: steps 1 to 6 at each port.

use super::{End, Walk};
use crate::answer::{Action, Letter, Outcome, COMPLEX};
use crate::header::{Request, Tlp, UNTRANSLATED};
use crate::snapshot::record::{acs, Kind, Node};

/// What a port does with a TLP going up.
pub enum Decision {
    /// On to the port above the parent, without step 5.
    Up(Action),
    /// On by the TLP's address or ID: steps 5 and 6.
    AsAddressed,
    Direct(u16),
    Validate,
    Reflect,
    Ends(Outcome),
}

impl Walk<'_> {
    /// An endpoint's TLP enters the port above it, and so on upwards.
    pub fn up_from(&mut self, endpoint: u16) -> End {
        let mut next = self.node(endpoint).parent;
        while let Some(port) = next {
            match self.decide(port) {
                Decision::Ends(outcome) => return self.end(outcome, port),
                Decision::Direct(peer) => return self.direct(port, peer),
                Decision::Validate => return self.validate(port),
                Decision::Reflect => return self.reflect(port),
                Decision::Up(action) => {
                    self.hop(port, action);
                    next = self.port_above(port);
                }
                Decision::AsAddressed => {
                    self.hop(port, Action::Up);
                    if let Some(switch) = self.covering_parent(port) {
                        return self.end(Outcome::Unclaimed, switch);
                    }
                    next = self.port_above(port);
                }
            }
        }
        // Step 6. Root port: it reaches the host.
        self.end(Outcome::Host, COMPLEX)
    }

    /// Steps 1 to 4 at a port.
    fn decide(&self, index: u16) -> Decision {
        let port = self.node(index);
        if let Some(letter) = self.violates(port) {
            return Decision::Ends(self.violation(letter));
        }
        if self.covers(port) {
            return self.covered_by_itself(port);
        }
        match self.covering_peer(index) {
            Some(peer) => self.to_peer(port, peer),
            None => Decision::AsAddressed,
        }
    }

    /// Steps 1 and 2, which concern requests only: V before B.
    fn violates(&self, port: &Node) -> Option<Letter> {
        let Tlp::Request(request) = self.tlp else {
            return None;
        };
        if source_invalid(port, request) {
            Some(Letter::V)
        } else if translation_blocked(port, request) {
            Some(Letter::B)
        } else {
            None
        }
    }

    /// Step 3. p itself covers it. U on: kind 3 sends it up; a root port gives
    /// a request to validation and reflects a completion. U off: undefined.
    fn covered_by_itself(&self, port: &Node) -> Decision {
        if port.has(acs::U) {
            self.sent_up(port, Action::Forwarded)
        } else {
            Decision::Ends(Outcome::Undefined)
        }
    }

    /// By U or by redirect: up for kind 3; at a root port, validation for
    /// requests, reflection for completions.
    pub fn sent_up(&self, port: &Node, action: Action) -> Decision {
        match (port.kind, self.tlp) {
            (Kind::RootPort, Tlp::Request(_)) => Decision::Validate,
            (Kind::RootPort, Tlp::Completion(_)) => Decision::Reflect,
            _ => Decision::Up(action),
        }
    }

    /// Step 5. Kind 3 whose parent covers it: unclaimed at that parent.
    fn covering_parent(&self, port: u16) -> Option<u16> {
        let parent = self.node(port).parent?;
        self.covers(self.node(parent)).then_some(parent)
    }

    /// The port above the parent of a kind 3; a root port has none.
    fn port_above(&self, port: u16) -> Option<u16> {
        let parent = self.node(port).parent?;
        self.node(parent).parent
    }

    /// Validation blocks (violation X at that root port) or reflects, by flag
    /// bit 1.
    fn validate(&mut self, root_port: u16) -> End {
        if self.tree.validation_reflects() {
            self.reflect(root_port)
        } else {
            self.end(self.violation(Letter::X), root_port)
        }
    }

    /// A reflected TLP goes down through the root port that covers it and is
    /// then checked.
    fn reflect(&mut self, root_port: u16) -> End {
        self.hop(root_port, Action::Reflected);
        self.down_from_complex(true)
    }
}

/// Step 1. Request, V on, requester bus outside secondary..subordinate.
fn source_invalid(port: &Node, request: Request) -> bool {
    port.has(acs::V) && !port.bus_in_range(request.requester_bus)
}

/// Step 2. Request, B on, AT not 0.
fn translation_blocked(port: &Node, request: Request) -> bool {
    port.has(acs::B) && request.address_type != UNTRANSLATED
}
