//! Going down. No access control applies.

use super::{End, Walk};
use crate::answer::{Action, Outcome, COMPLEX};
use crate::snapshot::record::Kind;

impl Walk<'_> {
    /// The host's TLP, or a reflected one, goes down the root port that covers
    /// it; if none, unclaimed at FFFFh.
    pub fn down_from_complex(&mut self, checked: bool) -> End {
        match self.covering_child(None) {
            Some(root_port) => self.down(root_port, checked),
            None => self.end(Outcome::Unclaimed, COMPLEX),
        }
    }

    /// Enters one port after the other on the way down.
    pub fn down(&mut self, mut port: u16, checked: bool) -> End {
        loop {
            // At a port without a child: unclaimed there.
            let Some(child) = self.node(port).last_child else {
                return self.end(Outcome::Unclaimed, port);
            };
            self.hop(port, Action::Down);
            // A child that doesn't cover: unclaimed at the child.
            if !self.covers(self.node(child)) {
                return self.end(Outcome::Unclaimed, child);
            }
            // An endpoint child that covers: delivered.
            if self.node(child).kind == Kind::Endpoint {
                return self.end(Outcome::Delivered { checked }, child);
            }
            // A kind 2 child passes it to its covering port; if none, unclaimed
            // at the kind 2.
            match self.covering_child(Some(child)) {
                Some(next) => port = next,
                None => return self.end(Outcome::Unclaimed, child),
            }
        }
    }
}
