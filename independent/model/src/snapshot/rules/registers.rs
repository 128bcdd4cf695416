//! The ACS Capability and Control registers of ports. Other kinds have zeros.

use crate::snapshot::record::{acs, Kind, Node};

pub fn right(node: &Node) -> bool {
    !node.kind.is_port() || capability_right(node) && control_right(node)
}

/// Capability is 0 (no ACS) or has V and B; kind 3 then has R, C, U and T too;
/// R and C are both there or both missing; bit 7 is 0.
fn capability_right(node: &Node) -> bool {
    let has = |bits: u16| node.capability & bits == bits;
    if node.capability == 0 {
        return true;
    }
    has(acs::V | acs::B)
        && (node.kind != Kind::Downstream || has(acs::R | acs::C | acs::U | acs::T))
        && has(acs::R) == has(acs::C)
        && !has(1 << 7)
}

/// Control uses bits 0 to 6, each only where Capability has it.
fn control_right(node: &Node) -> bool {
    node.control & !acs::ALL == 0 && node.control & acs::ALL & !node.capability == 0
}
