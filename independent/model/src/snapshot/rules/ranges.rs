//! Address ranges: their edges, apart from each other, inside the parent's.

use crate::snapshot::record::{Node, Range};

/// Windows are cut by 2^20 bytes.
const WINDOW_UNIT: u64 = 1 << 20;

pub fn right(node: &Node) -> bool {
    edges_right(node) && own_ranges_apart(node)
}

fn edges_right(node: &Node) -> bool {
    if node.kind.is_bridge() {
        bridge_ranges_right(node) && node.ranges().all(window_edges_right)
    } else {
        node.ranges().all(endpoint_range_right)
    }
}

/// Bridges use ranges 0 (memory, last below 2^32) and 1 (prefetchable); 2 to 5
/// are closed.
fn bridge_ranges_right(node: &Node) -> bool {
    let [memory, _prefetchable, unused @ ..] = &node.ranges;
    memory.is_none_or(|window| window.last < 1 << 32) && unused.iter().all(Option::is_none)
}

/// When open, first is a multiple of 2^20 and last is one less than a multiple
/// of 2^20.
fn window_edges_right(window: Range) -> bool {
    window.first & (WINDOW_UNIT - 1) == 0 && !window.last & (WINDOW_UNIT - 1) == 0
}

/// An endpoint range's length is a power of two, 128 to 2^63, and first is a
/// multiple of it.
fn endpoint_range_right(range: Range) -> bool {
    // One less than the length, since the length itself may be 2^64.
    let mask = range.last - range.first;
    if mask == u64::MAX {
        return false;
    }
    let length = mask + 1;
    length.is_power_of_two() && length >= 128 && range.first & mask == 0
}

/// A node's open ranges don't overlap each other.
fn own_ranges_apart(node: &Node) -> bool {
    let slots = node.slots();
    slots.iter().enumerate().all(|(number, a)| {
        slots[..number].iter().all(|b| match (a, b) {
            (Some(a), Some(b)) => !a.overlaps(*b),
            _ => true,
        })
    })
}

/// Each open range lies inside one window of its parent.
pub fn nested(node: &Node, parent: Option<&Node>) -> bool {
    parent.is_none_or(|parent| node.ranges().all(|range| inside_one_window(range, parent)))
}

fn inside_one_window(range: Range, parent: &Node) -> bool {
    parent.ranges().any(|window| range.inside(window))
}
