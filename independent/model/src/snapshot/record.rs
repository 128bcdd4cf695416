//! The fields of a record.

use super::head::RECORD;
use crate::bytes::{le16, le64};

#[derive(Clone, Copy, PartialEq, Eq, Debug)]
pub enum Kind {
    RootPort,
    Upstream,
    Downstream,
    Endpoint,
}

impl Kind {
    /// Kind is 1 to 4.
    fn read(byte: u8) -> Option<Kind> {
        match byte {
            1 => Some(Kind::RootPort),
            2 => Some(Kind::Upstream),
            3 => Some(Kind::Downstream),
            4 => Some(Kind::Endpoint),
            _ => None,
        }
    }

    /// "Port" means kind 1 or 3.
    pub fn is_port(self) -> bool {
        matches!(self, Kind::RootPort | Kind::Downstream)
    }

    /// Bridges are kinds 1 to 3.
    pub fn is_bridge(self) -> bool {
        self != Kind::Endpoint
    }
}

/// The bits of the Capability and Control registers.
pub mod acs {
    pub const V: u16 = 1 << 0;
    pub const B: u16 = 1 << 1;
    pub const R: u16 = 1 << 2;
    pub const C: u16 = 1 << 3;
    pub const U: u16 = 1 << 4;
    pub const E: u16 = 1 << 5;
    pub const T: u16 = 1 << 6;
    pub const ALL: u16 = 0x7F;
}

/// An open range, both ends included.
#[derive(Clone, Copy, PartialEq, Eq, Debug)]
pub struct Range {
    pub first: u64,
    pub last: u64,
}

impl Range {
    pub fn contains(self, address: u64) -> bool {
        self.first <= address && address <= self.last
    }

    pub fn overlaps(self, other: Range) -> bool {
        self.first <= other.last && other.first <= self.last
    }

    pub fn inside(self, window: Range) -> bool {
        window.first <= self.first && self.last <= window.last
    }
}

/// A record's fields, and its place in the tree.
pub struct Node<'a> {
    pub kind: Kind,
    pub port_number: u8,
    /// The parent's index; a root port has none.
    pub parent: Option<u16>,
    pub own_bus: u8,
    pub device_function: u8,
    pub secondary: u8,
    pub subordinate: u8,
    pub capability: u16,
    pub control: u16,
    vector: &'a [u8],
    pub ranges: [Option<Range>; 6],
    /// Of its children the one with the highest index.
    pub last_child: Option<u16>,
    /// Of its siblings the one before it.
    pub previous_sibling: Option<u16>,
}

impl<'a> Node<'a> {
    /// Reads a record, or gives nothing if its kind or a range is faulty.
    // Inlined, for a node is large and would be copied on its way to the tree.
    #[inline(always)]
    pub fn read(record: &'a [u8; RECORD]) -> Option<Node<'a>> {
        let kind = Kind::read(record[0])?;
        Some(Node {
            kind,
            port_number: record[1],
            parent: (kind != Kind::RootPort).then_some(le16(record, 2)),
            own_bus: record[4],
            device_function: record[5],
            secondary: record[6],
            subordinate: record[7],
            capability: le16(record, 8),
            control: le16(record, 10),
            vector: &record[16..48],
            ranges: read_ranges(record)?,
            last_child: None,
            previous_sibling: None,
        })
    }

    /// Whether one of these Control bits is on.
    pub fn has(&self, control: u16) -> bool {
        self.control & control != 0
    }

    /// The open ranges.
    pub fn ranges(&self) -> impl Iterator<Item = Range> + '_ {
        self.slots().iter().flatten().copied()
    }

    /// The ranges it may use, open or closed. A bridge has ranges 0 and 1 only.
    pub fn slots(&self) -> &[Option<Range>] {
        if self.kind.is_bridge() {
            &self.ranges[..2]
        } else {
            &self.ranges
        }
    }

    /// Egress Control Vector, bit k in byte k/8, bit k mod 8. A bit whose number
    /// is the vector size or more reads 0.
    pub fn vector_bit(&self, number: u8) -> bool {
        let byte = self.vector[usize::from(number / 8)];
        u16::from(number) < self.vector_size() && byte >> (number % 8) & 1 == 1
    }

    fn vector_size(&self) -> u16 {
        vector_size(self.capability)
    }

    /// Whether a bus lies in secondary..subordinate.
    pub fn bus_in_range(&self, bus: u8) -> bool {
        self.secondary <= bus && bus <= self.subordinate
    }
}

/// Of the size field "00h means 256 bits; 01h to FFh mean themselves", in a
/// Capability with E (document 02, 1/13). Without E it stays as it is.
// No answer shows the latter: the table asks for a bit where Control has E, and
// Control has it only where Capability does; an image's vector is read with E.
pub fn vector_size(capability: u16) -> u16 {
    match capability >> 8 {
        0x00 if capability & acs::E != 0 => 256,
        field => field,
    }
}

/// The six ranges, closed ones as `None`. A closed range is exactly (1, 0);
/// other pairs with first above last are faulty.
fn read_ranges(record: &[u8; RECORD]) -> Option<[Option<Range>; 6]> {
    let mut ranges = [None; 6];
    for (number, range) in ranges.iter_mut().enumerate() {
        let first = le64(record, 48 + 16 * number);
        let last = le64(record, 56 + 16 * number);
        *range = match (first, last) {
            (1, 0) => None,
            _ if first <= last => Some(Range { first, last }),
            _ => return None,
        };
    }
    Some(ranges)
}
