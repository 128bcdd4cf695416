//! Building configuration space images field by field.

use model::{acs, IMAGE};

/// The ID of ACS.
pub const ACS: u16 = 0x000D;
/// Where the list starts, and the last place for a header.
pub const START: u16 = 0x100;
pub const LAST: u16 = 0xFFC;
/// The most headers that a list has.
pub const MOST_HEADERS: usize = (IMAGE - START as usize) / 4;

/// The bytes of an image, right or wrong.
#[derive(Clone, PartialEq, Eq, Debug)]
pub struct Image {
    pub bytes: Vec<u8>,
}

impl Image {
    pub fn filled(byte: u8) -> Image {
        Image {
            bytes: vec![byte; IMAGE],
        }
    }

    /// Bytes of which none is like the one before it, and few are 0.
    pub fn patterned() -> Image {
        let bytes = (0..IMAGE).map(|place| (place * 37 + place / 256 * 11 + 29) as u8);
        Image {
            bytes: bytes.collect(),
        }
    }

    pub fn set16(&mut self, at: usize, value: u16) {
        self.bytes[at..at + 2].copy_from_slice(&value.to_le_bytes());
    }

    pub fn set32(&mut self, at: usize, value: u32) {
        self.bytes[at..at + 4].copy_from_slice(&value.to_le_bytes());
    }

    pub fn buses(mut self, primary: u8, secondary: u8, subordinate: u8) -> Image {
        self.bytes[0x18..0x1B].copy_from_slice(&[primary, secondary, subordinate]);
        self
    }

    /// The memory base and limit fields.
    pub fn memory(mut self, base: u16, limit: u16) -> Image {
        self.set16(0x20, base);
        self.set16(0x22, limit);
        self
    }

    /// The prefetchable base and limit fields.
    pub fn prefetchable(mut self, base: u16, limit: u16) -> Image {
        self.set16(0x24, base);
        self.set16(0x26, limit);
        self
    }

    /// The upper halves of the prefetchable base and limit.
    pub fn upper_halves(mut self, base: u32, limit: u32) -> Image {
        self.set32(0x28, base);
        self.set32(0x2C, limit);
        self
    }

    /// A header of the list.
    pub fn header(mut self, offset: u16, id: u16, version: u8, next: u16) -> Image {
        self.put_header(offset, id, version, next);
        self
    }

    pub fn put_header(&mut self, offset: u16, id: u16, version: u8, next: u16) {
        let header = u32::from(id) | u32::from(version) << 16 | u32::from(next) << 20;
        self.set32(usize::from(offset), header);
    }

    /// Headers at these offsets, each leading to the next one and the last to
    /// `end`, with IDs of other capabilities.
    pub fn list(mut self, offsets: &[u16], end: u16) -> Image {
        let nexts = offsets[1..].iter().chain([&end]);
        for (number, (&offset, &next)) in offsets.iter().zip(nexts).enumerate() {
            self.put_header(offset, [0x0001, 0x0003, 0x000B][number % 3], 1, next);
        }
        self
    }

    /// An ACS header of version 1 that leads nowhere, and both registers, as far
    /// as the image has room for them.
    pub fn acs(mut self, offset: u16, capability: u16, control: u16) -> Image {
        self.put_header(offset, ACS, 1, 0);
        self.put_registers(offset, capability, control);
        self
    }

    pub fn put_registers(&mut self, offset: u16, capability: u16, control: u16) {
        if offset < LAST {
            let registers = u32::from(capability) | u32::from(control) << 16;
            self.set32(usize::from(offset) + 4, registers);
        }
    }

    /// All bytes behind the registers of an ACS structure, up to 32.
    pub fn vector(mut self, offset: u16, byte: u8) -> Image {
        let first = usize::from(offset) + 8;
        let end = IMAGE.min(first + 32);
        self.bytes[first..end].fill(byte);
        self
    }
}

/// The bytes of an ACS structure with this Capability.
pub fn structure_length(capability: u16) -> u16 {
    match (capability & acs::E != 0, capability >> 8) {
        (false, _) => 8,
        (true, 0) => 8 + 32,
        (true, bits) => 8 + 4 * bits.div_ceil(32),
    }
}

/// A bridge with both windows open and ACS after two other capabilities.
pub fn bridge() -> Image {
    Image::patterned()
        .buses(2, 3, 7)
        .memory(0x8000, 0x8130)
        .prefetchable(0x4001, 0x5FF1)
        .upper_halves(0x12, 0x34)
        .list(&[0x100, 0x140], 0x200)
        .acs(0x200, 0x087F, 0x0017)
}

/// Headers at all places that there are, ACS the last of them, at 200h. Its
/// registers are the header after it: Capability 0003h, Control 2081h.
pub fn longest_list() -> Image {
    let others = (START..=LAST).step_by(4).filter(|&offset| offset != 0x200);
    let offsets: Vec<u16> = others.collect();
    let image = Image::patterned().list(&offsets, 0x200);
    image
        .header(0x204, 0x0003, 1, 0x208)
        .header(0x200, ACS, 1, 0)
}
