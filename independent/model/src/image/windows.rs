//! A bridge's windows.

use crate::bytes::{le16, le32};
use crate::snapshot::record::Range;

/// "memory base and limit at 20h and 22h". They have no upper halves.
pub fn memory(image: &[u8]) -> Option<Range> {
    let base = le16(image, 0x20);
    let limit = le16(image, 0x22);
    window(first_address(base, 0), last_address(limit, 0))
}

/// "prefetchable at 24h and 26h with upper halves at 28h and 2Ch".
pub fn prefetchable(image: &[u8]) -> Option<Range> {
    let base = le16(image, 0x24);
    let limit = le16(image, 0x26);
    let (upper_base, upper_limit) = if upper_halves_count(base) {
        (le32(image, 0x28), le32(image, 0x2C))
    } else {
        (0, 0)
    };
    window(
        first_address(base, upper_base),
        last_address(limit, upper_limit),
    )
}

/// "If the low four bits of the prefetchable base are 0, the upper halves count
/// as 0." With any other value both of them count.
fn upper_halves_count(base: u16) -> bool {
    base & 0xF != 0
}

/// Bits 15:4 of the base are bits 31:20 of the first address, with zeros below.
fn first_address(base: u16, upper: u32) -> u64 {
    u64::from(upper) << 32 | u64::from(base >> 4) << 20
}

/// Bits 15:4 of the limit are bits 31:20 of the last address, with ones below.
fn last_address(limit: u16, upper: u32) -> u64 {
    u64::from(upper) << 32 | u64::from(limit >> 4) << 20 | 0xF_FFFF
}

/// "A base above its limit is a closed range", the whole addresses compared.
fn window(first: u64, last: u64) -> Option<Range> {
    (first <= last).then_some(Range { first, last })
}
