//! The snapshot's header, 24 bytes.

use crate::bytes::{le16, le64};

/// The bytes of the header and of a record.
pub const HEAD: usize = 24;
pub const RECORD: usize = 144;
/// The most records there may be.
pub const MOST_RECORDS: usize = 256;

/// 0-2 mark `ACS`.
pub fn mark_right(bytes: &[u8]) -> bool {
    &bytes[0..3] == b"ACS"
}

/// 4-5 version, 1.
pub fn version_right(bytes: &[u8]) -> bool {
    le16(bytes, 4) == 1
}

/// What refusal 1 tests after the version.
pub fn rest_right(bytes: &[u8]) -> bool {
    flags_right(bytes) && count_right(bytes) && times_right(bytes) && length_right(bytes)
}

/// 3 flags: bits 0 and 1, others 0.
fn flags_right(bytes: &[u8]) -> bool {
    bytes[3] & !3 == 0
}

fn count(bytes: &[u8]) -> usize {
    usize::from(le16(bytes, 6))
}

/// 6-7 record count n, 0 to 256.
fn count_right(bytes: &[u8]) -> bool {
    count(bytes) <= MOST_RECORDS
}

fn taken(bytes: &[u8]) -> u64 {
    le64(bytes, 8)
}

fn good_until(bytes: &[u8]) -> u64 {
    le64(bytes, 16)
}

/// 8-15 time taken; 16-23 good until, not below time taken.
fn times_right(bytes: &[u8]) -> bool {
    good_until(bytes) >= taken(bytes)
}

/// Then n records of 144 bytes and nothing more.
fn length_right(bytes: &[u8]) -> bool {
    bytes.len() == HEAD + RECORD * count(bytes)
}

/// Now is neither below time taken nor above good until.
pub fn good_at(bytes: &[u8], now: u64) -> bool {
    taken(bytes) <= now && now <= good_until(bytes)
}
