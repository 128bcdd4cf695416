//! `acs_check`: refusals 1 to 4.

use crate::snapshot;

/// The answer word of `acs_check`: 0, or the refusal.
pub fn check(snapshot: &[u8], now: u64) -> u64 {
    match snapshot::read(snapshot, now) {
        Ok(_) => 0,
        Err(refusal) => refusal.word(),
    }
}
