//! `acs_fill`: refusals 8 and 9, the filled record and where the ACS structure
//! stands.

use crate::answer::{part_word, Refusal};
use crate::image::IMAGE;
use crate::snapshot::head::RECORD;
use crate::{filling, image};

/// The answer word of `acs_fill`. The record is filled, or stays as it was.
pub fn fill(image: &[u8], record: &mut [u8]) -> u64 {
    match try_fill(image, record) {
        Ok(word) => word,
        Err(refusal) => refusal.word(),
    }
}

/// "8 image not 4,096 bytes"; "8 also for a record not 144 bytes, before 9".
/// Nothing is written before all tests are passed.
fn try_fill(bytes: &[u8], record: &mut [u8]) -> Result<u64, Refusal> {
    Refusal::unless(8, bytes.len() == IMAGE)?;
    Refusal::unless(8, record.len() == RECORD)?;
    let bridge = image::read(bytes)?;
    filling::write(&bridge, record);
    Ok(match bridge.acs {
        Some(structure) => part_word(structure.offset, structure.bytes.len() as u16),
        None => part_word(0, 0),
    })
}
