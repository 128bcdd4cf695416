//! Writing the hops.

use crate::answer::{Hop, Refusal};

/// The most room any answer needs: 257 hops.
pub const ROOM: usize = 4 * 257;

/// Writes the hops from the buffer's start and no byte after them; 7, and
/// nothing is written, if 4 times the hop count exceeds the buffer.
pub fn write(hops: &[Hop], buffer: &mut [u8]) -> Result<(), Refusal> {
    Refusal::unless(7, 4 * hops.len() <= buffer.len())?;
    for (hop, place) in hops.iter().zip(buffer.chunks_exact_mut(4)) {
        place.copy_from_slice(&hop_bytes(*hop));
    }
    Ok(())
}

/// Four bytes: index (2), action, 0.
fn hop_bytes(hop: Hop) -> [u8; 4] {
    let [low, high] = hop.index.to_le_bytes();
    [low, high, hop.action as u8, 0]
}
