//! `acs_route`: refusals 1 to 7, the outcome and the hops.

use crate::answer::{Refusal, COMPLEX};
use crate::snapshot::record::Kind;
use crate::snapshot::tree::Tree;
use crate::{header, hops, routing, snapshot};

/// The answer word of `acs_route`. The hops are written to the buffer.
pub fn route(snapshot: &[u8], now: u64, origin: u16, header: &[u8], buffer: &mut [u8]) -> u64 {
    match try_route(snapshot, now, origin, header, buffer) {
        Ok(word) => word,
        Err(refusal) => refusal.word(),
    }
}

/// The refusals in the order of their table, each tested where it stands.
fn try_route(
    bytes: &[u8],
    now: u64,
    origin: u16,
    header: &[u8],
    buffer: &mut [u8],
) -> Result<u64, Refusal> {
    let tree = snapshot::read(bytes, now)?;
    let origin = read_origin(&tree, origin)?;
    let tlp = header::read(header).ok_or(Refusal::new(6, 0))?;
    let journey = routing::follow(&tree, origin, tlp);
    hops::write(&journey.hops, buffer)?;
    let count = journey.hops.len() as u16;
    Ok(journey.outcome.word(journey.node, count))
}

/// The origin: `None` for the host, else an endpoint's index; 5 if it is neither.
fn read_origin(tree: &Tree, origin: u16) -> Result<Option<u16>, Refusal> {
    if origin == COMPLEX {
        return Ok(None);
    }
    match tree.nodes.get(usize::from(origin)) {
        Some(node) if node.kind == Kind::Endpoint => Ok(Some(origin)),
        _ => Err(Refusal::new(5, 0)),
    }
}
