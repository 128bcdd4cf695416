//! What the program `acsroute` prints.

use crate::answer::Word;
use crate::bytes::{le16, le64};
use crate::hops::ROOM;
use crate::route;

/// The fields of an `acsroute` input.
pub struct Input<'a> {
    pub snapshot: &'a [u8],
    pub now: u64,
    pub origin: u16,
    pub header: &'a [u8],
}

impl<'a> Input<'a> {
    /// A 2-byte length, the snapshot, now (8 bytes), then one query: origin (2),
    /// header length (1), header. Nothing if the input is shorter or longer.
    pub fn read(input: &'a [u8]) -> Option<Input<'a>> {
        let (length, rest) = input.split_at_checked(2)?;
        let (snapshot, rest) = rest.split_at_checked(usize::from(le16(length, 0)))?;
        let (fields, header) = rest.split_at_checked(11)?;
        if header.len() != usize::from(fields[10]) {
            return None;
        }
        Some(Input {
            snapshot,
            now: le64(fields, 0),
            origin: le16(fields, 8),
            header,
        })
    }
}

/// What `acsroute` prints for an input.
pub fn acsroute(input: &[u8]) -> String {
    match Input::read(input) {
        Some(input) => answer(&input),
        None => "input\n".to_string(),
    }
}

/// A refusal's line, or the mark's and the outcome's.
fn answer(input: &Input) -> String {
    let mut buffer = [0; ROOM];
    let word = Word(route(
        input.snapshot,
        input.now,
        input.origin,
        input.header,
        &mut buffer,
    ));
    if word.refused() {
        return format!("refusal {} {}\n", word.refusal_number(), word.node());
    }
    let version = le16(input.snapshot, 4);
    let count = le16(input.snapshot, 6);
    let mut text = format!("ACS {version} records {count}\n{}", word.outcome_text());
    for hop in buffer.chunks_exact(4).take(word.hops()) {
        text.push_str(&format!(" {}:{}", le16(hop, 0), hop[2]));
    }
    text.push('\n');
    text
}
