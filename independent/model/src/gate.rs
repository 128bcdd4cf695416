//! What is printed for an item of the gate's corpus. Its first byte says which
//! call is asked; the arguments follow.

use crate::bytes::le32;
use crate::{acsroute, fill};

/// The most bytes that an item has.
const MOST: usize = 131_072;

/// The most bytes that its lent buffers have together.
const MOST_LENT: usize = 65_536;

/// What an item asks.
#[derive(Clone, Copy, PartialEq, Eq, Debug)]
pub enum Item<'a> {
    /// 0: the query of `acsroute`, followed by its input.
    Query(&'a [u8]),
    /// 2: `acs_fill`, followed by two slices; the record is a lent buffer.
    Fill { image: &'a [u8], record: &'a [u8] },
}

impl<'a> Item<'a> {
    /// Nothing if the item isn't so made, is too long, or lends too much.
    pub fn read(item: &'a [u8]) -> Option<Item<'a>> {
        if item.len() > MOST {
            return None;
        }
        let (call, arguments) = item.split_first()?;
        match call {
            0 => Some(Item::Query(arguments)),
            2 => read_fill(arguments),
            _ => None,
        }
    }
}

fn read_fill(arguments: &[u8]) -> Option<Item<'_>> {
    let (image, rest) = read_slice(arguments)?;
    let (record, rest) = read_slice(rest)?;
    let fits = rest.is_empty() && record.len() <= MOST_LENT;
    fits.then_some(Item::Fill { image, record })
}

/// A slice, as 4 bytes of length and its bytes, and what comes after it.
fn read_slice(bytes: &[u8]) -> Option<(&[u8], &[u8])> {
    let (length, rest) = bytes.split_at_checked(4)?;
    rest.split_at_checked(le32(length, 0) as usize)
}

/// What is printed for an item.
pub fn answer(item: &[u8]) -> String {
    match Item::read(item) {
        Some(Item::Query(input)) => acsroute(input),
        Some(Item::Fill { image, record }) => filled(image, record),
        None => "input\n".to_string(),
    }
}

/// The answer word, a blank and the record's final bytes, in hexadecimal.
fn filled(image: &[u8], record: &[u8]) -> String {
    let mut record = record.to_vec();
    let word = fill(image, &mut record);
    let bytes: String = record.iter().map(|byte| format!("{byte:02x}")).collect();
    format!("{word:016x} {bytes}\n")
}
