//! The list of extended capabilities.

use super::structure::Structure;
use crate::answer::Refusal;
use crate::bytes::le32;

/// "Extended capabilities start at 100h as a linked list."
const START: u16 = 0x100;

/// "ACS has ID 000Dh".
const ACS: u16 = 0x000D;

/// A capability's header. Document 000, 7.16.1: ID in bits 15:0, version in bits
/// 19:16, next offset in bits 31:20.
pub struct Header {
    id: u16,
    pub version: u8,
    next: u16,
}

impl Header {
    fn read(image: &[u8], offset: u16) -> Header {
        let header = le32(image, usize::from(offset));
        Header {
            id: header as u16,
            version: (header >> 16 & 0xF) as u8,
            next: (header >> 20) as u16,
        }
    }
}

/// "The walk stops at the first ACS": its structure, or nothing in "a list that
/// ends without ACS".
pub fn first_acs(image: &[u8]) -> Result<Option<Structure<'_>>, Refusal> {
    let mut visited = Vec::new();
    let mut offset = START;
    loop {
        let header = Header::read(image, offset);
        visited.push(offset);
        if header.id == ACS {
            return Structure::read(image, offset, &header).map(Some);
        }
        if header.next == 0 {
            return Ok(None);
        }
        Refusal::unless(9, next_right(header.next, &visited))?;
        offset = header.next;
    }
}

/// Refusal 9: "a next offset neither 0 nor a multiple of 4 from 100h, or already
/// visited".
fn next_right(next: u16, visited: &[u16]) -> bool {
    next.is_multiple_of(4) && next >= START && !visited.contains(&next)
}
