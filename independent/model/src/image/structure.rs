//! The ACS structure: a header of four bytes, Capability, Control and, with E,
//! the vector.

use super::capabilities::Header;
use crate::answer::Refusal;
use crate::bytes::le16;
use crate::snapshot::record::{acs, vector_size};

/// "the ACS structure itself as that part of the image"
pub struct Structure<'a> {
    pub offset: u16,
    pub bytes: &'a [u8],
}

impl<'a> Structure<'a> {
    /// Refusal 9: "an ACS structure of another version or running past the
    /// image". Its own next offset isn't looked at.
    pub fn read(image: &'a [u8], offset: u16, header: &Header) -> Result<Structure<'a>, Refusal> {
        Refusal::unless(9, header.version == 1)?;
        let bytes = part(image, usize::from(offset)).ok_or(Refusal::new(9, 0))?;
        Ok(Structure { offset, bytes })
    }

    pub fn capability(&self) -> &'a [u8] {
        &self.bytes[4..6]
    }

    pub fn control(&self) -> &'a [u8] {
        &self.bytes[6..8]
    }

    /// The vector in whole doublewords, empty without E.
    pub fn vector(&self) -> &'a [u8] {
        &self.bytes[8..]
    }
}

/// "its structure is 8 bytes, plus with E the vector in whole doublewords".
/// Nothing if it runs past the image.
fn part(image: &[u8], offset: usize) -> Option<&[u8]> {
    let registers = image.get(offset..offset + 8)?;
    let length = 8 + vector_length(le16(registers, 4));
    image.get(offset..offset + length)
}

/// The bytes of the vector's doublewords. E of the Capability decides whether
/// there are any, and its size field how many bits they have room for.
fn vector_length(capability: u16) -> usize {
    if capability & acs::E == 0 {
        return 0;
    }
    let doublewords = vector_size(capability).div_ceil(32);
    4 * usize::from(doublewords)
}
