//! Reading the configuration space image of a bridge (document 02, 2/13).

pub mod capabilities;
pub mod structure;
pub mod windows;

use crate::answer::Refusal;
use crate::snapshot::record::Range;
use structure::Structure;

/// "a 4,096-byte configuration space image"
pub const IMAGE: usize = 4096;

/// What a record is filled with.
pub struct Bridge<'a> {
    pub primary: u8,
    pub secondary: u8,
    pub subordinate: u8,
    /// The windows, closed ones as `None`.
    pub memory: Option<Range>,
    pub prefetchable: Option<Range>,
    /// The first ACS structure of the list, if it has one.
    pub acs: Option<Structure<'a>>,
}

/// Reads an image of 4,096 bytes, or says that it is refused (number 9). "Bus
/// numbers stand at 18h to 1Ah."
pub fn read(image: &[u8]) -> Result<Bridge<'_>, Refusal> {
    Ok(Bridge {
        primary: image[0x18],
        secondary: image[0x19],
        subordinate: image[0x1A],
        memory: windows::memory(image),
        prefetchable: windows::prefetchable(image),
        acs: capabilities::first_acs(image)?,
    })
}
