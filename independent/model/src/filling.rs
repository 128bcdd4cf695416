//! Writing into a record what the image says.

use crate::image::structure::Structure;
use crate::image::Bridge;
use crate::snapshot::record::Range;

/// "fill a record's bus numbers, windows and ACS fields ... Other record bytes
/// stay".
pub fn write(bridge: &Bridge, record: &mut [u8]) {
    write_buses(bridge, record);
    write_acs(bridge.acs.as_ref(), record);
    write_window(bridge.memory, &mut record[48..64]);
    write_window(bridge.prefetchable, &mut record[64..80]);
}

/// 4 own bus; 6 secondary bus; 7 subordinate bus. They aren't tested here.
fn write_buses(bridge: &Bridge, record: &mut [u8]) {
    record[4] = bridge.primary;
    record[6] = bridge.secondary;
    record[7] = bridge.subordinate;
}

/// 8-9 ACS Capability register; 10-11 ACS Control register; 16-47 Egress Control
/// Vector. "A list that ends without ACS gives Capability and Control 0";
/// "Vector bytes not read are 0". What is read is copied as it is, reserved bits
/// and bits past the vector's size too.
fn write_acs(structure: Option<&Structure>, record: &mut [u8]) {
    record[8..12].fill(0);
    record[16..48].fill(0);
    if let Some(structure) = structure {
        let vector = structure.vector();
        record[8..10].copy_from_slice(structure.capability());
        record[10..12].copy_from_slice(structure.control());
        record[16..16 + vector.len()].copy_from_slice(vector);
    }
}

/// First and last address. A closed range is exactly (1, 0).
fn write_window(window: Option<Range>, place: &mut [u8]) {
    let (first, last) = match window {
        Some(window) => (window.first, window.last),
        None => (1, 0),
    };
    place[..8].copy_from_slice(&first.to_le_bytes());
    place[8..].copy_from_slice(&last.to_le_bytes());
}
