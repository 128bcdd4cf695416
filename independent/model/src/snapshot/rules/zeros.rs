//! Bytes that are zero.

use crate::snapshot::head::RECORD;
use crate::snapshot::record::Kind;

pub fn right(record: &[u8; RECORD], kind: Kind) -> bool {
    reserved_zero(record)
        && (kind.is_port() || port_fields_zero(record))
        && (kind.is_bridge() || bus_fields_zero(record))
}

/// Bytes 12-15 are zero.
fn reserved_zero(record: &[u8; RECORD]) -> bool {
    zero(&record[12..16])
}

/// Kinds 2 and 4: bytes 1, 5 and 8-47 zero.
fn port_fields_zero(record: &[u8; RECORD]) -> bool {
    record[1] == 0 && record[5] == 0 && zero(&record[8..48])
}

/// Kind 4: bytes 6, 7 zero.
fn bus_fields_zero(record: &[u8; RECORD]) -> bool {
    zero(&record[6..8])
}

fn zero(bytes: &[u8]) -> bool {
    bytes.iter().all(|&byte| byte == 0)
}
