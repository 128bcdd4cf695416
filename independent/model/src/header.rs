//! Reading a TLP header.

use crate::bytes::{be32, be64};

/// What routing needs to know of a TLP.
#[derive(Clone, Copy, Debug)]
pub enum Tlp {
    Request(Request),
    Completion(Completion),
}

#[derive(Clone, Copy, Debug)]
pub struct Request {
    pub write: bool,
    pub requester_bus: u8,
    pub address_type: u8,
    pub address: u64,
}

#[derive(Clone, Copy, Debug)]
pub struct Completion {
    pub relaxed_ordering: bool,
    pub bus: u8,
    pub device_function: u8,
}

/// The address types: 1 is a translation request, 3 is reserved.
pub const UNTRANSLATED: u8 = 0;
pub const TRANSLATED: u8 = 2;

/// What byte 0 says.
enum Form {
    Request { write: bool, long: bool },
    Completion,
}

/// Reads a header, or gives nothing if it is bad.
pub fn read(bytes: &[u8]) -> Option<Tlp> {
    let (form, length) = form_and_length(*bytes.first()?)?;
    if bytes.len() != length {
        return None;
    }
    match form {
        Form::Request { write, long } => read_request(bytes, write, long),
        Form::Completion => Some(read_completion(bytes)),
    }
}

/// Byte 0: 00h and 40h, read and write with 12-byte header; 20h and 60h with
/// 16; 0Ah and 4Ah, completions with 12.
fn form_and_length(byte: u8) -> Option<(Form, usize)> {
    let request = |write, long| Form::Request { write, long };
    match byte {
        0x00 => Some((request(false, false), 12)),
        0x40 => Some((request(true, false), 12)),
        0x20 => Some((request(false, true), 16)),
        0x60 => Some((request(true, true), 16)),
        0x0A | 0x4A => Some((Form::Completion, 12)),
        _ => None,
    }
}

/// A request whose address mod 4,096 plus length in bytes exceeds 4,096 is bad.
fn read_request(bytes: &[u8], write: bool, long: bool) -> Option<Tlp> {
    let address = address(bytes, long);
    if address % 4096 + length_in_bytes(bytes) > 4096 {
        return None;
    }
    Some(Tlp::Request(Request {
        write,
        requester_bus: bytes[4],
        address_type: address_type(bytes),
        address,
    }))
}

/// Bytes 8-11 or 8-15, big-endian, low two bits taken as 0.
fn address(bytes: &[u8], long: bool) -> u64 {
    let address = if long {
        be64(bytes, 8)
    } else {
        u64::from(be32(bytes, 8))
    };
    address & !3
}

/// Byte 2, bits 3:2.
fn address_type(bytes: &[u8]) -> u8 {
    bytes[2] >> 2 & 3
}

/// Byte 2, bits 1:0, and byte 3: the length in doublewords, 0 meaning 1,024.
fn length_in_bytes(bytes: &[u8]) -> u64 {
    let doublewords = match u64::from(bytes[2] & 3) << 8 | u64::from(bytes[3]) {
        0 => 1024,
        doublewords => doublewords,
    };
    4 * doublewords
}

/// A completion goes to the ID in bytes 8-9, bus first.
fn read_completion(bytes: &[u8]) -> Tlp {
    Tlp::Completion(Completion {
        relaxed_ordering: bytes[2] >> 5 & 1 == 1,
        bus: bytes[8],
        device_function: bytes[9],
    })
}
