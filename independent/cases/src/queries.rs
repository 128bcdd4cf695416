//! Random origins and headers for a fabric.

use crate::fabric::{completion, request, LONG_READ, LONG_WRITE, READ, WRITE};
use crate::fabric::{Fabric, Record, CLOSED, COMPLETION, DATA_COMPLETION};
use crate::random::Random;

pub struct Query {
    pub origin: u16,
    pub header: Vec<u8>,
}

pub fn random_query(random: &mut Random, fabric: &Fabric) -> Query {
    let origin = random_origin(random, fabric);
    let mut header = if random.below(10) < 3 {
        random_completion(random, fabric, origin)
    } else {
        random_request(random, fabric, origin)
    };
    if random.one_in(20) {
        spoil(random, &mut header);
    }
    Query { origin, header }
}

fn random_origin(random: &mut Random, fabric: &Fabric) -> u16 {
    let count = fabric.records.len() as u16;
    let endpoints = fabric.of_kind(4);
    match random.below(20) {
        0 => random.pick(&[count, count.wrapping_sub(1), 0xFFFE, 0, 256, 0x8000]),
        1 => random.below(u64::from(count) + 1) as u16,
        2..=4 => 0xFFFF,
        _ if endpoints.is_empty() => 0xFFFF,
        _ => random.pick(&endpoints),
    }
}

fn random_request(random: &mut Random, fabric: &Fabric, origin: u16) -> Vec<u8> {
    let address = random_address(random, fabric, origin);
    let kinds = if address < 1 << 32 && random.coin() {
        [READ, WRITE]
    } else {
        [LONG_READ, LONG_WRITE]
    };
    let kind = random.pick(&kinds);
    let at = random.pick(&[0, 0, 0, 0, 0, 1, 2, 2, 2, 3]);
    let requester = random_requester(random, fabric, origin);
    let doublewords = random_length(random, address);
    let mut header = request(kind, requester, at, address, doublewords);
    // Fields that aren't looked at.
    header[1] = random.byte();
    header[2] |= random.byte() & 0xF0;
    header[6] = random.byte();
    header[7] = random.byte();
    let last = header.len() - 1;
    header[last] |= random.pick(&[0, 0, 1, 2, 3]);
    header
}

fn random_completion(random: &mut Random, fabric: &Fabric, origin: u16) -> Vec<u8> {
    let bus = random_bus(random, fabric, origin);
    let function = if random.one_in(6) { random.byte() } else { 0 };
    let kind = random.pick(&[COMPLETION, DATA_COMPLETION]);
    let mut header = completion(kind, u16::from_be_bytes([bus, function]), random.coin());
    header[1] = random.byte();
    header[2] |= random.byte() & 0xDF;
    for place in [3, 4, 5, 6, 7, 10, 11] {
        header[place] = random.byte();
    }
    header
}

/// Endpoints to aim at: mostly others than the origin, if there are others.
fn targets(random: &mut Random, fabric: &Fabric, origin: u16) -> Vec<u16> {
    let endpoints = fabric.of_kind(4);
    let others: Vec<u16> = endpoints
        .iter()
        .copied()
        .filter(|&other| other != origin)
        .collect();
    if others.is_empty() || random.one_in(4) {
        endpoints
    } else {
        others
    }
}

/// A bus to send a completion to: often an endpoint's.
fn random_bus(random: &mut Random, fabric: &Fabric, origin: u16) -> u8 {
    let endpoints = targets(random, fabric, origin);
    if !endpoints.is_empty() && random.below(10) < 6 {
        return fabric.record(random.pick(&endpoints)).own_bus;
    }
    if fabric.records.is_empty() || random.one_in(8) {
        return random.byte();
    }
    let record = &fabric.records[random.index(fabric.records.len())];
    let bus = random.pick(&[record.own_bus, record.secondary, record.subordinate]);
    bus.wrapping_add(random.pick(&[0, 0, 1, 255]))
}

fn random_requester(random: &mut Random, fabric: &Fabric, origin: u16) -> u16 {
    let own = fabric
        .records
        .get(usize::from(origin))
        .map_or(0, |record| record.own_bus);
    let bus = match random.below(10) {
        0 => random.byte(),
        1 | 2 => random_bus(random, fabric, origin),
        _ => own,
    };
    u16::from_be_bytes([bus, random.pick(&[0, 0, 8, bus])])
}

/// An address in some range, at its edges, or anywhere. It may not be aligned.
fn random_address(random: &mut Random, fabric: &Fabric, origin: u16) -> u64 {
    let Some((first, last)) = random_range(random, fabric, origin) else {
        return random.word() >> random.below(64);
    };
    match random.below(12) {
        0 => first,
        1 => first.wrapping_sub(4),
        2 => last & !3,
        3 => last.wrapping_add(1),
        4 => random.word() >> random.below(64),
        5 => last.wrapping_sub(random.below(256)) & !3,
        6 => first.saturating_add(0xFFC).min(last & !3),
        _ => random.between(first, last) & !3,
    }
}

/// An open range of some node, of an endpoint more often than of a bridge.
fn random_range(random: &mut Random, fabric: &Fabric, origin: u16) -> Option<(u64, u64)> {
    let open = |record: &Record| record.ranges.iter().any(|&range| range != CLOSED);
    let mut list = targets(random, fabric, origin);
    list.retain(|&index| open(fabric.record(index)));
    if list.is_empty() || random.one_in(3) {
        list = fabric.matching(open);
    }
    if list.is_empty() {
        return None;
    }
    let record = fabric.record(random.pick(&list));
    let open: Vec<(u64, u64)> = record
        .ranges
        .iter()
        .copied()
        .filter(|&(first, last)| first <= last)
        .collect();
    if open.is_empty() {
        return None;
    }
    Some(random.pick(&open))
}

/// A length that mostly keeps within 4 KiB; at its edge now and then.
fn random_length(random: &mut Random, address: u64) -> u16 {
    let room = (4096 - (address & !3) % 4096) / 4;
    let length = match random.below(10) {
        0 => room,
        1 if random.coin() => room + 1,
        2 if random.coin() => random.below(1025),
        3 if room == 1024 || random.one_in(4) => 0,
        _ => random.between(1, room.min(40)),
    };
    length as u16 & 0x3FF
}

/// Makes a header bad, or at least doubtful.
fn spoil(random: &mut Random, header: &mut Vec<u8>) {
    match random.below(5) {
        0 => {
            header.truncate(random.index(header.len()));
        }
        1 => {
            for _ in 0..random.between(1, 5) {
                header.push(random.byte());
            }
        }
        2 => header[0] = random.byte(),
        3 => header[0] = random.pick(&[0x00, 0x01, 0x0A, 0x0B, 0x20, 0x21, 0x40, 0x4A, 0x60, 0x41]),
        _ => {
            let place = random.index(header.len());
            header[place] = random.byte();
        }
    }
}
