//! Random images and records to fill.

use crate::images::{structure_length, Image, ACS, LAST, MOST_HEADERS, START};
use crate::random::Random;
use model::{acs, IMAGE, RECORD};

/// An image, and a record as it is before the call.
pub struct Fill {
    pub image: Vec<u8>,
    pub record: Vec<u8>,
}

/// Images that others are made of, since to draw all bytes anew takes long.
pub struct Stock {
    /// Bytes at random.
    noise: Image,
    /// The same, but each doubleword from 100h on is a header that leads to
    /// another, and a few are ACS.
    maze: Image,
}

impl Stock {
    pub fn new(random: &mut Random) -> Stock {
        let bytes = (0..IMAGE / 8).flat_map(|_| random.word().to_le_bytes());
        let noise = Image {
            bytes: bytes.collect(),
        };
        let mut maze = noise.clone();
        for offset in (START..=LAST).step_by(4) {
            let id = random.pick(&[0, 0x000B, 0x0002, 0x010D, 0x1000, 0xFFFF]);
            let id = if random.one_in(15) { ACS } else { id };
            let version = if random.one_in(8) {
                random.byte() & 0xF
            } else {
                1
            };
            let next = if random.one_in(40) {
                0
            } else {
                random_place(random)
            };
            maze.put_header(offset, id, version, next);
        }
        Stock { noise, maze }
    }

    pub fn random_fill(&self, random: &mut Random) -> Fill {
        let mut image = self.random_image(random);
        if random.one_in(40) {
            spoil_length(random, &mut image.bytes);
        }
        Fill {
            image: image.bytes,
            record: random_record(random),
        }
    }

    fn random_image(&self, random: &mut Random) -> Image {
        match random.below(40) {
            0 => self.noise.clone(),
            1 => Image::filled(random.pick(&[0x00, 0x00, 0xFF, 0x0D])),
            2..=6 => self.random_way(random),
            _ => {
                let blank = random.one_in(8);
                let image = if blank {
                    Image::filled(0)
                } else {
                    self.noise.clone()
                };
                let mut image = with_registers(random, image);
                random_list(random, &mut image);
                if random.one_in(25) {
                    spoil_bytes(random, &mut image);
                }
                image
            }
        }
    }

    /// A way through the maze, which ends as chance has it.
    fn random_way(&self, random: &mut Random) -> Image {
        let mut image = with_registers(random, self.maze.clone());
        image.put_header(START, 0x0001, 1, random_place(random));
        for _ in 0..random.below(4) {
            let (offset, next) = (random_place(random), random_place(random));
            image.put_header(offset, 0x0001, 1, next);
        }
        image
    }
}

/// A place where a header may stand.
fn random_place(random: &mut Random) -> u16 {
    START + 4 * random.below(MOST_HEADERS as u64) as u16
}

/// The image with other bus numbers and windows.
fn with_registers(random: &mut Random, image: Image) -> Image {
    let [primary, secondary, subordinate, ..] = random.word().to_le_bytes();
    let (base, limit) = random_fields(random);
    let (prefetchable_base, prefetchable_limit) = random_fields(random);
    let (upper_base, upper_limit) = random_upper_halves(random);
    image
        .buses(primary, secondary, subordinate)
        .memory(base, limit)
        .prefetchable(prefetchable_base, prefetchable_limit)
        .upper_halves(upper_base, upper_limit)
}

/// Base and limit fields, often equal or next to each other in bits 15:4.
fn random_fields(random: &mut Random) -> (u16, u16) {
    let base = match random.below(8) {
        0 => 0,
        1 => 0xFFF,
        _ => random.word() as u16 & 0xFFF,
    };
    let limit = match random.below(6) {
        0 => base,
        1 => base.wrapping_sub(1) & 0xFFF,
        2 => (base + 1) & 0xFFF,
        3 => 0xFFF,
        _ => random.word() as u16 & 0xFFF,
    };
    let mut low = || match random.below(6) {
        0 | 1 => 0,
        2 | 3 => 1,
        _ => random.word() as u16 & 0xF,
    };
    (base << 4 | low(), limit << 4 | low())
}

/// Upper halves, often equal or next to each other.
fn random_upper_halves(random: &mut Random) -> (u32, u32) {
    let base = match random.below(6) {
        0 => 0,
        1 => u32::MAX,
        2 => random.pick(&[1, 0x7FFF_FFFF, 0x8000_0000]),
        _ => random.word() as u32,
    };
    let limit = match random.below(6) {
        0 | 1 => base,
        2 => base.wrapping_sub(1),
        3 => base.wrapping_add(1),
        4 => 0,
        _ => random.word() as u32,
    };
    (base, limit)
}

/// How a list ends.
#[derive(Clone, Copy)]
enum End {
    /// With ACS.
    Acs,
    /// With ACS right before the image's end, or running past it.
    Edge,
    /// With ACS of another version.
    Version,
    /// Without ACS.
    Nothing,
    BadNext,
    Loop,
}

/// A list of capabilities, most of which lead to ACS.
fn random_list(random: &mut Random, image: &mut Image) {
    let end = match random.below(20) {
        0..=8 => End::Acs,
        9..=12 => End::Edge,
        13..=15 => End::Nothing,
        16 => End::Version,
        17 | 18 => End::BadNext,
        _ => End::Loop,
    };
    let capability = random_capability(random);
    let control = random.word() as u16;
    let mut offsets = random_offsets(random);
    if let End::Edge = end {
        let over = random.pick(&[0, 0, 0, 0, 4, 4, 8, 32]);
        let last = (IMAGE as u16 - structure_length(capability) + over).min(LAST);
        offsets.retain(|&offset| offset != last);
        offsets.push(last);
    }
    // A bad next offset that leads to what would be right elsewhere.
    let bad_next = random_bad_next(random);
    if matches!(end, End::BadNext) && bad_next <= LAST {
        image.put_header(bad_next, random.pick(&[0x0001, ACS]), 1, 0);
    }
    let (&last, others) = offsets.split_last().unwrap();
    if let End::Acs | End::Edge | End::Version = end {
        image.put_registers(last, capability, control);
    }
    for (&offset, &next) in others.iter().zip(&offsets[1..]) {
        image.put_header(offset, random_id(random), random_version(random), next);
    }
    let (id, version, next) = match end {
        End::Acs | End::Edge => (ACS, 1, random_acs_next(random, image, &offsets)),
        End::Version => (ACS, random.pick(&[0, 2, 3, 5, 9, 15]), random_place(random)),
        End::Nothing => (random_id(random), random_version(random), 0),
        End::BadNext => (random_id(random), random_version(random), bad_next),
        End::Loop => (
            random_id(random),
            random_version(random),
            random_back(random, &offsets),
        ),
    };
    image.put_header(last, id, version, next);
}

/// The offsets of a list, the first of them 100h: a few mostly, all that there
/// are now and then.
fn random_offsets(random: &mut Random) -> Vec<u16> {
    let length = match random.below(1000) {
        0 => MOST_HEADERS,
        1..=4 => 41 + random.index(MOST_HEADERS - 40),
        5..=99 => 7 + random.index(34),
        _ => 1 + random.index(6),
    };
    let mut offsets = vec![START];
    if length > 40 {
        let mut others: Vec<u16> = (START + 4..=LAST).step_by(4).collect();
        if random.coin() {
            random.shuffle(&mut others);
        }
        offsets.extend(others.into_iter().take(length - 1));
        return offsets;
    }
    while offsets.len() < length {
        let next = match random.below(12) {
            0 => LAST,
            1 => (offsets[offsets.len() - 1] + 4).min(LAST),
            _ => random_place(random),
        };
        if !offsets.contains(&next) {
            offsets.push(next);
        }
    }
    if random.one_in(3) {
        offsets.sort();
    }
    offsets
}

/// An ID that isn't ACS, though it may look like it.
fn random_id(random: &mut Random) -> u16 {
    match random.below(4) {
        0 => random.pick(&[0, 0x000C, 0x000F, 0x010D, 0x0D00, 0x800D, 0x001D, 0xFFFF]),
        1 => random.word() as u16 | 0x0010,
        _ => random.pick(&[0x0001, 0x0003, 0x000B, 0x0019]),
    }
}

fn random_version(random: &mut Random) -> u8 {
    match random.below(4) {
        0 => random.byte() & 0xF,
        1 => 2,
        _ => 1,
    }
}

/// E more often than not, and sizes around whole doublewords.
fn random_capability(random: &mut Random) -> u16 {
    let size = match random.below(4) {
        0 => random.word() as u16 & 0xFF,
        1 => 0x00,
        _ => random.pick(&[
            0x01, 0x08, 0x1F, 0x20, 0x21, 0x40, 0x41, 0x60, 0x80, 0x81, 0xA0, 0xC0, 0xDF, 0xE0,
            0xE1, 0xFE, 0xFF,
        ]),
    };
    let bits = random.word() as u16 & 0xFF;
    match random.below(4) {
        0 => size << 8 | bits & !acs::E,
        _ => size << 8 | bits | acs::E,
    }
}

/// What the ACS structure's own next offset says: nothing, another ACS, a bad
/// offset or a visited one.
fn random_acs_next(random: &mut Random, image: &mut Image, offsets: &[u16]) -> u16 {
    match random.below(6) {
        0 | 1 => 0,
        2 => random_bad_next(random),
        3 => random_back(random, offsets),
        _ => {
            let second = START + 4 * random.below(MOST_HEADERS as u64 - 10) as u16;
            if offsets.contains(&second) || offsets.contains(&(second + 4)) {
                return 0;
            }
            image.put_header(second, ACS, 1, 0);
            second
        }
    }
}

/// Neither 0 nor a multiple of 4 from 100h.
fn random_bad_next(random: &mut Random) -> u16 {
    match random.below(4) {
        0 => random.pick(&[
            0x001, 0x002, 0x004, 0x0FC, 0x0FF, 0x101, 0x102, 0xFFE, 0xFFF,
        ]),
        1 => 4 + 4 * random.below(63) as u16,
        _ => random_place(random) + 1 + random.below(3) as u16,
    }
}

/// A visited offset: often the first, the last or the one before it.
fn random_back(random: &mut Random, offsets: &[u16]) -> u16 {
    match random.below(4) {
        0 => offsets[0],
        1 => offsets[offsets.len() - 1],
        2 => offsets[offsets.len().saturating_sub(2)],
        _ => random.pick(offsets),
    }
}

/// A record of noise, seldom of another length than 144 bytes.
fn random_record(random: &mut Random) -> Vec<u8> {
    let mut record: Vec<u8> = match random.below(8) {
        0 => vec![random.pick(&[0x00, 0xFF]); RECORD],
        _ => {
            let words = (0..RECORD / 8).flat_map(|_| random.word().to_le_bytes());
            words.collect()
        }
    };
    if random.one_in(40) {
        let length = random.pick(&[0, 1, 16, 80, 143, 145, 160, 288]);
        record.resize(length, 0x5A);
    }
    record
}

fn spoil_length(random: &mut Random, bytes: &mut Vec<u8>) {
    let length = match random.below(3) {
        0 => random.index(2 * IMAGE),
        _ => random.pick(&[0, 1, 0x100, 0x108, 4092, 4095, 4097, 4100, 2 * IMAGE]),
    };
    bytes.resize(length, 0x5A);
}

/// Some bytes anew, in the registers, in the list or anywhere.
fn spoil_bytes(random: &mut Random, image: &mut Image) {
    for _ in 0..random.between(1, 4) {
        let place = match random.below(3) {
            0 => random.index(0x40),
            1 => 0x100 + random.index(8),
            _ => random.index(IMAGE),
        };
        image.bytes[place] = random.byte();
    }
}
