//! What is measured: fabrics and one write through each, and images.

use std::hint::black_box;

use crate::library;
use cases::fabric::{fabric_f, request, with_bit, Fabric, WRITE};
use cases::images::{bridge, longest_list, Image};
use cases::shapes::{by_kind, chain, comb, shuffled, slots, wide, wide_full};
use model::{acs, HEAD, RECORD, ROOM};

/// The chassis of the examples: four root ports, switches of twelve slots, two
/// of them with a switch in a slot.
const CHASSIS: &[u8] = include_bytes!("../../../examples/snapshots/chassis.acs");

/// Control of every port: V, B, R and U, as F2 has it.
const CONTROL: u16 = 0x17;
const FLAGS: u8 = 2;

pub struct Subject {
    pub name: &'static str,
    pub snapshot: Vec<u8>,
    pub now: u64,
    pub origin: u16,
    pub header: Vec<u8>,
}

/// All of them, the ones that a user has first.
pub fn subjects() -> Vec<Subject> {
    let mut list = vec![
        Subject::chassis(),
        Subject::new("Fabric F", fabric_f(FLAGS, CONTROL), 4, 0x8010_0000),
        Subject::slots(),
        Subject::slots_by_kind(),
    ];
    list.extend([16, 32, 64, 128, 256].map(Subject::wide));
    list.push(Subject::shuffled());
    list.push(Subject::full_size());
    list.extend([16, 32, 64, 128, 256].map(Subject::chain));
    list.push(Subject::comb());
    list
}

impl Subject {
    /// A write of one doubleword from an endpoint to an address.
    fn new(name: &'static str, fabric: Fabric, origin: u16, address: u64) -> Subject {
        let requester = u16::from(fabric.record(origin).own_bus) << 8;
        Subject {
            name,
            snapshot: fabric.bytes(),
            now: fabric.taken,
            origin,
            header: request(WRITE, requester, 0, address, 1),
        }
    }

    /// From a slot of the switch in a slot to another slot above, redirected.
    fn chassis() -> Subject {
        let taken = CHASSIS[8..16].try_into().unwrap();
        Subject {
            name: "chassis",
            snapshot: CHASSIS.to_vec(),
            now: u64::from_le_bytes(taken),
            origin: 26,
            header: request(WRITE, 0x1000, 0, 0x8300_0000, 1),
        }
    }

    /// From the first endpoint to the last, redirected to the root port and
    /// reflected to another.
    fn slots() -> Subject {
        let fabric = slots(8, 15, FLAGS, CONTROL);
        Subject::first_to_last("8 switches of 15 slots", fabric)
    }

    fn slots_by_kind() -> Subject {
        let fabric = by_kind(slots(8, 15, FLAGS, CONTROL));
        Subject::first_to_last("8 switches, by kind", fabric)
    }

    /// From the first endpoint to the last, redirected.
    fn wide(records: usize) -> Subject {
        Subject::first_to_last("wide switch", wide(records, FLAGS, CONTROL))
    }

    fn shuffled() -> Subject {
        let fabric = shuffled(wide(256, FLAGS, CONTROL), 1);
        Subject::first_to_last("wide switch, shuffled", fabric)
    }

    /// The wide switch with E on too: the last of 256 vector bits redirects.
    fn full_size() -> Subject {
        let fabric = with_bit(wide_full(256, FLAGS, CONTROL | acs::E), 255);
        Subject::first_to_last("wide switch, 256 bits", fabric)
    }

    /// From the endpoint at the end of a line of switches to itself.
    fn chain(records: usize) -> Subject {
        let fabric = chain(records, FLAGS, CONTROL);
        let last = fabric.records.len() as u16 - 1;
        Subject::new("deepest chain", fabric, last, 0x8000_0000)
    }

    /// From the endpoint at the lowest switch to the one at the highest.
    fn comb() -> Subject {
        let fabric = comb(256, FLAGS, CONTROL);
        let last = fabric.records.len() as u16 - 1;
        Subject::new("comb", fabric, last, 0x8000_0000)
    }

    /// By address, whatever their order in the snapshot.
    fn first_to_last(name: &'static str, fabric: Fabric) -> Subject {
        let mut endpoints = fabric.of_kind(4);
        endpoints.sort_by_key(|&index| fabric.record(index).ranges[0]);
        let (first, last) = (endpoints[0], endpoints[endpoints.len() - 1]);
        let address = fabric.record(last).ranges[0].0;
        Subject::new(name, fabric, first, address)
    }

    pub fn records(&self) -> usize {
        (self.snapshot.len() - HEAD) / RECORD
    }

    pub fn library_check(&self) -> u64 {
        library::check(black_box(&self.snapshot), self.now)
    }

    pub fn model_check(&self) -> u64 {
        model::check(black_box(&self.snapshot), self.now)
    }

    /// A route with a new buffer for the hops, as a caller has one.
    pub fn library_route(&self) -> u64 {
        let mut hops = [0; ROOM];
        let snapshot = black_box(&self.snapshot);
        let word = library::route(snapshot, self.now, self.origin, &self.header, &mut hops);
        black_box(hops);
        word
    }

    pub fn model_route(&self) -> u64 {
        let mut hops = [0; ROOM];
        let snapshot = black_box(&self.snapshot);
        let word = model::route(snapshot, self.now, self.origin, &self.header, &mut hops);
        black_box(hops);
        word
    }
}

/// An image, and a record to fill from it.
pub struct ImageSubject {
    pub name: &'static str,
    image: Image,
    record: [u8; RECORD],
}

/// Both images: one as a bridge has it, and the longest list there is.
pub fn images() -> Vec<ImageSubject> {
    let few = bridge().list(&[0x100, 0x140, 0x160], 0x200);
    vec![
        ImageSubject::new("image, ACS is fourth", few),
        ImageSubject::new("image, 960 headers", longest_list()),
    ]
}

impl ImageSubject {
    fn new(name: &'static str, image: Image) -> ImageSubject {
        ImageSubject {
            name,
            image,
            record: [0xA5; RECORD],
        }
    }

    pub fn library_fill(&self) -> u64 {
        let mut record = self.record;
        let word = library::fill(black_box(&self.image.bytes), &mut record);
        black_box(record);
        word
    }

    pub fn model_fill(&self) -> u64 {
        let mut record = self.record;
        let word = model::fill(black_box(&self.image.bytes), &mut record);
        black_box(record);
        word
    }
}
