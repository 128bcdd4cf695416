//! A fixed row of items for the gate, kept with the answers to them: `acsroute`
//! inputs here, fills in `fills`.

mod fills;

use crate::batches::{Ask, Batch, Queries};
use crate::damage::{break_rule, damaged, inside, random_time, BREAK_COUNT};
use crate::fabric::{completion, fabric_f, request, with_bit, with_capability};
use crate::fabric::{Fabric, Record, NO_PARENT};
use crate::fabric::{COMPLETION, DATA_COMPLETION, LONG_READ, LONG_WRITE, READ, WRITE};
use crate::fills::Fill;
use crate::queries::random_query;
use crate::random::Random;
use crate::shapes::{chain, random_fabric, roots, wide_full, with_endpoints};
use crate::stream::{input_bytes, query_item};
use model::acs;
use model::gate::Item;
use model::Input;
use model::ROOM;

const NOW: u64 = 1500;
const HOST: u16 = 0xFFFF;
const MIB: u64 = 1 << 20;
const PEER: u64 = 0x8010_0000;

/// Random fabrics of 2 to 6 records, with some queries and damages each.
const RANDOM_FABRICS: usize = 350;

/// The items, the same in every run.
pub fn items() -> Vec<Vec<u8>> {
    let queries = inputs().into_iter().map(|input| query_item(&input));
    queries.chain(fills::items()).collect()
}

/// The inputs of `acsroute`.
fn inputs() -> Vec<Vec<u8>> {
    let mut corpus = Corpus { items: Vec::new() };
    corpus.fabric_f_cases();
    corpus.framing();
    corpus.refusals();
    corpus.headers();
    corpus.controls();
    corpus.vectors();
    corpus.full_size_vectors();
    corpus.root_ports();
    corpus.completions();
    corpus.right_edges();
    corpus.broken_rules();
    corpus.extremes();
    corpus.random();
    corpus.items
}

/// The items that are made right, as cases to compare by.
pub fn batches() -> Vec<Batch> {
    let items = items();
    items.iter().filter_map(|item| batch(item)).collect()
}

fn batch(item: &[u8]) -> Option<Batch> {
    match Item::read(item)? {
        Item::Query(input) => Input::read(input).map(query_batch),
        Item::Fill { image, record } => Some(Batch::Fills(vec![Fill {
            image: image.to_vec(),
            record: record.to_vec(),
        }])),
    }
}

fn query_batch(input: Input) -> Batch {
    Batch::Queries(Queries {
        snapshot: input.snapshot.to_vec(),
        now: input.now,
        asks: vec![Ask {
            origin: input.origin,
            header: input.header.to_vec(),
            buffer: ROOM,
        }],
    })
}

struct Corpus {
    items: Vec<Vec<u8>>,
}

impl Corpus {
    fn ask(&mut self, fabric: &Fabric, origin: u16, header: &[u8]) {
        self.items
            .push(input_bytes(&fabric.bytes(), NOW, origin, header));
    }

    /// F1 to F14 of document 01, in order.
    fn fabric_f_cases(&mut self) {
        let usual = request(WRITE, 0x0300, 0, PEER, 1);
        let translated = request(WRITE, 0x0300, 2, PEER, 1);
        let to = |address, doublewords| request(WRITE, 0x0300, 0, address, doublewords);
        self.ask(&fabric_f(2, 0), 4, &usual);
        self.ask(&fabric_f(2, 0x17), 4, &usual);
        self.ask(&fabric_f(0, 0x17), 4, &usual);
        self.ask(&fabric_f(2, 0x07), 4, &usual);
        self.ask(&fabric_f(2, 0x37), 4, &usual);
        self.ask(&with_bit(fabric_f(2, 0x37), 2), 4, &usual);
        self.ask(
            &with_bit(fabric_f(2, 0x20), 2),
            4,
            &request(READ, 0x0300, 0, PEER, 1),
        );
        self.ask(&fabric_f(2, 0x17), 4, &request(WRITE, 0x0400, 2, PEER, 1));
        self.ask(&fabric_f(2, 0x17), 4, &translated);
        self.ask(&fabric_f(2, 0x55), 4, &translated);
        self.ask(&fabric_f(2, 0), 4, &to(0x8030_0000, 1));
        self.ask(&fabric_f(2, 0), 4, &to(0x1000, 1));
        self.ask(&fabric_f(2, 0), 4, &to(0x8010_1000, 1));
        self.ask(&fabric_f(2, 0), 4, &to(0x8010_0FFC, 1));
        self.ask(&fabric_f(2, 0), 4, &to(0x8010_0FFC, 2));
        self.ask(
            &fabric_f(2, 0x18),
            5,
            &completion(DATA_COMPLETION, 0x0300, false),
        );
        self.ask(
            &fabric_f(2, 0x18),
            5,
            &completion(DATA_COMPLETION, 0x0300, true),
        );
    }

    /// Inputs that are shorter or longer than they say.
    fn framing(&mut self) {
        let input = input_bytes(&pair().bytes(), NOW, 1, &request(READ, 0x0100, 0, 0, 1));
        let last = input.len() - 1;
        let longer = [&input[..], &[0]].concat();
        let cut = [0, 1, 2, 3, 24, 313, 314, 315, 321, 322, 323, 324, 325, last];
        self.items
            .extend(cut.map(|length| input[..length].to_vec()));
        self.items.push(input);
        self.items.push(longer);
        // A snapshot length beyond the end, and one that leaves bytes over.
        let mut wrong = self.items[0].clone();
        wrong[0] ^= 1;
        self.items.push(wrong.clone());
        wrong[1] = 0xFF;
        self.items.push(wrong);
        // No snapshot, no header.
        self.items.push(input_bytes(&[], NOW, 1, &[]));
        self.items.push(input_bytes(&pair().bytes(), NOW, 1, &[]));
        // 65,804 bytes, one more than any input has, and far more.
        self.items.push(vec![0xFF; 65_804]);
        self.items.push(vec![0xFF; 70_000]);
    }

    /// Every refusal but 7, alone and with every other at once.
    fn refusals(&mut self) {
        let good = Parts {
            bytes: pair().bytes(),
            now: NOW,
            origin: 1,
            header: request(READ, 0x0100, 0, 0x8000_0000, 1),
        };
        for (number, first) in SPOILS.iter().enumerate() {
            let mut once = good.clone();
            first(&mut once);
            self.items.push(once.input());
            for second in &SPOILS[..number] {
                let mut twice = once.clone();
                second(&mut twice);
                self.items.push(twice.input());
            }
        }
        // The times themselves are good, the seconds beside them aren't.
        for now in [999, 1000, 2000, 2001, 0, u64::MAX] {
            self.items.push(
                Parts {
                    now,
                    ..good.clone()
                }
                .input(),
            );
        }
        for origin in [0, 1, 2, 3, 256, 0x00FF, 0xFFFE, 0xFFFF] {
            self.items.push(
                Parts {
                    origin,
                    ..good.clone()
                }
                .input(),
            );
        }
        for origin in 0..7 {
            self.ask(&fabric_f(2, 0), origin, &request(READ, 0x0300, 0, PEER, 1));
        }
        // An empty snapshot has nothing but the host.
        let empty = Fabric::new(0, Vec::new());
        for origin in [HOST, 0] {
            self.ask(&empty, origin, &request(READ, 0, 0, 0, 1));
        }
        // Lengths around the header's, all of it or a part.
        for length in [0, 1, 3, 4, 23, 24, 25, 167, 168, 169, 311] {
            let mut cut = good.clone();
            cut.bytes.truncate(length);
            self.items.push(cut.input());
        }
    }

    /// Headers, good and bad, on Fabric F.
    fn headers(&mut self) {
        let fabric = fabric_f(2, 0);
        // Every format with the types around those that are covered.
        for kind in (0..=255).filter(|kind| [0, 1, 2, 4, 9, 0x0A, 0x0B].contains(&(kind & 0x1F))) {
            for length in [12, 16] {
                let mut header = request(WRITE, 0x0100, 0, 0x8000_0000, 1);
                header.resize(length, 0);
                header[0] = kind;
                self.ask(&pair(), 1, &header);
            }
        }
        for kind in [
            READ,
            WRITE,
            LONG_READ,
            LONG_WRITE,
            COMPLETION,
            DATA_COMPLETION,
        ] {
            for length in [0, 1, 4, 8, 9, 10, 11, 12, 13, 15, 16, 17, 255] {
                let mut header = request(LONG_WRITE, 0x0300, 0, PEER, 1);
                header.resize(length, 0);
                if length > 0 {
                    header[0] = kind;
                }
                self.ask(&pair(), 1, &header);
            }
        }
        // The edge of 4 KiB, with every low bit and long lengths.
        for (address, doublewords) in [
            (0xFFC, 1),
            (0xFFD, 1),
            (0xFFF, 1),
            (0xFFC, 2),
            (0xFF8, 2),
            (0xFF8, 3),
            (0x000, 0),
            (0x003, 0),
            (0x004, 0),
            (0x004, 1023),
            (0x008, 1023),
            (0xC00, 256),
            (0xC04, 256),
            (0x800, 512),
            (0x804, 512),
            (0x804, 255),
        ] {
            let at = 0x8000_0000 + address;
            self.ask(&pair(), 1, &request(WRITE, 0x0100, 0, at, doublewords));
            self.ask(&pair(), 1, &request(LONG_READ, 0x0100, 0, at, doublewords));
        }
        // A 16-byte header may have any address; its high half counts.
        for address in [PEER, PEER + (1 << 32), PEER + (1 << 63), u64::MAX] {
            self.ask(&fabric, 4, &request(LONG_WRITE, 0x0300, 0, address, 1));
        }
        // A completion's length isn't tested.
        let mut long = completion(DATA_COMPLETION, 0x0300, true);
        (long[2], long[3], long[10], long[11]) = (0x23, 0xFF, 0x0F, 0xFC);
        self.ask(&fabric, 5, &long);
        // Neither are fields that aren't named.
        let mut noise = request(WRITE, 0x0300, 0, PEER, 1);
        (noise[1], noise[2], noise[6], noise[7]) = (0xFF, 0xF0, 0xFF, 0xFF);
        self.ask(&fabric, 4, &noise);
    }

    /// Controls of the switch port that an endpoint's request enters.
    fn controls(&mut self) {
        let kinds = [READ, WRITE, LONG_READ, LONG_WRITE];
        let mut ask = |number: usize, bit: bool, control: u16, at: u8| {
            let mut fabric = fabric_f(2, 0x10);
            fabric.records[2].control = control;
            if bit {
                fabric.records[2].set_vector_bit(2);
            }
            self.ask(&fabric, 4, &request(kinds[number % 4], 0x0300, at, PEER, 1));
        };
        // The table with its bit set or clear, T on or off, untranslated or not.
        for number in 0..32 {
            let choose = |place: usize, bits: u16| if number >> place & 1 == 1 { bits } else { 0 };
            let control = choose(0, acs::R) | choose(1, acs::E) | choose(2, acs::T);
            let at = choose(4, 2) as u8;
            ask(number, choose(3, 1) == 1, control, at);
        }
        // V, B and T against every address type.
        for number in 0..32 {
            let choose = |place: usize, bits: u16| if number >> place & 1 == 1 { bits } else { 0 };
            let control = acs::R | choose(0, acs::V) | choose(1, acs::B) | choose(2, acs::T);
            ask(number, true, control, (number >> 3) as u8);
        }
        // U and its absence at each level, for requests and completions.
        for (lower, upper, flags) in [
            (0x10, 0x10, 2),
            (0x10, 0x10, 0),
            (0x10, 0x00, 2),
            (0x00, 0x10, 2),
            (0x00, 0x00, 2),
            (0x14, 0x00, 2),
            (0x18, 0x00, 2),
        ] {
            let mut fabric = fabric_f(flags, lower);
            fabric.records[0].control = upper;
            // To itself, to its own port's hole, and to the peer.
            for address in [0x8000_0000, 0x8000_1000, PEER] {
                self.ask(&fabric, 4, &request(LONG_READ, 0x0300, 0, address, 1));
            }
            for id in [0x0300, 0x0400, 0x0200, 0x0500] {
                self.ask(&fabric, 4, &completion(COMPLETION, id, false));
            }
        }
        // V at the root port, where the switch port let it pass.
        for bus in [0, 1, 2, 3, 4, 5] {
            let mut fabric = fabric_f(2, 0);
            fabric.records[0].control = acs::V | acs::U;
            for address in [0x1000, PEER] {
                self.ask(&fabric, 4, &request(READ, bus << 8, 0, address, 1));
                fabric.records[2].control = acs::R;
            }
        }
        // B at the root port.
        for at in 0..4 {
            let mut fabric = fabric_f(2, 0);
            fabric.records[0].control = acs::B;
            self.ask(&fabric, 4, &request(WRITE, 0x0300, at, 0x1000, 1));
        }
        // From the host: no control applies.
        for (control, address) in [
            (0x7F, PEER),
            (0x7F, 0x8030_0000),
            (0x7F, 0x1000),
            (0, 0x8000_2000),
        ] {
            let fabric = with_bit(fabric_f(0, control), 2);
            self.ask(&fabric, HOST, &request(WRITE, 0x0300, 2, address, 1));
        }
    }

    /// The vector is read by Port Number, within its size.
    fn vectors(&mut self) {
        // One bit set, and size fields that take it in or just not; 00h is 256 bits.
        for (number, sizes) in [
            (1, &[0x00, 0x01, 0x02][..]),
            (7, &[0x00, 0x07, 0x08]),
            (8, &[0x00, 0x08, 0x09]),
            (63, &[0x00, 0x3F, 0x40]),
            (200, &[0x00, 0xC8, 0xC9, 0xFF]),
            (254, &[0x00, 0xFE, 0xFF]),
            (255, &[0x00, 0x01, 0xFF]),
        ] {
            for &size in sizes {
                let mut fabric = fabric_f(2, 0x20);
                fabric.records[3].port_number = number;
                fabric.records[2].port_number = 2;
                fabric.records[2].capability = 0x7F | size << 8;
                fabric.records[2].set_vector_bit(number);
                let kind = if size == 0xFF { WRITE } else { READ };
                self.ask(&fabric, 4, &request(kind, 0x0300, 0, PEER, 1));
            }
        }
        // Only the bit of another number is set: device, byte 5, bus, own number.
        for other in [0, 1, 3, 4, 8, 16, 17, 5] {
            let mut fabric = fabric_f(2, 0x20);
            fabric.records[2].port_number = 16;
            fabric.records[3].port_number = 17;
            fabric.records[2].capability = 0xFF7F;
            fabric.records[2].set_vector_bit(other);
            fabric.records[3].set_vector_bit(17);
            self.ask(&fabric, 4, &request(READ, 0x0300, 0, PEER, 1));
            // A completion doesn't obey the vector.
            self.ask(&fabric, 4, &completion(DATA_COMPLETION, 0x0400, false));
        }
    }

    /// Request 1/13 of document 02: size field 00h in a Capability with E.
    fn full_size_vectors(&mut self) {
        let write = request(WRITE, 0x0300, 0, PEER, 1);
        let full = |control| with_capability(fabric_f(2, control), 0x007F);
        // F5, F6 and F7 so, and F7 as a write.
        self.ask(&full(0x37), 4, &write);
        self.ask(&with_bit(full(0x37), 2), 4, &write);
        for kind in [READ, WRITE] {
            let header = request(kind, 0x0300, 0, PEER, 1);
            self.ask(&with_bit(full(0x20), 2), 4, &header);
        }
        // One bit, though two are set.
        for number in [0, 1] {
            let mut fabric = with_capability(fabric_f(2, 0x20), 0x017F);
            fabric.records[2].port_number = 2;
            fabric.records[3].port_number = number;
            fabric.records[2].vector[0] = 3;
            self.ask(&fabric, 4, &write);
        }
        // E in the Capability only, then in neither register.
        self.ask(&with_bit(full(0x10), 2), 4, &write);
        for control in [0x10, 0x17] {
            let without = with_capability(fabric_f(2, control), 0x005F);
            self.ask(&with_bit(without, 2), 4, &write);
        }
        // Root ports have vectors too; those of the two have bit 1 set.
        let roots = with_capability(two_roots(1, 0x20), 0x007F);
        self.ask(&roots, 2, &request(READ, 0x0100, 0, 0x9000_0000, 1));
    }

    /// Two root ports: what passes between them.
    fn root_ports(&mut self) {
        for flags in 0..4 {
            for control in [0, 0x04, 0x08, 0x24, 0x60, 0x1F] {
                let fabric = two_roots(flags, control);
                for at in [0, 2] {
                    self.ask(&fabric, 2, &request(READ, 0x0100, at, 0x9000_0000, 1));
                }
                self.ask(&fabric, 2, &completion(COMPLETION, 0x0300, false));
                self.ask(&fabric, 2, &completion(COMPLETION, 0x0300, true));
            }
            // To itself, past the peer's endpoint, to nowhere.
            let fabric = two_roots(flags, 0x10);
            for address in [0x8000_0000, 0x9000_1000, 0xA000_0000] {
                self.ask(&fabric, 2, &request(WRITE, 0x0100, 0, address, 1));
            }
            for id in [0x0100, 0x0108, 0x0200, 0x0400, 0x0500, 0x0000] {
                self.ask(&fabric, 2, &completion(COMPLETION, id, false));
            }
            // The peer has no child.
            let mut childless = two_roots(flags, 0x04);
            childless.records.pop();
            self.ask(&childless, 2, &request(WRITE, 0x0100, 0, 0x9000_0000, 1));
            self.ask(&childless, HOST, &request(WRITE, 0x0100, 0, 0x9000_0000, 1));
        }
    }

    /// Completions on Fabric F, by every bus and from every origin.
    fn completions(&mut self) {
        for bus in 0..6u16 {
            let header = |function: u16| completion(DATA_COMPLETION, bus << 8 | function, false);
            for control in [0, 0x08, 0x18] {
                self.ask(&fabric_f(0, control), 4, &header(0));
            }
            self.ask(&fabric_f(0, 0), 4, &header(8));
            self.ask(&fabric_f(0, 0x1B), HOST, &header(0));
        }
        // Bytes 4-5 and the address type of a completion don't matter.
        let mut header = completion(DATA_COMPLETION, 0x0300, false);
        (header[2], header[4], header[5]) = (0x0C, 0xEE, 0x01);
        self.ask(&fabric_f(2, 0x7F), 5, &header);
        self.ask(&fabric_f(2, 0x07), 5, &header);
        // No Snoop is not Relaxed Ordering.
        let mut header = completion(DATA_COMPLETION, 0x0300, false);
        header[2] = 0x10;
        self.ask(&fabric_f(2, 0x18), 5, &header);
        // A switch port with more buses than its endpoint's.
        let mut fabric = fabric_f(2, 0);
        (fabric.records[0].subordinate, fabric.records[1].subordinate) = (9, 9);
        fabric.records[3].subordinate = 9;
        for id in [0x0400, 0x0500, 0x0900, 0x0A00] {
            self.ask(&fabric, 4, &completion(COMPLETION, id, false));
        }
    }

    /// Records at the edges of the rules that are right, or just not.
    fn right_edges(&mut self) {
        let header = request(LONG_READ, 0x0100, 0, 0, 1);
        for (first, last) in [
            (0, 127),
            (0, 63),
            (128, 255),
            (64, 191),
            (0, 255),
            (128, 383),
            (0, 383),
            (0, 0),
            (1, 1),
            (1, 0),
            (2, 1),
            (0, u64::MAX),
            (0, u64::MAX >> 1),
            (1 << 63, u64::MAX),
            (1 << 62, (1 << 63) - 1),
            (u64::MAX - 127, u64::MAX),
            (1 << 62, (1 << 62) + (1 << 63) - 1),
        ] {
            let mut fabric = whole();
            fabric.records[1].ranges[3] = (first, last);
            self.ask(&fabric, 1, &header);
            self.ask(&fabric, HOST, &request(LONG_WRITE, 0, 0, last, 1));
            self.ask(&fabric, HOST, &request(LONG_WRITE, 0, 0, first, 1));
            self.ask(
                &fabric,
                HOST,
                &request(LONG_WRITE, 0, 0, last.wrapping_add(1), 1),
            );
        }
        for (number, first, last) in [
            (0, 0, MIB - 1),
            (1, 0, MIB - 1),
            (0, 0, 0xFFFF_FFFF),
            (0, 0, 0x1_000F_FFFF),
            (0, 0x1_0000_0000, 0x1_000F_FFFF),
            (1, 0x1_0000_0000, 0x1_000F_FFFF),
            (1, 0xFFF0_0000, 0x1_000F_FFFF),
            (1, u64::MAX - (MIB - 1), u64::MAX),
            (1, 0, u64::MAX),
            (0, 0, 0),
            (0, 0x1_0000, MIB - 1),
            (0, 0, MIB + 0xFFFF),
            (0, 0, 0xFFFF),
            (1, 1, MIB - 1),
            (1, 0, MIB - 2),
            (1, 0, MIB),
            (2, 0, MIB - 1),
            (5, 0, MIB - 1),
        ] {
            let mut fabric = whole();
            fabric.records.truncate(1);
            fabric.records[0].ranges[1] = (1, 0);
            fabric.records[0].ranges[number] = (first, last);
            self.ask(&fabric, HOST, &request(LONG_READ, 0, 0, first, 1));
            self.ask(&fabric, HOST, &request(LONG_READ, 0, 0, last, 1));
        }
        self.windows_of_parents();
        self.requests_past_a_range();
        self.registers();
        self.numbers();
    }

    /// A child's window in the parent's other window, in two touching ones, over
    /// the edge, and a sibling's window of another number.
    fn windows_of_parents(&mut self) {
        let low = 0x8000_0000;
        let high = low + 4 * MIB;
        let mut fabric = fabric_f(2, 0);
        for bridge in [0, 1] {
            fabric.records[bridge].ranges[1] = (high, high + 4 * MIB - 1);
        }
        for (number, first, last) in [
            (0, high, high + MIB - 1),
            (1, low + 2 * MIB, low + 3 * MIB - 1),
            (1, high - MIB, high + MIB - 1),
            (1, low + 2 * MIB, high - 1),
            (1, high + 3 * MIB, high + 5 * MIB - 1),
            (1, low - MIB, low - 1),
            (1, low, low + MIB - 1),
            (0, low, low + MIB - 1),
            (1, high, high + 4 * MIB - 1),
        ] {
            let mut changed = fabric.clone();
            changed.records[3].ranges[0] = (1, 0);
            changed.records[3].ranges[number] = (first, last);
            changed.records.truncate(5);
            self.ask(&changed, 4, &request(LONG_READ, 0x0300, 0, first, 1));
            self.ask(&changed, HOST, &request(LONG_READ, 0x0300, 0, last & !3, 1));
        }
    }

    /// Covering looks at the first address only.
    fn requests_past_a_range(&mut self) {
        let mut fabric = fabric_f(2, 0);
        fabric.records[5].ranges[0] = (PEER, PEER + 127);
        fabric.records[5].ranges[4] = (PEER + 256, PEER + 511);
        for (address, doublewords) in [
            (0, 32),
            (0, 33),
            (124, 1),
            (124, 2),
            (128, 1),
            (252, 1),
            (256, 1),
            (508, 4),
            (512, 1),
        ] {
            self.ask(
                &fabric,
                4,
                &request(WRITE, 0x0300, 0, PEER + address, doublewords),
            );
        }
    }

    /// Capability and Control at a root port and at a kind 3.
    fn registers(&mut self) {
        let header = request(READ, 0x0100, 0, 0, 1);
        let with_v_and_b = (0..=0xFF).filter(|capability| capability & 3 == 3);
        let others = [
            0, 1, 2, 4, 0x0C, 0x7C, 0x7D, 0x7E, 0x80, 0x0800, 0xFF00, 0x0803, 0x8003,
        ];
        for capability in with_v_and_b.chain(others) {
            let mut fabric = pair();
            fabric.records.truncate(1);
            fabric.records[0].capability = capability;
            self.ask(&fabric, HOST, &header);
            let mut fabric = switch();
            fabric.records[2].capability = capability;
            self.ask(&fabric, HOST, &header);
        }
        for bit in 0..16 {
            let mut fabric = pair();
            fabric.records.truncate(1);
            for capability in [0, 0x03, 0x7F, 0xFF7F] {
                fabric.records[0].capability = capability;
                fabric.records[0].control = 1 << bit;
                self.ask(&fabric, HOST, &header);
            }
        }
    }

    /// Numbers that may coincide and numbers that may not.
    fn numbers(&mut self) {
        let header = request(READ, 0x0300, 0, PEER, 1);
        let changes: &[fn(&mut Fabric)] = &[
            |fabric| fabric.records[3].port_number = 1,
            |fabric| fabric.records[3].port_number = 0,
            |fabric| fabric.records[3].port_number = 4,
            |fabric| fabric.records[2].port_number = 3,
            |fabric| fabric.records[3].device_function = 0,
            |fabric| fabric.records[3].device_function = 1,
            |fabric| fabric.records[1].port_number = 1,
            |fabric| fabric.records[1].device_function = 1,
            |fabric| fabric.records[5].port_number = 9,
            |fabric| fabric.records[5].device_function = 8,
            |fabric| fabric.records[5].secondary = 1,
            |fabric| fabric.records[5].subordinate = 1,
            |fabric| fabric.records[4].own_bus = 4,
            |fabric| fabric.records[1].own_bus = 0,
            |fabric| fabric.records[1].secondary = 1,
            |fabric| fabric.records[2].secondary = 2,
            |fabric| fabric.records[3].subordinate = 5,
            |fabric| fabric.records[1].subordinate = 5,
            |fabric| fabric.records[1].subordinate = 3,
            |fabric| fabric.records[2].subordinate = 2,
            |fabric| fabric.records[2].subordinate = 4,
            |fabric| fabric.records[0].parent = 0,
            |fabric| fabric.records[3].parent = 0,
            |fabric| fabric.records[3].parent = 2,
            |fabric| fabric.records[3].parent = 3,
            |fabric| fabric.records[3].parent = 4,
            |fabric| fabric.records[5].parent = 2,
            |fabric| fabric.records[5].parent = 1,
            |fabric| fabric.records[5].parent = 4,
            |fabric| fabric.records[5].parent = 0xFFFF,
            |fabric| fabric.records[1].vector[31] = 0x80,
            |fabric| fabric.records[4].vector[0] = 1,
            |fabric| fabric.records[1].capability = 0x087F,
            |fabric| fabric.records[4].control = 1,
            |fabric| fabric.records[1].reserved[0] = 1,
            |fabric| fabric.records[2].reserved[1] = 1,
            |fabric| fabric.records[3].reserved[2] = 1,
            |fabric| fabric.records[4].reserved[3] = 0x80,
            |fabric| fabric.records[0].reserved[3] = 1,
            |fabric| fabric.records[0].kind = 0,
            |fabric| fabric.records[5].kind = 5,
            |fabric| fabric.records[5].kind = 0,
            |fabric| fabric.records[5].kind = 3,
            |fabric| fabric.records[5].kind = 2,
            |fabric| fabric.records[5].kind = 1,
            // An endpoint, then a switch, under a kind 2.
            |fabric| fabric.records[5] = Record::new(4, 1).buses(2, 0, 0),
            |fabric| fabric.records[5] = Record::new(2, 1).buses(2, 3, 3),
            // An endpoint and a switch under an endpoint.
            |fabric| fabric.records[5] = Record::new(4, 4),
            |fabric| fabric.records[5] = Record::new(2, 4),
            // A kind 3 under a port without a child.
            |fabric| {
                fabric.records[3].subordinate = 5;
                fabric.records[1].subordinate = 5;
                fabric.records[0].subordinate = 5;
                fabric.records[5] = Record::new(3, 3).buses(4, 5, 5);
            },
            // A second child: an endpoint, and a switch.
            |fabric| fabric.records.push(Record::new(4, 2).buses(3, 0, 0)),
            |fabric| fabric.records.push(Record::new(4, 0).buses(1, 0, 0)),
            |fabric| fabric.records.push(Record::new(2, 0).buses(1, 2, 2)),
            // Siblings' buses: shared at one end, then nested.
            |fabric| {
                fabric.records[3].secondary = 3;
                fabric.records.truncate(5);
            },
            |fabric| {
                fabric.records[2].subordinate = 4;
                fabric.records[3].subordinate = 4;
                fabric.records.truncate(5);
            },
        ];
        for change in changes {
            let mut fabric = fabric_f(2, 0);
            change(&mut fabric);
            self.ask(&fabric, 4, &header);
        }
    }

    /// Each record rule broken on its own in random small fabrics.
    fn broken_rules(&mut self) {
        let mut random = Random::new(0xB40C);
        for rule in 0..BREAK_COUNT {
            let mut found = 0;
            while found < 4 {
                let records = 2 + random.index(5);
                let mut fabric = random_fabric(&mut random, records);
                if break_rule(&mut random, &mut fabric, rule).is_none() {
                    continue;
                }
                found += 1;
                let query = random_query(&mut random, &fabric);
                let now = inside(&mut random, &fabric);
                self.items.push(input_bytes(
                    &fabric.bytes(),
                    now,
                    query.origin,
                    &query.header,
                ));
            }
        }
    }

    fn extremes(&mut self) {
        // 257 hops, from the end of the deepest chain to itself.
        let deepest = chain(256, 2, 0x1F);
        self.ask(&deepest, 255, &request(WRITE, 0xFF00, 0, 0x8000_0000, 1));
        // 256 records beside each other, and the last of 256 vector bits.
        self.ask(
            &with_bit(wide_full(256, 1, 0x3F), 255),
            129,
            &request(READ, 0x0300, 0, 0x8000_0000 + 126 * MIB, 1),
        );
        let roots = |count| roots(count, 1, 0x20);
        self.ask(
            &with_endpoints(roots(128), 128),
            255,
            &request(READ, 0x8000, 0, 0x0000_0100, 1),
        );
        self.ask(
            &with_endpoints(roots(255), 1),
            255,
            &completion(COMPLETION, 0xFF00, true),
        );
        // 257 right records are refused by their count.
        self.ask(
            &with_endpoints(roots(129), 128),
            256,
            &request(READ, 0x8000, 0, 0x100, 1),
        );
        // The longest snapshot field and the longest header.
        let mut long = pair().bytes();
        long.resize(65_535, 0);
        self.items.push(input_bytes(&long, NOW, 1, &[0x40; 255]));
    }

    fn random(&mut self) {
        let mut random = Random::new(0xACE5);
        for _ in 0..RANDOM_FABRICS {
            let records = random.pick(&[2, 2, 3, 3, 3, 3, 4, 4, 5, 6]);
            let fabric = random_fabric(&mut random, records);
            let bytes = fabric.bytes();
            for _ in 0..3 {
                let query = random_query(&mut random, &fabric);
                let now = inside(&mut random, &fabric);
                self.items
                    .push(input_bytes(&bytes, now, query.origin, &query.header));
            }
            let bytes = damaged(&mut random, &fabric);
            let now = random_time(&mut random, &fabric);
            let query = random_query(&mut random, &fabric);
            self.items
                .push(input_bytes(&bytes, now, query.origin, &query.header));
        }
    }
}

/// A root port and an endpoint.
fn pair() -> Fabric {
    let range = 0x8000_0000;
    Fabric::new(
        2,
        vec![
            Record::new(1, NO_PARENT)
                .buses(0, 1, 1)
                .acs(0x087F, 0x10)
                .range(0, range, range + MIB - 1),
            Record::new(4, 0)
                .buses(1, 0, 0)
                .range(0, range, range + 0xFFF),
        ],
    )
}

/// A root port with the whole address space and an endpoint without ranges.
fn whole() -> Fabric {
    let mut fabric = pair();
    fabric.records[0].ranges[0] = (1, 0);
    fabric.records[0].ranges[1] = (0, u64::MAX);
    fabric.records[1].ranges[0] = (1, 0);
    fabric
}

/// A root port and a switch with one port.
fn switch() -> Fabric {
    let mut fabric = fabric_f(2, 0);
    fabric.records.truncate(3);
    fabric
}

/// Two root ports with an endpoint each; buses 1-2 and 3-4.
fn two_roots(flags: u8, control: u16) -> Fabric {
    let port = |number: u8, first| {
        Record::new(1, NO_PARENT)
            .buses(0, 1 + 2 * number, 2 + 2 * number)
            .numbers(number, 8 * number)
            .acs(0x087F, control)
            .range(0, first, first + MIB - 1)
    };
    let endpoint = |parent: u16, first| {
        Record::new(4, parent)
            .buses(1 + 2 * parent as u8, 0, 0)
            .range(0, first, first + 0xFFF)
    };
    let (a, b) = (0x8000_0000, 0x9000_0000);
    with_bit(
        Fabric::new(
            flags,
            vec![port(0, a), port(1, b), endpoint(0, a), endpoint(1, b)],
        ),
        1,
    )
}

/// An input in parts, to spoil one or two of them.
#[derive(Clone)]
struct Parts {
    bytes: Vec<u8>,
    now: u64,
    origin: u16,
    header: Vec<u8>,
}

impl Parts {
    fn input(&self) -> Vec<u8> {
        input_bytes(&self.bytes, self.now, self.origin, &self.header)
    }

    fn set(&mut self, place: usize, value: u8) {
        if let Some(byte) = self.bytes.get_mut(place) {
            *byte = value;
        }
    }
}

/// One way to each refusal of the table, several to number 1.
const SPOILS: &[fn(&mut Parts)] = &[
    |parts| parts.bytes.truncate(23),
    |parts| parts.set(0, b'a'),
    |parts| parts.set(2, 0),
    |parts| parts.set(4, 2),
    |parts| parts.set(5, 1),
    |parts| parts.set(3, 4),
    |parts| parts.set(3, 0x82),
    |parts| parts.set(6, 3),
    |parts| parts.set(7, 2),
    |parts| parts.set(17, 0),
    |parts| parts.bytes.push(0),
    |parts| parts.now = 2001,
    |parts| parts.now = 999,
    |parts| parts.set(24 + 12, 1),
    |parts| parts.set(24 + 144 + 13, 1),
    |parts| parts.origin = 0,
    |parts| parts.origin = 7,
    |parts| parts.header[0] = 1,
    |parts| parts.header.truncate(8),
];
