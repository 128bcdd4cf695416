//! An endless row of cases to compare two implementations by.

use crate::damage::{damaged, inside, random_time};
use crate::fabric::{fabric_f, with_bit, Fabric};
use crate::fills::{Fill, Stock};
use crate::queries::random_query;
use crate::random::Random;
use crate::shapes::{chain, random_fabric, random_full, roots};
use crate::shapes::{wide, wide_full, with_endpoints};
use model::Word;
use model::ROOM;
use model::{check, route};

/// Cases that have something in common.
pub enum Batch {
    Queries(Queries),
    Fills(Vec<Fill>),
}

/// What is asked: a check and a route of a snapshot, or a fill.
#[derive(Clone, Copy)]
pub enum Case<'a> {
    Query(&'a Queries, &'a Ask),
    Fill(&'a Fill),
}

impl Batch {
    pub fn cases(&self) -> Vec<Case<'_>> {
        match self {
            Batch::Queries(queries) => {
                let asks = queries.asks.iter();
                asks.map(|ask| Case::Query(queries, ask)).collect()
            }
            Batch::Fills(fills) => fills.iter().map(Case::Fill).collect(),
        }
    }
}

/// One snapshot at one time, and what is asked of it.
pub struct Queries {
    pub snapshot: Vec<u8>,
    pub now: u64,
    pub asks: Vec<Ask>,
}

pub struct Ask {
    pub origin: u16,
    pub header: Vec<u8>,
    /// Bytes lent for the hops.
    pub buffer: usize,
}

/// Fabrics with dozens of queries each, followed by damaged variants of them;
/// between them images, so that every fourth case is a fill.
pub struct Batches {
    random: Random,
    fabric: Fabric,
    variants: usize,
    /// Queries so far for which there are no fills yet.
    unmatched: usize,
}

/// Fills in a batch, and how many queries there are for each fill.
const FILLS: usize = 24;
const QUERIES_PER_FILL: usize = 3;

impl Batches {
    pub fn new(seed: u64) -> Batches {
        Batches {
            random: Random::new(seed),
            fabric: fabric_f(2, 0),
            variants: 0,
            unmatched: 0,
        }
    }

    fn fills(&mut self) -> Vec<Fill> {
        let stock = Stock::new(&mut self.random);
        let fills = (0..FILLS).map(|_| stock.random_fill(&mut self.random));
        fills.collect()
    }

    /// A new fabric, or a damaged variant of the one before.
    fn queries(&mut self) -> Queries {
        if self.variants == 0 {
            self.fabric = some_fabric(&mut self.random);
            let large = self.fabric.records.len() > 40;
            self.variants = if large { 2 } else { 4 + self.random.index(8) };
            let snapshot = self.fabric.bytes();
            let now = inside(&mut self.random, &self.fabric);
            let count = 16 + self.random.below(16);
            let asks = self.asks(&snapshot, now, count);
            return Queries {
                snapshot,
                now,
                asks,
            };
        }
        self.variants -= 1;
        let snapshot = damaged(&mut self.random, &self.fabric);
        let now = random_time(&mut self.random, &self.fabric);
        // A snapshot that is still accepted deserves more than one query.
        let count = if check(&snapshot, now) == 0 { 6 } else { 1 };
        let asks = self.asks(&snapshot, now, count);
        Queries {
            snapshot,
            now,
            asks,
        }
    }

    fn asks(&mut self, snapshot: &[u8], now: u64, count: u64) -> Vec<Ask> {
        let random = &mut self.random;
        let mut scratch = [0; ROOM];
        let asks = (0..count).map(|_| {
            let query = random_query(random, &self.fabric);
            let word = route(snapshot, now, query.origin, &query.header, &mut scratch);
            let buffer = random_room(random, Word(word).hops());
            Ask {
                origin: query.origin,
                header: query.header,
                buffer,
            }
        });
        asks.collect()
    }
}

impl Iterator for Batches {
    type Item = Batch;

    fn next(&mut self) -> Option<Batch> {
        if self.unmatched >= QUERIES_PER_FILL * FILLS {
            self.unmatched -= QUERIES_PER_FILL * FILLS;
            return Some(Batch::Fills(self.fills()));
        }
        let queries = self.queries();
        self.unmatched += queries.asks.len();
        Some(Batch::Queries(queries))
    }
}

/// Small fabrics mostly, large ones now and then.
fn some_fabric(random: &mut Random) -> Fabric {
    let flags = random.below(4) as u8;
    let control = random.pick(&[0, 0x17, 0x1F, 0x14, 0x10, 0x37, 0x3F, 0x7C]);
    match random.below(600) {
        0 => chain(256, flags, control),
        1 => wide(256, flags, control),
        2 => with_endpoints(roots(128, flags, control), 128),
        3 => with_endpoints(roots(255, flags, control), 1),
        4 => with_endpoints(roots(129, flags, control), 128),
        5..=7 => {
            let records = 41 + random.index(216);
            random_fabric(random, records)
        }
        8..=30 => {
            let records = random.index(2);
            random_fabric(random, records)
        }
        31..=60 => {
            let records = 13 + random.index(28);
            random_fabric(random, records)
        }
        61..=70 => fabric_f(flags, control),
        71 => with_bit(wide_full(256, flags, control), random.pick(&[254, 255])),
        72..=150 => {
            let records = 2 + random.index(11);
            random_full(random, records)
        }
        _ => {
            let records = 2 + random.index(11);
            random_fabric(random, records)
        }
    }
}

/// Room for the hops: none, one byte short, exactly enough, or more.
fn random_room(random: &mut Random, hops: usize) -> usize {
    let needed = 4 * hops;
    match random.below(24) {
        0 => 0,
        1 => needed.saturating_sub(1),
        2 => needed.saturating_sub(4),
        3 => random.index(needed + 5),
        4..=7 => needed,
        8..=11 => needed + 1 + random.index(8),
        _ => ROOM,
    }
}
