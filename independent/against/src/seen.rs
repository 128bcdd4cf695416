//! All that a caller can see of the answers to a case.

use std::fmt::Write;

use crate::library;
use cases::batches::{Ask, Batch, Case, Queries};
use cases::fills::Fill;

/// Bytes before and after the lent part of a buffer that nobody may touch.
const CANARY: usize = 32;

type Check = fn(&[u8], u64) -> u64;
type Route = fn(&[u8], u64, u16, &[u8], &mut [u8]) -> u64;
type Filling = fn(&[u8], &mut [u8]) -> u64;

/// The calls of the library, of the model or of a copy of it.
pub struct Calls {
    pub check: Check,
    pub route: Route,
    pub fill: Filling,
}

/// The calls that a crate or module has.
#[macro_export]
macro_rules! calls {
    ($from:ident) => {
        $crate::seen::Calls {
            check: $from::check,
            route: $from::route,
            fill: $from::fill,
        }
    };
}

pub const LIBRARY: Calls = calls!(library);
pub const MODEL: Calls = calls!(model);

/// What the calls of a case gave.
#[derive(PartialEq, Eq)]
pub struct Seen {
    pub words: Words,
    /// The lent buffer, hops or record, between its canaries.
    pub buffer: Vec<u8>,
}

/// The answer words of a case.
#[derive(Clone, Copy, PartialEq, Eq)]
pub enum Words {
    Query { check: u64, route: u64 },
    Fill { fill: u64 },
}

impl Calls {
    /// Makes the calls of a case and keeps all that they gave.
    pub fn answer(&self, case: Case, number: u64) -> Seen {
        match case {
            Case::Query(queries, ask) => self.answer_query(queries, ask, number),
            Case::Fill(fill) => self.answer_fill(fill, number),
        }
    }

    fn answer_query(&self, queries: &Queries, ask: &Ask, number: u64) -> Seen {
        let (snapshot, now) = (&queries.snapshot, queries.now);
        let mut buffer = pattern(ask.buffer, number);
        let hops = &mut buffer[CANARY..CANARY + ask.buffer];
        let check = (self.check)(snapshot, now);
        let route = (self.route)(snapshot, now, ask.origin, &ask.header, hops);
        Seen {
            words: Words::Query { check, route },
            buffer,
        }
    }

    fn answer_fill(&self, case: &Fill, number: u64) -> Seen {
        let length = case.record.len();
        let mut buffer = pattern(length, number);
        let record = &mut buffer[CANARY..CANARY + length];
        record.copy_from_slice(&case.record);
        let fill = (self.fill)(&case.image, record);
        Seen {
            words: Words::Fill { fill },
            buffer,
        }
    }
}

/// A buffer with its canaries, filled so that no byte is the same by chance.
fn pattern(lent: usize, number: u64) -> Vec<u8> {
    (0..lent + 2 * CANARY)
        .map(|place| (place as u64 * 29 + number * 101 + 83) as u8)
        .collect()
}

/// The cases in order, with their numbers from 1, until `each` says no. Gives
/// the last number.
pub fn each_case(
    batches: impl Iterator<Item = Batch>,
    most: u64,
    mut each: impl FnMut(u64, Case) -> bool,
) -> u64 {
    let mut number = 0;
    for batch in batches {
        for case in batch.cases() {
            if number == most {
                return number;
            }
            number += 1;
            if !each(number, case) {
                return number;
            }
        }
    }
    number
}

/// Prints a case in which library and model differ.
pub fn show(number: u64, case: Case, library: &Seen, model: &Seen) {
    println!("case {number}: difference");
    show_asked(case);
    for (name, seen) in [("library", library), ("model  ", model)] {
        show_answer(name, seen);
    }
    let mut pairs = library.buffer.iter().zip(&model.buffer);
    if let Some(place) = pairs.position(|(a, b)| a != b) {
        println!(
            "  first different byte of the buffer: {}",
            place as i64 - CANARY as i64
        );
    }
}

fn show_asked(case: Case) {
    match case {
        Case::Query(queries, ask) => {
            let (now, origin, buffer) = (queries.now, ask.origin, ask.buffer);
            println!("  now {now} origin {origin} buffer {buffer} bytes");
            println!("  header   {}", hexadecimal(&ask.header));
            println!("  snapshot {}", hexadecimal(&queries.snapshot));
        }
        Case::Fill(fill) => {
            println!("  record   {}", hexadecimal(&fill.record));
            println!("  image    {}", hexadecimal(&fill.image));
        }
    }
}

fn show_answer(name: &str, seen: &Seen) {
    let lent = &seen.buffer[CANARY..seen.buffer.len() - CANARY];
    match seen.words {
        Words::Query { check, route } => {
            println!("  {name}  check {check:016x} route {route:016x}");
            let hops = &lent[..lent.len().min(80)];
            println!("  {name}  hops {}", hexadecimal(hops));
        }
        Words::Fill { fill } => {
            println!("  {name}  fill {fill:016x}");
            println!("  {name}  record {}", hexadecimal(lent));
        }
    }
}

fn hexadecimal(bytes: &[u8]) -> String {
    bytes.iter().fold(String::new(), |mut text, byte| {
        let _ = write!(text, "{byte:02x}");
        text
    })
}
