//! Times the proved library beside the model, from the bytes to the answer: same
//! inputs, one run, taking turns. A report, not a test.

use std::hint::black_box;
use std::time::Instant;

use against::subjects::{images, subjects, ImageSubject, Subject};
use model::Word;

const ROUNDS: usize = 60;
/// How long one turn lasts, about.
const TURN_NANOSECONDS: u128 = 500_000;

/// Nanoseconds per call of the library and of the model.
#[derive(Clone, Copy)]
struct Times {
    library: f64,
    model: f64,
}

/// The times of a subject.
struct Row<'a> {
    subject: &'a Subject,
    check: Times,
    route: Times,
}

fn main() {
    let subjects = subjects();
    println!(
        "{:<22} {:>7} {:>5}  {:<5} {:>12} {:>12} {:>7}",
        "fabric", "records", "hops", "call", "library ns", "model ns", "ratio"
    );
    let rows: Vec<Row> = subjects.iter().map(measure).collect();
    images().iter().for_each(measure_fill);
    println!();
    println!("growth from 64 to 256 records (4 times as many):");
    for name in ["wide switch", "deepest chain"] {
        growth(&rows, name);
    }
}

fn measure(subject: &Subject) -> Row<'_> {
    let check = time(|| subject.library_check(), || subject.model_check());
    let route = time(|| subject.library_route(), || subject.model_route());
    let hops = Word(subject.model_route()).hops();
    for (call, times) in [("check", check), ("route", route)] {
        print_row(subject.name, subject.records(), hops, call, times);
    }
    Row {
        subject,
        check,
        route,
    }
}

/// A fill is of one record and has no hops.
fn measure_fill(subject: &ImageSubject) {
    let fill = time(|| subject.library_fill(), || subject.model_fill());
    print_row(subject.name, 1, 0, "fill", fill);
}

fn print_row(name: &str, records: usize, hops: usize, call: &str, times: Times) {
    println!(
        "{name:<22} {records:>7} {hops:>5}  {call:<5} {:>12.0} {:>12.0} {:>7.2}",
        times.library,
        times.model,
        times.library / times.model
    );
}

fn growth(rows: &[Row], name: &str) {
    let find = |records| {
        let mut rows = rows.iter();
        rows.find(|row| row.subject.name == name && row.subject.records() == records)
    };
    let (Some(small), Some(large)) = (find(64), find(256)) else {
        return;
    };
    for (call, small, large) in [
        ("check", small.check, large.check),
        ("route", small.route, large.route),
    ] {
        println!(
            "{name:<22} {call:<5}  library {:.1} times, model {:.1} times",
            large.library / small.library,
            large.model / small.model
        );
    }
}

/// The quickest of many short turns, library and model in turn: what else runs
/// on the machine can only make a turn slower.
fn time(library: impl Fn() -> u64, model: impl Fn() -> u64) -> Times {
    assert_eq!(library(), model(), "the answers differ");
    let (library_calls, model_calls) = (calls_per_turn(&library), calls_per_turn(&model));
    let mut quickest = Times {
        library: f64::INFINITY,
        model: f64::INFINITY,
    };
    for _ in 0..ROUNDS {
        quickest.library = quickest.library.min(turn(&library, library_calls));
        quickest.model = quickest.model.min(turn(&model, model_calls));
    }
    quickest
}

fn calls_per_turn(call: &impl Fn() -> u64) -> u32 {
    let mut calls: u32 = 1;
    loop {
        let start = Instant::now();
        for _ in 0..calls {
            black_box(call());
        }
        let taken = start.elapsed().as_nanos();
        if taken > TURN_NANOSECONDS / 4 {
            return (u128::from(calls) * TURN_NANOSECONDS / taken).max(1) as u32;
        }
        calls *= 2;
    }
}

fn turn(call: &impl Fn() -> u64, calls: u32) -> f64 {
    let start = Instant::now();
    for _ in 0..calls {
        black_box(call());
    }
    start.elapsed().as_nanos() as f64 / f64::from(calls)
}
