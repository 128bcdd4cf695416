//! Counts the instructions of a call with callgrind, for the library and for the
//! model: a count is the same on every run, while times vary on a shared machine.
//!
//! `instructions` runs itself under valgrind for each row, twice with different
//! numbers of calls; the difference is what the further calls took.
//! `instructions ROW CALLS check|route|fill library|model` makes so many calls of
//! one; the rows of fill count for themselves.

use std::hint::black_box;
use std::process::{Command, ExitCode};

use against::subjects::{images, subjects, ImageSubject, Subject};
use model::Word;

/// Calls in the shorter run and in the longer one.
const FEW: u64 = 10;
const MORE: u64 = 20;

fn main() -> ExitCode {
    let arguments: Vec<String> = std::env::args().skip(1).collect();
    let result = match &arguments[..] {
        [] => count_all(),
        [row, calls, call, whose] => call_often(row, calls, call, whose),
        _ => Err("usage: instructions [ROW CALLS check|route|fill library|model]".to_string()),
    };
    match result {
        Ok(()) => ExitCode::SUCCESS,
        Err(error) => {
            eprintln!("instructions: {error}");
            ExitCode::from(2)
        }
    }
}

fn call_often(row: &str, calls: &str, call: &str, whose: &str) -> Result<(), String> {
    let row: usize = row.parse().map_err(|_| format!("no number: {row}"))?;
    let calls: u64 = calls.parse().map_err(|_| format!("no number: {calls}"))?;
    match (call, whose) {
        ("check", "library") => repeat(subjects(), row, calls, Subject::library_check),
        ("check", "model") => repeat(subjects(), row, calls, Subject::model_check),
        ("route", "library") => repeat(subjects(), row, calls, Subject::library_route),
        ("route", "model") => repeat(subjects(), row, calls, Subject::model_route),
        ("fill", "library") => repeat(images(), row, calls, ImageSubject::library_fill),
        ("fill", "model") => repeat(images(), row, calls, ImageSubject::model_fill),
        _ => Err(format!("no call {call} of {whose}")),
    }
}

fn repeat<T>(rows: Vec<T>, row: usize, calls: u64, call: fn(&T) -> u64) -> Result<(), String> {
    let subject = rows.get(row).ok_or(format!("no row {row}"))?;
    for _ in 0..calls {
        black_box(call(subject));
    }
    Ok(())
}

fn count_all() -> Result<(), String> {
    println!(
        "{:<22} {:>7} {:>5}  {:<5} {:>12} {:>12} {:>7}",
        "fabric", "records", "hops", "call", "library", "model", "ratio"
    );
    for (row, subject) in subjects().iter().enumerate() {
        let hops = Word(subject.model_route()).hops();
        for call in ["check", "route"] {
            print_row(row, subject.name, subject.records(), hops, call)?;
        }
    }
    // A fill is of one record and has no hops.
    for (row, subject) in images().iter().enumerate() {
        print_row(row, subject.name, 1, 0, "fill")?;
    }
    Ok(())
}

fn print_row(
    row: usize,
    name: &str,
    records: usize,
    hops: usize,
    call: &str,
) -> Result<(), String> {
    let library = count(row, call, "library")?;
    let model = count(row, call, "model")?;
    println!(
        "{name:<22} {records:>7} {hops:>5}  {call:<5} {library:>12} {model:>12} {:>7.2}",
        library as f64 / model as f64
    );
    Ok(())
}

/// Instructions per call.
fn count(row: usize, call: &str, whose: &str) -> Result<u64, String> {
    let few = instructions(row, FEW, call, whose)?;
    let more = instructions(row, MORE, call, whose)?;
    Ok((more - few) / (MORE - FEW))
}

/// All instructions of a run that makes so many calls.
fn instructions(row: usize, calls: u64, call: &str, whose: &str) -> Result<u64, String> {
    let program = std::env::current_exe().map_err(|error| error.to_string())?;
    let output = Command::new("valgrind")
        .args(["--tool=callgrind", "--callgrind-out-file=/dev/null"])
        .arg(program)
        .args([&row.to_string(), &calls.to_string(), call, whose])
        .output()
        .map_err(|error| format!("valgrind: {error}"))?;
    let text = String::from_utf8_lossy(&output.stderr);
    let collected = text.lines().find_map(|line| line.split_once("Collected :"));
    let collected = collected.and_then(|(_, number)| number.trim().parse().ok());
    collected.ok_or(format!("valgrind says\n{text}"))
}
