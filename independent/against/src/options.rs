//! `[--seed S] [--cases N]`

use std::time::{SystemTime, UNIX_EPOCH};

pub struct Options {
    pub seed: u64,
    pub cases: u64,
}

const DEFAULT_CASES: u64 = 1_000_000;

/// Reads the program's arguments, or gives nothing if they are wrong. The seed
/// is taken from the clock unless it is given.
pub fn read(mut arguments: impl Iterator<Item = String>) -> Option<Options> {
    let clock = SystemTime::now()
        .duration_since(UNIX_EPOCH)
        .map_or(0, |time| time.as_nanos());
    let mut options = Options {
        seed: clock as u64,
        cases: DEFAULT_CASES,
    };
    while let Some(argument) = arguments.next() {
        match argument.as_str() {
            "--seed" => options.seed = arguments.next()?.parse().ok()?,
            "--cases" => options.cases = arguments.next()?.parse().ok()?,
            _ => return None,
        }
    }
    Some(options)
}
