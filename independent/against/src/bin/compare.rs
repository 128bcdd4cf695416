//! Compares the proved library with the model: `compare [--seed S] [--cases N]`
//! compares the words of all calls and every byte of the buffers, on the corpus
//! first and then on random cases.

use std::collections::BTreeMap;
use std::process::ExitCode;

use against::options::{self, Options};
use against::seen::{each_case, show, Words, LIBRARY, MODEL};
use cases::batches::{Ask, Batches, Case, Queries};
use cases::corpus;
use model::{Word, COMPLEX, HEAD, RECORD};

const PROGRESS: u64 = 200_000;
const SHOWN: u64 = 5;

fn main() -> ExitCode {
    let Some(options) = options::read(std::env::args().skip(1)) else {
        eprintln!("usage: compare [--seed S] [--cases N]");
        return ExitCode::from(2);
    };
    println!("seed {}, at most {} cases", options.seed, options.cases);
    if compare(&options) {
        ExitCode::SUCCESS
    } else {
        ExitCode::FAILURE
    }
}

fn compare(options: &Options) -> bool {
    let mut differences = 0;
    let mut statistics = Statistics::default();
    let corpus = corpus::batches();
    println!("{} cases of the corpus, then random ones", corpus.len());
    let batches = corpus.into_iter().chain(Batches::new(options.seed));
    each_case(batches, options.cases, |number, case| {
        let library = LIBRARY.answer(case, number);
        let model = MODEL.answer(case, number);
        if library != model {
            differences += 1;
            if differences <= SHOWN {
                show(number, case, &library, &model);
            }
        }
        statistics.count(case, model.words);
        if number % PROGRESS == 0 {
            println!("{number} cases, differences so far: {differences}");
        }
        true
    });
    statistics.print();
    println!("differences: {differences}");
    differences == 0
}

/// How often each answer came.
#[derive(Default)]
struct Statistics {
    checks: BTreeMap<String, u64>,
    routes: BTreeMap<String, u64>,
    fills: BTreeMap<String, u64>,
    hops: BTreeMap<usize, u64>,
}

impl Statistics {
    fn count(&mut self, case: Case, words: Words) {
        match (case, words) {
            (Case::Query(queries, ask), Words::Query { check, route }) => {
                self.count_query(queries, ask, Word(check), Word(route));
            }
            (_, Words::Fill { fill }) => {
                *self.fills.entry(fill_name(Word(fill))).or_default() += 1;
            }
            _ => unreachable!("a fill has no word of a route"),
        }
    }

    fn count_query(&mut self, queries: &Queries, ask: &Ask, check: Word, route: Word) {
        *self.checks.entry(check_name(check)).or_default() += 1;
        let name = route_name(queries, ask, route);
        *self.routes.entry(name).or_default() += 1;
        if !route.refused() {
            *self.hops.entry(route.hops()).or_default() += 1;
        }
    }

    fn print(&self) {
        let calls = [
            ("check", &self.checks),
            ("route", &self.routes),
            ("fill", &self.fills),
        ];
        for (call, answers) in calls {
            println!("{call}:");
            for (name, count) in answers {
                println!("{count:9}  {name}");
            }
        }
        if let (Some(fewest), Some(most)) = (self.hops.keys().next(), self.hops.keys().last()) {
            println!(
                "hops: {fewest} to {most}, {} different counts",
                self.hops.len()
            );
        }
    }
}

fn check_name(word: Word) -> String {
    match word.refused() {
        true => format!("refusal {}", word.refusal_number()),
        false => "accepted".to_string(),
    }
}

fn fill_name(word: Word) -> String {
    if word.refused() {
        return format!("refusal {}", word.refusal_number());
    }
    match word.part() {
        (_, 0) => "no ACS".to_string(),
        (_, length) => format!("ACS of {length:2} bytes"),
    }
}

fn route_name(queries: &Queries, ask: &Ask, word: Word) -> String {
    if word.refused() {
        return format!("refusal {}", word.refusal_number());
    }
    let from = if ask.origin == COMPLEX {
        "host"
    } else {
        "endpoint"
    };
    let tlp = if ask.header[0] & 0x0F == 0x0A {
        "completion"
    } else {
        "request"
    };
    let end = match word.byte(0) {
        0 => "delivered unvalidated".to_string(),
        1 => "delivered checked".to_string(),
        2 => "host".to_string(),
        3 if word.node() == COMPLEX => "unclaimed at the complex".to_string(),
        3 => format!("unclaimed at kind {}", kind_of(queries, word.node())),
        4 => "undefined".to_string(),
        _ => format!("violation {}", word.letter()),
    };
    format!("{tlp} of {from}: {end}")
}

fn kind_of(queries: &Queries, node: u16) -> u8 {
    queries.snapshot[HEAD + RECORD * usize::from(node)]
}
