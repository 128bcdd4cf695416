//! How soon the comparison notices each deliberate fault, and how many answers
//! of the gate's corpus notice it. `apply` writes a program that calls this with
//! a faulty copy of the model for each edit.

use std::process::ExitCode;

use crate::options::{self, Options};
use crate::seen::{each_case, show, Calls, LIBRARY, MODEL};
use cases::batches::Batches;
use cases::corpus;

/// A copy of the model with one fault.
pub struct Faulty {
    /// The edit's path.
    pub name: &'static str,
    /// What it gets wrong.
    pub wrong: &'static str,
    /// The gate's answers can't show it, as the edit says.
    pub hidden: bool,
    pub calls: Calls,
    /// What it prints for an item of the gate's corpus.
    pub gate: fn(&[u8]) -> String,
}

/// The copy of the model that a crate is.
#[macro_export]
macro_rules! faulty {
    ($copy:ident, $name:literal, $wrong:literal, $hidden:literal) => {
        $crate::faults::Faulty {
            name: $name,
            wrong: $wrong,
            hidden: $hidden,
            calls: $crate::calls!($copy),
            gate: $copy::gate::answer,
        }
    };
}

pub fn run(copies: &[Faulty]) -> ExitCode {
    let Some(options) = options::read(std::env::args().skip(1)) else {
        eprintln!("usage: faults [--seed S] [--cases N]");
        return ExitCode::from(2);
    };
    println!("seed {}, at most {} cases", options.seed, options.cases);
    if report(copies, &options) {
        ExitCode::SUCCESS
    } else {
        ExitCode::FAILURE
    }
}

fn report(copies: &[Faulty], options: &Options) -> bool {
    let Some(noticed) = noticed_after(copies, options) else {
        println!("the library differs from the model without a fault");
        return false;
    };
    let answers = corpus_answers(copies);
    let mut corpus_right = true;
    println!("noticed after so many cases, by so many answers of the corpus:");
    for ((copy, noticed), &answers) in copies.iter().zip(&noticed).zip(&answers) {
        let noticed = noticed.map_or("not".to_string(), |number| number.to_string());
        println!("{noticed:>8} {answers:>6}  {}: {}", copy.name, copy.wrong);
        if copy.hidden != (answers == 0) {
            corpus_right = false;
            println!("                 the corpus should notice it exactly if it isn't hidden");
        }
    }
    let by_corpus = answers.iter().filter(|&&answers| answers > 0).count();
    println!("{} faults, {by_corpus} noticed by the corpus", copies.len());
    let count = noticed.iter().flatten().count();
    println!("{} faults, {count} noticed", copies.len());
    corpus_right && count == copies.len()
}

/// One pass over the random cases with all the copies not noticed so far.
/// Nothing if the library differs from the model without a fault: a fault is
/// noticed only against a library that is right itself.
fn noticed_after(copies: &[Faulty], options: &Options) -> Option<Vec<Option<u64>>> {
    let mut noticed: Vec<Option<u64>> = vec![None; copies.len()];
    let mut waiting: Vec<usize> = (0..copies.len()).collect();
    let mut differs = false;
    let batches = Batches::new(options.seed);
    let cases = each_case(batches, options.cases, |number, case| {
        let library = LIBRARY.answer(case, number);
        let model = MODEL.answer(case, number);
        if library != model {
            show(number, case, &library, &model);
            differs = true;
            return false;
        }
        waiting.retain(|&place| {
            let same = library == copies[place].calls.answer(case, number);
            if !same {
                noticed[place] = Some(number);
            }
            same
        });
        !waiting.is_empty()
    });
    println!("{cases} cases");
    (!differs).then_some(noticed)
}

/// How many answers to the corpus are others than the model's.
fn corpus_answers(copies: &[Faulty]) -> Vec<usize> {
    let items = corpus::items();
    let answers: Vec<String> = items.iter().map(|item| model::gate::answer(item)).collect();
    let differing = |copy: &Faulty| {
        let pairs = items.iter().zip(&answers);
        pairs
            .filter(|(item, answer)| (copy.gate)(item) != **answer)
            .count()
    };
    copies.iter().map(differing).collect()
}
