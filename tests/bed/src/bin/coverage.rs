//! coverage [--units N] [--resumes N] [--calls N] [--seed S]: what the generators reach, by refusal number, by what is
//! wrong with splices and deletions and by what the units have in them. Fails when something is reached too seldom to be
//! tested.

use bed::answers::{ending, resume_refusal, Ending};
use bed::cases::valid_case;
use bed::faults;
use bed::features::features;
use bed::{listing_case, pair_call, record_call, resume_case, segment_call, Rng};
use oracle::Refusal;
use std::collections::BTreeMap;
use std::process::ExitCode;

/// Each number and each feature has to be reached this often.
const LEAST: u64 = 50;

/// How often each number was the answer, 0 for an accepted case.
type Counts = BTreeMap<u8, u64>;

fn main() -> ExitCode {
    let (mut units, mut resumes, mut calls, mut seed) = (20_000, 20_000, 20_000, 1);
    let mut arguments = std::env::args().skip(1);
    while let Some(name) = arguments.next() {
        let value = arguments.next().and_then(|value| value.parse().ok());
        match (name.as_str(), value) {
            ("--units", Some(value)) => units = value,
            ("--resumes", Some(value)) => resumes = value,
            ("--calls", Some(value)) => calls = value,
            ("--seed", Some(value)) => seed = value,
            _ => {
                eprintln!("usage: coverage [--units N] [--resumes N] [--calls N] [--seed S]");
                return ExitCode::from(2);
            }
        }
    }
    let columns = [
        ("listing", listings(seed, units), wanted(Refusal::Digits, Refusal::Lines)),
        ("resuming", refused_resumes(seed, resumes), wanted(Refusal::FirstLine, Refusal::LastLine)),
        ("record call", answers(seed, calls, |rng| record_call(rng).expected().err()), record_numbers()),
        (
            "pair call",
            answers(seed, calls, |rng| pair_call(rng).expected().err()),
            wanted(Refusal::SymbolsUsedUp, Refusal::PairValue),
        ),
        (
            "segment call",
            answers(seed, calls, |rng| segment_call(rng).expected().err()),
            wanted(Refusal::ReadLength, Refusal::Position),
        ),
    ];
    let seldom = [print_numbers(&columns), print_faults(seed, units, calls), print_features(seed, units)].concat();
    for line in &seldom {
        println!("too seldom: {line}");
    }
    if seldom.is_empty() {
        ExitCode::SUCCESS
    } else {
        ExitCode::FAILURE
    }
}

fn wanted(first: Refusal, last: Refusal) -> Vec<u8> {
    (first.number()..=last.number()).collect()
}

/// A record call refuses by all numbers but those of resuming.
fn record_numbers() -> Vec<u8> {
    [wanted(Refusal::Digits, Refusal::Lines), vec![Refusal::Room.number()]].concat()
}

fn listings(seed: u64, cases: u64) -> Counts {
    count((0..cases).map(|case| match ending(&listing_case(seed, case).expected()) {
        Ending::Complete => 0,
        Ending::Refused(number) => number,
        Ending::Other => u8::MAX,
    }))
}

/// Under 0 stand the resumes that were not refused, whatever they added.
fn refused_resumes(seed: u64, cases: u64) -> Counts {
    count((0..cases).map(|case| resume_refusal(&resume_case(seed, case).expected()).unwrap_or(0)))
}

fn answers(seed: u64, cases: u64, answer: impl Fn(&mut Rng) -> Option<Refusal>) -> Counts {
    count((0..cases).map(|case| answer(&mut Rng::for_case(seed, case)).map_or(0, Refusal::number)))
}

fn count(numbers: impl Iterator<Item = u8>) -> Counts {
    let mut counts = Counts::new();
    for number in numbers {
        *counts.entry(number).or_default() += 1;
    }
    counts
}

/// Prints a column for each kind of case; gives what was reached too seldom.
fn print_numbers(columns: &[(&str, Counts, Vec<u8>)]) -> Vec<String> {
    let mut seldom = Vec::new();
    print!("{:>8}", "number");
    for (name, ..) in columns {
        print!("{name:>14}");
    }
    println!();
    for number in 0..=Refusal::Room.number() {
        print!("{number:>8}");
        for (name, counts, wanted) in columns {
            let reached = counts.get(&number).copied().unwrap_or(0);
            print!("{reached:>14}");
            if wanted.contains(&number) && reached < LEAST {
                seldom.push(format!("{name}, number {number}: {reached} times"));
            }
        }
        println!();
    }
    seldom
}

/// What is wrong with the reads that are refused for their splices or deletions, in units and in record calls.
fn print_faults(seed: u64, units: u64, calls: u64) -> Vec<String> {
    let listed = count_faults((0..units).map(|case| {
        let files = listing_case(seed, case);
        oracle::listing_and_refusal(&files.reference, &files.unit).1
    }));
    let called = count_faults((0..calls).map(|case| record_call(&mut Rng::for_case(seed, case)).expected().err()));
    let mut seldom = Vec::new();
    println!("\n{:>14}{:>14}  splices and deletions refused by", "listing", "record call");
    for name in faults::names() {
        let reached = [("listing", &listed), ("record call", &called)]
            .map(|(column, counts)| (column, counts.get(&name).copied().unwrap_or(0)));
        println!("{:>14}{:>14}  {name}", reached[0].1, reached[1].1);
        for (column, times) in reached {
            if times < LEAST {
                seldom.push(format!("{column}, {name}: {times} times"));
            }
        }
    }
    seldom
}

fn count_faults(refusals: impl Iterator<Item = Option<Refusal>>) -> BTreeMap<String, u64> {
    let mut counts = BTreeMap::new();
    for name in refusals.flatten().filter_map(faults::of) {
        *counts.entry(name).or_default() += 1;
    }
    counts
}

/// What the units in order have in them, before any damage: in how many units of all.
fn print_features(seed: u64, cases: u64) -> Vec<String> {
    let features = features();
    let mut counts = vec![0; features.len()];
    for case in 0..cases {
        let (model, _) = valid_case(seed, case);
        for (count, feature) in counts.iter_mut().zip(&features) {
            *count += u64::from((feature.is_in)(&model));
        }
    }
    let mut seldom = Vec::new();
    println!("\n{:>8}  units with", "count");
    for (count, feature) in counts.into_iter().zip(&features) {
        println!("{count:>8}  {}", feature.name);
        if count < LEAST {
            seldom.push(format!("{}: {count} times", feature.name));
        }
    }
    seldom
}
