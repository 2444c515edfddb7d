//! bench-records: the record call and those that it is compared with, in one run on the same memory. Each figure is the median
//! of several rounds, with its quartiles.
//!
//! bench-records --instructions: some of the cases in instructions, which callgrind (valgrind) counts.
//!
//! bench-records --count DECODER CASE TURNS: so many turns of one case and nothing else, for counting.

mod decoders;
mod work;

use decoders::{Decoder, DECODERS, PROVED};
use oracle::limits::LISTED_LINE_MAX;
use std::process::Command;
use std::time::Instant;
use work::{Case, Work};

const ROUNDS: usize = 25;
/// Records of a unit where the number is not what is looked at.
const RECORDS: u16 = 64;

const CASES: [Case; 19] = [
    case('P', 1, 150, 0),
    case('P', 2, 150, 0),
    case('M', 1, 150, 0),
    case('M', 1, 150, 3),
    case('M', 2, 150, 3),
    case('I', 1, 150, 0),
    case('I', 1, 150, 3),
    case('I', 2, 150, 3),
    case('P', 1, 1_000, 0),
    case('M', 1, 1_000, 3),
    case('I', 2, 1_000, 3),
    case('M', 1, 1_000, 1_000),
    case('I', 1, 1_000, 1_000),
    case('I', 2, 1_000, 1_000),
    case('N', 1, 150, 3),
    case('N', 1, 1_000, 1_000),
    Case { alphabet: 1, ..case('M', 1, 150, 3) },
    Case { pieces: 2, ..case('I', 1, 150, 3) },
    Case { pieces: 4, ..case('I', 1, 150, 3) },
];
/// Places in CASES: those whose instructions are counted.
const COUNTED: [usize; 7] = [0, 3, 6, 11, 12, 17, 18];

const fn case(class: char, segments: u8, bases: u16, edits: u16) -> Case {
    Case { class, alphabet: 0, segments, bases, edits, pieces: 1 }
}

/// The lower quartile, the median and the upper quartile.
struct Spread([f64; 3]);

impl Spread {
    fn of(mut figures: Vec<f64>) -> Spread {
        figures.sort_by(f64::total_cmp);
        Spread([1, 2, 3].map(|quarter| figures[figures.len() * quarter / 4]))
    }

    fn median(&self) -> f64 {
        self.0[1]
    }
}

/// Nanoseconds a record of each round, for each decoder; the decoders in turn within a round.
fn rounds(decoders: &[Decoder], work: &Work) -> Vec<Vec<f64>> {
    let mut out = vec![0; LISTED_LINE_MAX];
    let records = work.lines.len();
    let turns = (20_000 / records / (work.lines[0].len() / 300 + 1)).max(1);
    let mut times = vec![Vec::new(); decoders.len()];
    for _ in 0..ROUNDS {
        for (decoder, times) in decoders.iter().zip(&mut times) {
            let start = Instant::now();
            for _ in 0..turns {
                (decoder.run)(work, &mut out);
            }
            times.push(start.elapsed().as_nanos() as f64 / (turns * records) as f64);
        }
    }
    times
}

fn ratio(of: &[f64], to: &[f64]) -> Spread {
    Spread::of(of.iter().zip(to).map(|(a, b)| a / b).collect())
}

/// A row of a table that compares: a cell for each decoder, and one for each ratio.
fn row(first: &str, figures: impl Iterator<Item = String>, ratios: impl Iterator<Item = String>) {
    println!("| {first} | {} |", figures.chain(ratios).collect::<Vec<_>>().join(" | "));
}

/// The same of a case: `figure` makes of what a decoder took its cell, `ratio` of what the proved one and another took theirs. Cells
/// of a decoder that does not read the case are empty.
fn row_of<T>(case: &Case, took: &[Option<T>], figure: impl Fn(&T) -> String, ratio: impl Fn(&T, &T) -> String) {
    let proved = took[0].as_ref().expect("the proved one reads every case");
    let cell = |text: Option<String>| text.unwrap_or_default();
    let figures = took.iter().map(|took| cell(took.as_ref().map(&figure)));
    let ratios = took[1..].iter().map(|other| cell(other.as_ref().map(|other| ratio(proved, other))));
    row(&case.name(), figures, ratios);
}

/// For each decoder what is next of the figures, which are of those that read the case.
fn spread_out<T>(case: &Case, figures: Vec<T>) -> Vec<Option<T>> {
    let mut figures = figures.into_iter();
    DECODERS.iter().map(|decoder| if decoder.reads(case) { figures.next() } else { None }).collect()
}

fn head(first: &str, unit: &str) {
    let names = DECODERS.iter().map(|decoder| decoder.name);
    row(first, names.clone().map(|name| format!("{name}{unit}")), names.skip(1).map(|name| format!("proved/{name}")));
    println!("{}|", "|---".repeat(2 * DECODERS.len()));
}

fn compare() {
    head("record", ", ns");
    for case in CASES {
        let readers: Vec<Decoder> = DECODERS.iter().copied().filter(|decoder| decoder.reads(&case)).collect();
        let times = spread_out(&case, rounds(&readers, &case.work(RECORDS)));
        let median = |times: &Vec<f64>| format!("{:.0}", Spread::of(times.clone()).median());
        row_of(&case, &times, median, |proved, other| show(&ratio(proved, other)));
    }
}

fn show(spread: &Spread) -> String {
    let [low, median, high] = spread.0;
    format!("{median:.2} ({low:.2} to {high:.2})")
}

fn proved_alone(work: &Work) -> Spread {
    Spread::of(rounds(&[PROVED], work).concat())
}

/// The cost of a record as a unit grows, and of a base as a read grows.
fn growth() {
    println!("\n| records of the unit (M, 150 bases, 3 edits) | ns a record |\n|---|---|");
    for records in [1, 4, 16, 64, 256, 1_024] {
        println!("| {records} | {} |", show(&proved_alone(&case('M', 1, 150, 3).work(records))));
    }
    println!("\n| bases of the read (P) | ns a record | ns a base more |\n|---|---|---|");
    let mut last: Option<(u16, f64)> = None;
    for bases in [1, 10, 100, 250, 500, 1_000] {
        let spread = proved_alone(&case('P', 1, bases, 0).work(RECORDS));
        let more = last.map_or(String::new(), |(fewer, time)| {
            format!("{:.2}", (spread.median() - time) / f64::from(bases - fewer))
        });
        println!("| {bases} | {} | {more} |", show(&spread));
        last = Some((bases, spread.median()));
    }
}

/// What callgrind counts in a run of so many turns: the set-up, and the turns.
fn collected(decoder: &Decoder, case: usize, turns: u16) -> u64 {
    let program = std::env::current_exe().expect("the path of this program");
    let ended = Command::new("valgrind")
        .args(["--tool=callgrind", "--callgrind-out-file=/dev/null"])
        .arg(program)
        .args(["--count", decoder.name, &case.to_string(), &turns.to_string()])
        .output()
        .expect("valgrind is on PATH");
    let log = String::from_utf8_lossy(&ended.stderr);
    assert!(ended.status.success(), "{log}");
    let figure = log.lines().find_map(|line| line.split_once("Collected :")?.1.trim().parse().ok());
    figure.expect("callgrind says what it collected")
}

/// Two runs differ by their turns alone, each a loop that passes the arguments and calls. Neither the set-up is in the
/// difference nor the first turn, in which memory is allocated that the later ones use again. Both numbers have one digit:
/// nothing lies elsewhere for a longer argument. Callgrind's own tally by function is not taken: on aarch64 it shows functions
/// that call themselves where none does.
fn instructions() {
    const FEW: u16 = 2;
    const MANY: u16 = 4;
    head("instructions a record", "");
    for case in COUNTED {
        let count = |decoder| {
            let turns = collected(decoder, case, MANY) - collected(decoder, case, FEW);
            turns as f64 / f64::from((MANY - FEW) * RECORDS)
        };
        let readers = DECODERS.iter().filter(|decoder| decoder.reads(&CASES[case]));
        let counts = spread_out(&CASES[case], readers.map(count).collect());
        row_of(&CASES[case], &counts, |count| format!("{count:.0}"), |proved, other| format!("{:.2}", proved / other));
    }
}

fn count(decoder: &Decoder, case: &Case, turns: u16) {
    let work = case.work(RECORDS);
    let mut out = vec![0; LISTED_LINE_MAX];
    for _ in 0..turns {
        (decoder.run)(&work, &mut out);
    }
}

fn main() {
    let words: Vec<String> = std::env::args().skip(1).collect();
    match words.iter().map(String::as_str).collect::<Vec<_>>()[..] {
        [] => {
            compare();
            growth();
        }
        ["--instructions"] => instructions(),
        ["--count", decoder, case, turns] => count(
            DECODERS.iter().find(|known| known.name == decoder).expect("the name of a decoder"),
            &CASES[case.parse::<usize>().expect("the place of a case")],
            turns.parse().expect("a number of turns"),
        ),
        _ => eprintln!("usage: bench-records [--instructions | --count DECODER CASE TURNS]"),
    }
}
