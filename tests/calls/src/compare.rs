//! A run: so many random calls of a seed, each made and compared with the second decoder.

use crate::tally::Tally;
use std::process::ExitCode;

/// How often a run of the usual length has to reach each case.
const LEAST: u64 = 100;

/// A call of the proved code with everything that is lent to it.
pub trait Compared {
    /// What a call hands back, and what stands in the memory that it may write to.
    type Outcome: PartialEq;

    fn random(seed: u64, case: u64) -> Self;

    /// What the second decoder makes of it.
    fn expected(&self) -> Self::Outcome;

    /// Makes the call. An error says which memory was written to that is not the call's to write to.
    fn make(&self) -> Result<Self::Outcome, &'static str>;

    /// Everything that a run has to reach.
    fn nothing() -> Tally;

    fn add(&self, outcome: &Self::Outcome, seen: &mut Tally);

    /// Prints what is lent and both answers.
    fn report(&self, made: &Result<Self::Outcome, &'static str>, expected: &Self::Outcome);
}

struct Options {
    calls: u64,
    seed: u64,
}

/// The program `name [--calls N] [--seed S]` that compares calls of one kind, `usual` of them where the arguments say nothing.
pub fn compare<C: Compared>(name: &str, kind: &str, usual: u64) -> ExitCode {
    let Some(options) = options(usual) else {
        eprintln!("usage: {name} [--calls N] [--seed S]");
        return ExitCode::from(2);
    };
    if run::<C>(kind, &options, usual) {
        ExitCode::SUCCESS
    } else {
        ExitCode::FAILURE
    }
}

fn options(usual: u64) -> Option<Options> {
    let mut options = Options { calls: usual, seed: 1 };
    let mut arguments = std::env::args().skip(1);
    while let Some(name) = arguments.next() {
        let number = arguments.next()?.parse().ok()?;
        match name.as_str() {
            "--calls" => options.calls = number,
            "--seed" => options.seed = number,
            _ => return None,
        }
    }
    Some(options)
}

/// True where all calls agreed and everything was reached often enough.
fn run<C: Compared>(kind: &str, options: &Options, usual: u64) -> bool {
    let Options { calls, seed } = *options;
    let mut seen = C::nothing();
    for case in 0..calls {
        let call = C::random(seed, case);
        let expected = call.expected();
        let made = call.make();
        if made.as_ref() != Ok(&expected) {
            println!("{kind} call {case} of seed {seed} differs");
            call.report(&made, &expected);
            return false;
        }
        call.add(&expected, &mut seen);
    }
    println!("{calls} {kind} calls of seed {seed} agree with the second decoder:");
    // A shorter run has to reach its share.
    let share = u128::from(LEAST) * u128::from(calls) / u128::from(usual);
    seen.report(LEAST.min(share as u64))
}
