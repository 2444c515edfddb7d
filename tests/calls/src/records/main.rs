//! compare-records [--calls N] [--seed S]: makes random record calls of the proved code through the C boundary and compares
//! the answer, the state, the output and all memory beside them with the second decoder. Document 01's small examples and
//! the longest E-CIGARs are run first.

mod call;
mod longest;
mod second;
mod seen;
mod vectors;

use call::{Call, Outcome};
use calls::{Compared, Tally};
use std::process::ExitCode;

const CALLS: u64 = 400_000;

fn main() -> ExitCode {
    if let Some(number) = vectors::first_wrong() {
        println!("document 01's example {number} is not answered as it says");
        return ExitCode::FAILURE;
    }
    println!("document 01's examples 1 to 13 are answered as it says");
    if !longest::are_listed() {
        println!("the longest E-CIGARs, of 4,012 and 4,165 characters, are not listed");
        return ExitCode::FAILURE;
    }
    println!("the longest E-CIGARs, of 4,012 and 4,165 characters, are listed");
    calls::compare::<Call>("compare-records", "record", CALLS)
}

impl Compared for Call {
    type Outcome = Outcome;

    fn random(seed: u64, case: u64) -> Call {
        call::random(seed, case)
    }

    fn expected(&self) -> Outcome {
        second::expected(self)
    }

    fn make(&self) -> Result<Outcome, &'static str> {
        self.through_c()
    }

    fn nothing() -> Tally {
        seen::nothing()
    }

    fn add(&self, outcome: &Outcome, seen: &mut Tally) {
        seen::add(seen, self, outcome);
    }

    fn report(&self, made: &Result<Outcome, &'static str>, expected: &Outcome) {
        let lent = &self.lent;
        println!("  {:?}", lent.unit);
        println!("  {} reference bases, counts {:?}, state {:?}", lent.reference.len(), lent.counts, lent.state);
        println!("  line {}", String::from_utf8_lossy(&lent.line).trim_end());
        println!("  room {}", lent.room);
        match made {
            Ok(outcome) => show("proved code", outcome),
            Err(what) => println!("  proved code: has written to {what}"),
        }
        show("second decoder", expected);
    }
}

fn show(name: &str, outcome: &Outcome) {
    let written = usize::try_from(outcome.answer).unwrap_or(0).min(outcome.out.len());
    println!("  {name}: {}, state {:?}", outcome.answer, outcome.state);
    println!("    {}", String::from_utf8_lossy(&outcome.out[..written]).trim_end());
}
