//! Counts of what the calls of a run have reached.

use std::collections::BTreeMap;

pub struct Tally(BTreeMap<String, u64>);

impl Tally {
    /// Everything that a run has to reach, none of it reached yet.
    pub fn of(names: impl IntoIterator<Item = String>) -> Tally {
        Tally(names.into_iter().map(|name| (name, 0)).collect())
    }

    pub fn count(&mut self, name: impl Into<String>) {
        *self.0.entry(name.into()).or_default() += 1;
    }

    /// Prints how often each was reached; false where one was reached fewer than `least` times.
    pub fn report(&self, least: u64) -> bool {
        for (name, &times) in &self.0 {
            let short = if times < least { "  TOO FEW" } else { "" };
            println!("  {times:>7}  {name}{short}");
        }
        self.0.values().all(|&times| times >= least)
    }
}

pub fn refused(number: u32) -> String {
    format!("refusal {number:>2}")
}
