//! What the record calls of a run have reached.

use crate::call::{Call, Outcome};
use bed::faults;
use calls::tally::{refused, Tally};
use oracle::Class;

/// The refusals of a record call: all but those of resuming.
const REFUSALS: [u32; 15] = [1, 2, 3, 4, 5, 6, 7, 8, 9, 10, 11, 12, 13, 14, 17];
const SEGMENTS: [u8; 2] = [1, 2];
const EXACT: &str = "accepted, output just long enough";
const SHAPE: &str = "a slice of another shape";

/// Everything that a run has to reach, none of it reached yet.
pub fn nothing() -> Tally {
    let accepted = Class::ALL.into_iter().flat_map(|class| SEGMENTS.map(|segments| accepted(class, segments)));
    // HM has two template segments.
    let accepted = accepted.filter(|name| *name != self::accepted(Class::HM, 1));
    let spliced = Class::ALL.into_iter().filter(|class| class.has_splices()).map(spliced);
    let faults = faults::names().into_iter().map(fault);
    let others = [EXACT, SHAPE].map(String::from);
    Tally::of(REFUSALS.map(refused).into_iter().chain(accepted).chain(spliced).chain(faults).chain(others))
}

pub fn add(seen: &mut Tally, call: &Call, outcome: &Outcome) {
    let lent = &call.lent;
    if call.unit_length != 8 || lent.counts.len() != 8 || lent.symbols.len() != 8 || lent.state.len() != 9 {
        seen.count(SHAPE);
    }
    if outcome.answer < 0 {
        // Many faults of a read have one number; the second decoder tells them apart.
        let told = lent.expected().err().filter(|refusal| -i64::from(refusal.number()) == outcome.answer);
        if let Some(name) = told.and_then(faults::of) {
            seen.count(fault(name));
        }
        return seen.count(refused(outcome.answer.unsigned_abs() as u32));
    }
    if outcome.answer as usize == lent.room {
        seen.count(EXACT);
    }
    let class = Class::from_number(lent.unit.class).expect("an accepted record has a unit within its values");
    seen.count(accepted(class, lent.unit.template_segments));
    if class.has_splices() && lent.line.get(PIECES) != Some(b"01") {
        seen.count(spliced(class));
    }
}

/// The digits of a record line that say how many pieces its first read has.
const PIECES: std::ops::Range<usize> = 16..18;

fn spliced(class: Class) -> String {
    format!("class {class:?}, several pieces accepted")
}

fn fault(name: String) -> String {
    format!("refusal {name}")
}

fn accepted(class: Class, segments: u8) -> String {
    format!("class {class:?}, template of {segments} accepted")
}
