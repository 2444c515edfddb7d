//! What the second decoder makes of a record call.

use crate::call::{Call, Outcome};
use oracle::{Refusal, State};

/// The 04 line at the front of the output and the next state; or minus the refusal number, and nothing changed.
pub fn expected(call: &Call) -> Outcome {
    match answer(call) {
        Ok((line, state)) => {
            let out = [&line, &call.blank()[line.len()..]].concat();
            let numbers = std::iter::once(state.number).chain(state.indexes).map(u32::from).collect();
            Outcome { answer: line.len() as i64, state: numbers, out }
        }
        Err(refusal) => Outcome { answer: -i64::from(refusal.number()), state: call.state(), out: call.blank() },
    }
}

/// A unit that is not eight numbers has a value outside its range.
fn answer(call: &Call) -> Result<(Vec<u8>, State), Refusal> {
    if call.unit_length != 8 {
        return Err(Refusal::UnitValue);
    }
    call.lent.expected()
}
