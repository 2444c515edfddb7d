//! The listing of a whole unit (document 01, The listing).

use crate::hex::{read_line, write_line, Lines};
use crate::kind;
use crate::limits::SUBSEQUENCES;
use crate::pairing::{counts_of, read_pair_line, State, Symbols};
use crate::record::{decode, print};
use crate::reference::{read_reference, Reference};
use crate::refusal::Refusal;
use crate::unit::{read_unit, Unit};

/// What the listing program prints for these two files.
pub fn listing(reference: &[u8], unit: &[u8]) -> Vec<u8> {
    listing_and_refusal(reference, unit).0
}

/// The same, and the refusal that ended it.
pub fn listing_and_refusal(reference: &[u8], unit: &[u8]) -> (Vec<u8>, Option<Refusal>) {
    let mut out = Vec::with_capacity(unit.len());
    let refusal = match open(reference, unit) {
        Ok(opened) => {
            out.extend_from_slice(opened.unit_line);
            list_rest(&opened, &mut out)
        }
        Err(refusal) => Some(refused(&mut out, 0, refusal)),
    };
    (out, refusal)
}

/// A reference and a unit line that were both read.
pub struct Opened<'a> {
    pub reference: Vec<u8>,
    pub unit: Unit,
    /// With its 0A; the listing's first line.
    pub unit_line: &'a [u8],
    /// The unit file from its first pair line on.
    pub lines: Lines<'a>,
}

/// The reference is read first; a refusal here stands alone in the listing, without the unit line.
pub fn open<'a>(reference: &[u8], unit: &'a [u8]) -> Result<Opened<'a>, Refusal> {
    let reference = read_reference(reference)?;
    let mut lines = Lines::new(unit);
    let unit_line = lines.take()?;
    let unit = read_unit(&read_line(unit_line)?)?;
    Ok(Opened { reference, unit, unit_line, lines })
}

/// Everything after the unit line. Gives the refusal that ended it.
pub fn list_rest(opened: &Opened, out: &mut Vec<u8>) -> Option<Refusal> {
    let mut lines = opened.lines.clone();
    match read_pairs(&mut lines) {
        Ok(symbols) => list_records(opened, &symbols, State::default(), lines, out),
        Err(refusal) => Some(refused(out, 0, refusal)),
    }
}

/// Eight pair lines, in order.
pub fn read_pairs(lines: &mut Lines) -> Result<Symbols, Refusal> {
    let mut symbols = Symbols::default();
    for (subsequence, list) in symbols.iter_mut().enumerate() {
        *list = read_pair_line(&read_line(lines.take()?)?, subsequence)?;
    }
    Ok(symbols)
}

/// The records from `state` on, whose lines follow in `lines`, and the last line. Gives the refusal that ended it.
pub fn list_records(
    opened: &Opened,
    symbols: &Symbols,
    state: State,
    mut lines: Lines,
    out: &mut Vec<u8>,
) -> Option<Refusal> {
    let counts = counts_of(symbols);
    let mut state = state;
    while state.number < opened.unit.record_count {
        match list_record(opened, symbols, &counts, &state, &mut lines, out) {
            Ok(after) => state = after,
            Err(refusal) => return Some(refused(out, state.number, refusal)),
        }
    }
    match at_last(&counts, &state, &lines) {
        Ok(()) => {
            out.extend(end_line(opened.unit.record_count));
            None
        }
        Err(refusal) => Some(refused(out, opened.unit.record_count, refusal)),
    }
}

/// Adds the 05 line and hands the refusal back.
fn refused(out: &mut Vec<u8>, number: u16, refusal: Refusal) -> Refusal {
    out.extend(refused_line(number, refusal));
    refusal
}

fn list_record(
    opened: &Opened,
    symbols: &Symbols,
    counts: &[u16; SUBSEQUENCES],
    state: &State,
    lines: &mut Lines,
    out: &mut Vec<u8>,
) -> Result<State, Refusal> {
    let frame = read_line(lines.take()?)?;
    let reference = Reference::new(opened.unit.first, &opened.reference);
    let record = decode(&opened.unit, reference, symbols, counts, state, &frame)?;
    print(&record, out);
    Ok(record.after)
}

/// After the last record: no byte, and no symbol left over (decision 43: the two have the same answer).
fn at_last(counts: &[u16; SUBSEQUENCES], state: &State, lines: &Lines) -> Result<(), Refusal> {
    if !lines.at_end() || state.indexes != *counts {
        return Err(Refusal::Lines);
    }
    Ok(())
}

pub fn refused_line(number: u16, refusal: Refusal) -> Vec<u8> {
    let [high, low] = number.to_be_bytes();
    let mut line = Vec::new();
    write_line(&mut line, &[kind::REFUSED, high, low, refusal.number()]);
    line
}

fn end_line(records: u16) -> Vec<u8> {
    let [high, low] = records.to_be_bytes();
    let mut line = Vec::new();
    write_line(&mut line, &[kind::END, high, low]);
    line
}
