//! Going on with a listing that was cut off (document 01, Resuming).

use crate::frame::Frame;
use crate::hex::{read_line_within, NEWLINE};
use crate::kind;
use crate::limits::{END_FRAME, LISTED_FRAME_LEAST, LISTED_LINE_MAX, REFUSED_FRAME, SUBSEQUENCES};
use crate::listing::{list_records, list_rest, listing, open, read_pairs, refused_line, Opened};
use crate::pairing::{counts_of, State};
use crate::record::state_stands;
use crate::refusal::Refusal;

/// The record number under which a refused resume is reported.
const NO_RECORD: u16 = u16::MAX;

/// What the resume program prints: the kept lines and the missing ones, or its refusal alone.
pub fn resume(reference: &[u8], unit: &[u8], found: &[u8]) -> Vec<u8> {
    let kept = kept(found);
    if kept.is_empty() {
        return listing(reference, unit);
    }
    match continued(reference, unit, kept) {
        Ok(added) => [kept, &added].concat(),
        Err(refusal) => refused_line(NO_RECORD, refusal),
    }
}

/// Everything up to the last 0A that stands before the first zero byte.
pub fn kept(found: &[u8]) -> &[u8] {
    let before_zero = found.iter().position(|&byte| byte == 0).unwrap_or(found.len());
    let length = found[..before_zero].iter().rposition(|&byte| byte == NEWLINE).map_or(0, |last| last + 1);
    &found[..length]
}

/// The lines to be added behind `kept`, which has at least one line. 15 is checked before anything of the last line.
fn continued(reference: &[u8], unit: &[u8], kept: &[u8]) -> Result<Vec<u8>, Refusal> {
    let opened = open(reference, unit);
    let first_line = match &opened {
        Ok(opened) => opened.unit_line.to_vec(),
        Err(refusal) => refused_line(0, *refusal),
    };
    if first_of(kept) != first_line {
        return Err(Refusal::FirstLine);
    }
    let last_line = last_of(kept);
    // Equality comes before the kind (decision 44): a refused first line is the whole listing.
    if last_line == first_line {
        return Ok(opened.map_or(Vec::new(), |opened| rest_of(&opened)));
    }
    match last_kept(last_line)? {
        LastKept::Finished => Ok(Vec::new()),
        LastKept::Record(listed) => {
            let opened = opened.map_err(|_| Refusal::LastLine)?;
            after_record(&opened, listed)
        }
    }
}

fn first_of(kept: &[u8]) -> &[u8] {
    let digits = kept.iter().position(|&byte| byte == NEWLINE).unwrap_or(0);
    &kept[..digits + 1]
}

fn last_of(kept: &[u8]) -> &[u8] {
    let before = &kept[..kept.len() - 1];
    let start = before.iter().rposition(|&byte| byte == NEWLINE).map_or(0, |end| end + 1);
    &kept[start..]
}

fn rest_of(opened: &Opened) -> Vec<u8> {
    let mut rest = Vec::new();
    list_rest(opened, &mut rest);
    rest
}

/// A last line other than the first that may be gone on from.
enum LastKept {
    /// An 05 or 06 line: whatever it says is believed.
    Finished,
    /// An 04 line: its record number, and the indexes after that record.
    Record(State),
}

fn last_kept(line: &[u8]) -> Result<LastKept, Refusal> {
    let bytes = read_line_within(line, LISTED_LINE_MAX - 1).map_err(|_| Refusal::LastLine)?;
    match (bytes.first(), bytes.len()) {
        (Some(&kind::REFUSED), REFUSED_FRAME) | (Some(&kind::END), END_FRAME) => Ok(LastKept::Finished),
        (Some(&kind::LISTED), length) if length >= LISTED_FRAME_LEAST => Ok(LastKept::Record(listed_state(&bytes)?)),
        _ => Err(Refusal::LastLine),
    }
}

fn listed_state(bytes: &[u8]) -> Result<State, Refusal> {
    let mut frame = Frame::new(bytes);
    frame.kind(kind::LISTED)?;
    let mut state = State { number: frame.u16()?, indexes: [0; SUBSEQUENCES] };
    for index in &mut state.indexes {
        *index = frame.u16()?;
    }
    Ok(state)
}

/// Goes on behind an 04 line, once its own number and indexes can be those of this unit.
fn after_record(opened: &Opened, listed: State) -> Result<Vec<u8>, Refusal> {
    let mut lines = opened.lines.clone();
    let symbols = read_pairs(&mut lines).map_err(|_| Refusal::LastLine)?;
    if !state_stands(&opened.unit, &counts_of(&symbols), &listed) {
        return Err(Refusal::LastLine);
    }
    let state = State { number: listed.number + 1, indexes: listed.indexes };
    let mut added = Vec::new();
    if (0..state.number).all(|_| lines.pass_over()) {
        list_records(opened, &symbols, state, lines, &mut added);
    } else {
        added = refused_line(state.number, Refusal::Lines);
    }
    Ok(added)
}
