//! The longest E-CIGARs that a record comes to, run: 1,000 bases, a deletion between any two of them, hard clips of five
//! digits; in one piece, and in sixteen whose splices have as many digits as fit into 2^32 positions.

use crate::call::Call;
use bed::RecordCall;
use oracle::limits::{LISTED_LINE_MAX, SUBSEQUENCES};
use oracle::UnitNumbers;

const BASES: u32 = 1_000;

/// How many mapped bases each piece has.
const ONE: [u32; 1] = [BASES];
const SIXTEEN: [u32; 16] = [62, 62, 62, 62, 62, 62, 62, 62, 62, 62, 62, 62, 62, 62, 62, 70];

/// What the splice in front of a piece counts: twelve have nine digits, and no more than three can have ten.
fn splice(piece: usize) -> u32 {
    if piece <= 12 {
        100_000_000
    } else {
        1_000_000_000
    }
}

/// The record line: rcomp 2, which writes splices as `*`, and a deletion in front of each base but the first.
fn line(pieces: &[u32]) -> String {
    let lengths: String = pieces.iter().map(|length| format!("{length:04x}")).collect();
    let edits: String = (1..BASES).map(|offset| format!("{offset:04x}0200")).collect();
    let (number, count) = (pieces.len(), BASES - 1);
    format!("0300000000{BASES:04x}02{number:02x}{lengths}0000ffff0000ffff{count:04x}{edits}\n")
}

/// Where the pieces behind the first lie: a base takes a position, and so does the deletion in front of it.
fn positions(pieces: &[u32]) -> Vec<u32> {
    let mut end = 2 * pieces[0] - 1;
    let mut positions = Vec::new();
    for (piece, length) in pieces.iter().enumerate().skip(1) {
        positions.push(end + splice(piece));
        end += splice(piece) + 2 * length;
    }
    positions
}

fn text(pieces: &[u32]) -> String {
    let mut text = String::from("[65535]1=");
    for (piece, length) in pieces.iter().enumerate() {
        if piece > 0 {
            text += &format!("{}*1-1=", splice(piece));
        }
        text += &"1-1=".repeat(*length as usize - 1);
    }
    text + "[65535]"
}

fn call(pieces: &[u32]) -> Call {
    let mut symbols = vec![Vec::new(); SUBSEQUENCES];
    (symbols[0], symbols[3]) = (vec![2; pieces.len() - 1], positions(pieces));
    let unit = UnitNumbers {
        class: 4,
        alphabet: 0,
        template_segments: 1,
        sequence_id: 0,
        first: 0,
        au_start: 0,
        au_end: u32::MAX,
        record_count: 1,
    };
    let lent = RecordCall {
        unit,
        reference: Vec::new(),
        counts: symbols.iter().map(|list| list.len() as u16).collect(),
        symbols,
        state: vec![0; 1 + SUBSEQUENCES],
        line: line(pieces).into_bytes(),
        room: LISTED_LINE_MAX,
    };
    Call { lent, unit_length: 8 }
}

/// The text ends the line, and has so many characters.
fn holds(pieces: &[u32], characters: usize) -> bool {
    let Ok(outcome) = call(pieces).through_c() else { return false };
    let written = usize::try_from(outcome.answer).map_or(&[][..], |bytes| &outcome.out[..bytes]);
    let text = text(pieces);
    let digits: String = text.bytes().map(|letter| format!("{letter:02x}")).collect();
    text.len() == characters && written.ends_with(format!("{characters:04x}{digits}\n").as_bytes())
}

/// Whether both are listed.
pub fn are_listed() -> bool {
    holds(&ONE, 4_012) && holds(&SIXTEEN, 4_165)
}
