//! What may be found of a listing after the power failed, or after somebody had a hand in it.

use crate::cases::{listing_case, Files};
use crate::damage::damage_line;
use crate::frames::{line, set_u16, u16_at, LISTED_INDEXES_AT, LISTED_NUMBER_AT, RECORD_COUNT_AT, SYMBOL_COUNT_AT};
use crate::rng::Rng;
use oracle::hex::{read_line, read_line_within, Lines};
use oracle::kind;
use oracle::limits::*;

/// One thing that happened to the listing, then what stands behind it.
pub fn found(rng: &mut Rng, files: &Files, listing: &[u8]) -> Vec<u8> {
    let lines: Vec<Vec<u8>> = listing.split_inclusive(|byte| *byte == b'\n').map(<[u8]>::to_vec).collect();
    let mut found = match rng.below(100) {
        0..=39 => return cut_anywhere(rng, listing),
        40..=41 => Vec::new(),
        42..=43 => listing.to_vec(),
        44..=48 => zero_inside(rng, listing),
        49..=52 => first_line_changed(rng, &lines),
        53..=54 => another_listing(rng),
        55..=58 => unit_line_again(rng, &lines),
        59..=66 => last_line_damaged(rng, &lines),
        67..=71 => end_line(rng, files, &lines),
        72..=73 => any_last_line(rng, &lines),
        _ => record_line_changed(rng, files, &lines),
    };
    found.extend(behind(rng));
    found
}

/// Cut at any byte or behind any line, and filled with zeros.
fn cut_anywhere(rng: &mut Rng, listing: &[u8]) -> Vec<u8> {
    let mut cut = rng.index(listing.len() + 1);
    if rng.percent(30) {
        cut = listing[..cut].iter().rposition(|byte| *byte == b'\n').map_or(0, |at| at + 1);
    }
    let zeros = *rng.pick(&[0, 1, 512]);
    [&listing[..cut], &vec![0; zeros]].concat()
}

/// What stands behind the last whole line: nothing, a piece of a line, zeros, and whatever stood there before.
fn behind(rng: &mut Rng) -> Vec<u8> {
    let pieces: [&[u8]; 8] = [b"", b"", b"", b"04", b"0", b"\0", &[0; 512], b"04\0\0\n06ffff\n"];
    rng.pick(&pieces).to_vec()
}

fn zero_inside(rng: &mut Rng, listing: &[u8]) -> Vec<u8> {
    let mut found = listing.to_vec();
    let at = rng.index(found.len());
    found[at] = 0;
    found
}

/// The first lines of a listing, at least one.
fn some_lines(rng: &mut Rng, lines: &[Vec<u8>]) -> Vec<Vec<u8>> {
    lines[..1 + rng.index(lines.len())].to_vec()
}

fn first_line_changed(rng: &mut Rng, lines: &[Vec<u8>]) -> Vec<u8> {
    let mut lines = some_lines(rng, lines);
    damage_line(rng, &mut lines[0]);
    lines.concat()
}

/// The listing of some other unit.
fn another_listing(rng: &mut Rng) -> Vec<u8> {
    let files = listing_case(rng.number(), 0);
    oracle::listing(&files.reference, &files.unit)
}

fn unit_line_again(rng: &mut Rng, lines: &[Vec<u8>]) -> Vec<u8> {
    let mut kept = some_lines(rng, lines);
    kept.push(lines[0].clone());
    kept.concat()
}

fn last_line_damaged(rng: &mut Rng, lines: &[Vec<u8>]) -> Vec<u8> {
    let mut kept = some_lines(rng, lines);
    if let Some(last) = kept.last_mut() {
        damage_line(rng, last);
    }
    kept.concat()
}

/// An 05 or 06 line of a right or wrong length, true or false: whatever it says is believed.
fn end_line(rng: &mut Rng, files: &Files, lines: &[Vec<u8>]) -> Vec<u8> {
    let mut kept = some_lines(rng, lines);
    let count = record_count(&files.unit);
    let any = rng.number() as u16;
    let number = *rng.pick(&[0, count, count.wrapping_sub(1), count.wrapping_add(1), any]);
    let [high, low] = number.to_be_bytes();
    let kind = *rng.pick(&[kind::REFUSED, kind::END]);
    let mut bytes = vec![kind, high, low, rng.below(20) as u8, rng.byte()];
    bytes.truncate(*rng.pick(&[1, 2, END_FRAME, END_FRAME, REFUSED_FRAME, REFUSED_FRAME, 5]));
    kept.push(line(&bytes));
    kept.concat()
}

/// Some frame, mostly of no kind that a listing has.
fn any_last_line(rng: &mut Rng, lines: &[Vec<u8>]) -> Vec<u8> {
    let mut kept = some_lines(rng, lines);
    let length = rng.below(40) as usize;
    let mut bytes: Vec<u8> = (0..length).map(|_| rng.byte()).collect();
    if let Some(first) = bytes.first_mut() {
        *first = rng.below(9) as u8;
    }
    kept.push(line(&bytes));
    kept.concat()
}

/// The last kept line is an 04 line of which the length, the number or an index is another one.
fn record_line_changed(rng: &mut Rng, files: &Files, lines: &[Vec<u8>]) -> Vec<u8> {
    let mut kept = some_lines(rng, lines);
    let listed = kept.iter().rposition(|line| line.starts_with(b"04"));
    let mut bytes = match listed {
        Some(at) => {
            kept.truncate(at + 1);
            kept.pop().and_then(|line| read_line_within(&line, LISTED_LINE_MAX - 1).ok()).unwrap_or_default()
        }
        // No record was listed; one is made up.
        None => [vec![kind::LISTED], vec![0; LISTED_FRAME_LEAST - 1]].concat(),
    };
    for _ in 0..rng.between(1, 2) {
        change_record_frame(rng, files, &mut bytes);
    }
    kept.push(line(&bytes));
    kept.concat()
}

fn change_record_frame(rng: &mut Rng, files: &Files, bytes: &mut Vec<u8>) {
    match rng.below(10) {
        0 => bytes.resize(LISTED_FRAME_LEAST - 1, 0),
        1 => bytes.resize(LISTED_FRAME_LEAST + rng.index(2), 0),
        2 => bytes.resize((LISTED_LINE_MAX - 1) / 2 + rng.index(2), 0),
        3..=5 => {
            let count = record_count(&files.unit);
            let number =
                *rng.pick(&[0, 1, count.saturating_sub(2), count.saturating_sub(1), count, count.wrapping_add(1)]);
            set_u16(bytes, LISTED_NUMBER_AT, number);
        }
        6..=8 => {
            let subsequence = rng.index(SUBSEQUENCES);
            let count = symbol_count(&files.unit, subsequence);
            let index = *rng.pick(&[0, count / 2, count.saturating_sub(1), count, count, count.wrapping_add(1)]);
            set_u16(bytes, LISTED_INDEXES_AT + 2 * subsequence, index);
        }
        _ => {
            let end = bytes.len().min(LISTED_FRAME_LEAST);
            if end > LISTED_NUMBER_AT {
                let at = rng.between(LISTED_NUMBER_AT as u64, end as u64 - 1) as usize;
                bytes[at] = rng.byte();
            }
        }
    }
}

/// The record count of a unit file, 0 where it has none.
fn record_count(unit: &[u8]) -> u16 {
    frame_of(unit, 0).and_then(|bytes| u16_at(&bytes, RECORD_COUNT_AT)).unwrap_or(0)
}

/// The symbol count of a pair line, 0 where there is none.
fn symbol_count(unit: &[u8], subsequence: usize) -> u16 {
    frame_of(unit, 1 + subsequence).and_then(|bytes| u16_at(&bytes, SYMBOL_COUNT_AT)).unwrap_or(0)
}

fn frame_of(file: &[u8], number: usize) -> Option<Vec<u8>> {
    let mut lines = Lines::new(file);
    for _ in 0..number {
        lines.take().ok()?;
    }
    read_line(lines.take().ok()?).ok()
}
