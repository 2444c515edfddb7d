//! Making a case that shows a difference small: records are dropped while the difference stays.

use crate::cases::Files;
use crate::frames::{
    line, pair_frame, set_u16, u16_at, HEAD_LINES, LISTED_INDEXES_AT, LISTED_NUMBER_AT, RECORD_COUNT_AT,
};
use oracle::hex::{read_line, read_line_within};
use oracle::limits::{LISTED_FRAME_LEAST, LISTED_LINE_MAX, SUBSEQUENCES};
use oracle::pairing::read_pair_line;

/// The smallest case found, which differs as `files` does.
pub fn shrink(files: Files, differs: impl Fn(&Files) -> bool) -> Files {
    let mut files = files;
    let without_reference = Files { reference: Vec::new(), ..files.clone() };
    if differs(&without_reference) {
        files = without_reference;
    }
    if let Some(fewer) = without_middle_of_found(&files).filter(&differs) {
        files = fewer;
    }
    // Many at a time at first, from the last record on; then fewer.
    let mut step = records(&files.unit).next_power_of_two();
    while step > 0 {
        let mut end = records(&files.unit);
        while end > 0 {
            let start = end.saturating_sub(step);
            if let Some(fewer) = without_records(&files, start, end).filter(&differs) {
                files = fewer;
            }
            end = start;
        }
        step /= 2;
    }
    files
}

fn lines_of(file: &[u8]) -> Vec<Vec<u8>> {
    file.split_inclusive(|byte| *byte == b'\n').map(<[u8]>::to_vec).collect()
}

pub fn records(unit: &[u8]) -> usize {
    lines_of(unit).len().saturating_sub(HEAD_LINES)
}

/// Lines between the first and the last have no say in resuming.
fn without_middle_of_found(files: &Files) -> Option<Files> {
    let mut lines = lines_of(files.found.as_ref()?);
    if lines.len() < 4 {
        return None;
    }
    lines.drain(1..lines.len() - 2);
    Some(Files { found: Some(lines.concat()), ..files.clone() })
}

/// The case without the records from `start` to `end`, their pair symbols and their lines in what was found.
/// None where the head of the unit file cannot be read.
fn without_records(files: &Files, start: usize, end: usize) -> Option<Files> {
    let mut lines = lines_of(&files.unit);
    let before = indexes_after(files, start);
    let behind = indexes_after(files, end);
    let old_unit_line = lines[0].clone();
    lines[0] = with_fewer_records(&lines[0], (end - start) as u16)?;
    for subsequence in 0..SUBSEQUENCES {
        let mut symbols = read_pair_line(&read_line(&lines[1 + subsequence]).ok()?, subsequence).ok()?;
        let from = usize::from(before[subsequence]).min(symbols.len());
        let to = usize::from(behind[subsequence]).clamp(from, symbols.len());
        symbols.drain(from..to);
        lines[1 + subsequence] = pair_frame(subsequence as u8, &symbols).line();
    }
    lines.drain(HEAD_LINES + start..HEAD_LINES + end);
    let found = files.found.as_ref().map(|found| {
        let taken = std::array::from_fn(|at| behind[at].saturating_sub(before[at]));
        found_without(found, &old_unit_line, &lines[0], start as u16, end as u16, taken)
    });
    Some(Files { reference: files.reference.clone(), unit: lines.concat(), found })
}

/// Symbols taken by the first records, as far as they were listed.
fn indexes_after(files: &Files, records: usize) -> [u16; SUBSEQUENCES] {
    let listing = oracle::listing(&files.reference, &files.unit);
    let mut listed = lines_of(&listing).into_iter().skip(1).take(records).filter_map(|line| listed_frame(&line));
    listed.next_back().map_or([0; SUBSEQUENCES], |bytes| indexes(&bytes))
}

fn listed_frame(line: &[u8]) -> Option<Vec<u8>> {
    let bytes = read_line_within(line, LISTED_LINE_MAX - 1).ok()?;
    (bytes.first() == Some(&oracle::kind::LISTED) && bytes.len() >= LISTED_FRAME_LEAST).then_some(bytes)
}

fn indexes(bytes: &[u8]) -> [u16; SUBSEQUENCES] {
    std::array::from_fn(|at| u16_at(bytes, LISTED_INDEXES_AT + 2 * at).unwrap_or(0))
}

fn with_fewer_records(unit_line: &[u8], fewer: u16) -> Option<Vec<u8>> {
    let mut bytes = read_line(unit_line).ok()?;
    let count = u16_at(&bytes, RECORD_COUNT_AT)?.checked_sub(fewer)?;
    set_u16(&mut bytes, RECORD_COUNT_AT, count);
    Some(line(&bytes))
}

/// What was found, as if the records had never been: later ones numbered anew, the unit line changed.
fn found_without(
    found: &[u8],
    old_unit_line: &[u8],
    unit_line: &[u8],
    start: u16,
    end: u16,
    taken: [u16; SUBSEQUENCES],
) -> Vec<u8> {
    let mut out = Vec::new();
    for text in lines_of(found) {
        if text == old_unit_line {
            out.extend_from_slice(unit_line);
            continue;
        }
        let Some(mut bytes) = listed_frame(&text) else {
            out.extend(text);
            continue;
        };
        let number = u16_at(&bytes, LISTED_NUMBER_AT).unwrap_or(0);
        if number < start {
            out.extend(text);
        } else if number >= end {
            set_u16(&mut bytes, LISTED_NUMBER_AT, number - (end - start));
            for (at, index) in indexes(&bytes).into_iter().enumerate() {
                set_u16(&mut bytes, LISTED_INDEXES_AT + 2 * at, index.saturating_sub(taken[at]));
            }
            out.extend(line(&bytes));
        }
    }
    out
}
