//! Damage to the text: digits, lines, files.

use crate::rng::Rng;
use oracle::limits::LINE_DIGITS_MAX;

/// Damages one line of text, its 0A included.
pub fn damage_line(rng: &mut Rng, line: &mut Vec<u8>) {
    let digits = line.len().saturating_sub(1);
    match rng.below(12) {
        0 if digits > 0 => capital(rng, line, digits),
        1 if digits > 0 => line[rng.index(digits)] = *rng.pick(b"gz/:`@ \t-\r\x7f\xff"),
        2 if digits > 0 => line[rng.index(digits)] = 0,
        3 if digits > 0 => line[rng.index(digits)] = b'\n',
        4 if digits > 0 => drop(line.remove(rng.index(digits))),
        5 => line.insert(rng.index(digits + 1), *rng.pick(b"0f")),
        6 => line.insert(digits, b'\r'),
        7 => lengthen_line(rng, line),
        8 => *line = b"\n".to_vec(),
        9 if !line.is_empty() => drop(line.pop()),
        _ if digits > 0 => line[rng.index(digits)] = *rng.pick(b"0123456789abcdef"),
        _ => line.insert(0, b'0'),
    }
}

/// A capital where there is a letter, else one in place of any digit.
fn capital(rng: &mut Rng, line: &mut [u8], digits: usize) {
    let letters: Vec<usize> = (0..digits).filter(|at| line[*at].is_ascii_lowercase()).collect();
    if letters.is_empty() {
        line[rng.index(digits)] = *rng.pick(b"ABCDEF");
    } else {
        line[*rng.pick(&letters)].make_ascii_uppercase();
    }
}

/// To the longest line there may be, or past it.
fn lengthen_line(rng: &mut Rng, line: &mut Vec<u8>) {
    let ended = line.pop().is_some();
    let digits = *rng.pick(&[
        LINE_DIGITS_MAX,
        LINE_DIGITS_MAX + 1,
        LINE_DIGITS_MAX + 2,
        LINE_DIGITS_MAX + 2,
        3 * LINE_DIGITS_MAX,
    ]);
    line.resize(digits.max(line.len()), b'0');
    if ended {
        line.push(b'\n');
    }
}

/// Drops, doubles or swaps lines.
pub fn damage_lines(rng: &mut Rng, lines: &mut Vec<Vec<u8>>) {
    if lines.is_empty() {
        lines.push(b"\n".to_vec());
        return;
    }
    let (at, other) = (rng.index(lines.len()), rng.index(lines.len()));
    match rng.below(4) {
        0 => drop(lines.remove(at)),
        1 => lines.insert(at, lines[at].clone()),
        2 => lines.insert(at, lines[other].clone()),
        _ => lines.swap(at, other),
    }
}

/// Cuts a file anywhere, takes its last 0A, or adds bytes behind it.
pub fn damage_file(rng: &mut Rng, file: &mut Vec<u8>) {
    match rng.below(4) {
        0 => drop(file.pop()),
        1 => {
            let more: [&[u8]; 7] = [b"\n", b"0", b"\0", b"03\n", b" ", b"0700\n", b"0300000000\n"];
            file.extend_from_slice(more[rng.index(more.len())]);
        }
        _ => file.truncate(rng.index(file.len() + 1)),
    }
}
