//! Hexadecimal lines: from a file to lines, from a line to the bytes of its frame, and back.

use crate::limits::LINE_DIGITS_MAX;
use crate::refusal::Refusal;

pub const NEWLINE: u8 = 0x0a;

const NO_DIGIT: u8 = 0xff;
const DIGITS: &[u8; 16] = b"0123456789abcdef";

/// The value of each byte as a digit. Capitals are no digits (document 01, Lines).
const VALUES: [u8; 256] = values();

const fn values() -> [u8; 256] {
    let mut table = [NO_DIGIT; 256];
    let mut value = 0;
    while value < DIGITS.len() {
        table[DIGITS[value] as usize] = value as u8;
        value += 1;
    }
    table
}

/// The bytes of an input line that is given with its 0A.
pub fn read_line(line: &[u8]) -> Result<Vec<u8>, Refusal> {
    read_line_within(line, LINE_DIGITS_MAX)
}

/// The same under another limit: a kept line of a listing may be longer than an input line.
pub fn read_line_within(line: &[u8], digits_max: usize) -> Result<Vec<u8>, Refusal> {
    let digits = line.strip_suffix(&[NEWLINE]).ok_or(Refusal::Digits)?;
    if digits.len() > digits_max || digits.len() % 2 != 0 {
        return Err(Refusal::Digits);
    }
    let mut bytes = vec![0; digits.len() / 2];
    let mut seen = 0;
    for (byte, two) in bytes.iter_mut().zip(digits.chunks_exact(2)) {
        let (high, low) = (VALUES[two[0] as usize], VALUES[two[1] as usize]);
        seen |= high | low;
        *byte = high << 4 | low;
    }
    // Only a byte that is no digit has a value above 15.
    if seen > 15 {
        return Err(Refusal::Digits);
    }
    Ok(bytes)
}

/// Adds one line, its 0A included.
pub fn write_line(out: &mut Vec<u8>, bytes: &[u8]) {
    let start = out.len();
    out.resize(start + 2 * bytes.len(), 0);
    for (two, byte) in out[start..].chunks_exact_mut(2).zip(bytes) {
        two[0] = DIGITS[(byte >> 4) as usize];
        two[1] = DIGITS[(byte & 15) as usize];
    }
    out.push(NEWLINE);
}

/// A file and how many of its bytes have been read.
#[derive(Clone, Debug)]
pub struct Lines<'a> {
    file: &'a [u8],
    at: usize,
}

impl<'a> Lines<'a> {
    pub fn new(file: &'a [u8]) -> Self {
        Lines { file, at: 0 }
    }

    pub fn at_end(&self) -> bool {
        self.at == self.file.len()
    }

    /// The next line with its 0A. Where the file ends a line is missing (14). No 0A within the limit is
    /// refused by 1 at once, whatever follows (decision 3).
    pub fn take(&mut self) -> Result<&'a [u8], Refusal> {
        if self.at_end() {
            return Err(Refusal::Lines);
        }
        let rest = &self.file[self.at..];
        let window = &rest[..rest.len().min(LINE_DIGITS_MAX + 1)];
        let digits = newline_in(window).ok_or(Refusal::Digits)?;
        self.at += digits + 1;
        Ok(&rest[..digits + 1])
    }

    /// Passes over one line by its 0A only (decision 45). False where no 0A is left.
    pub fn pass_over(&mut self) -> bool {
        match newline_in(&self.file[self.at..]) {
            Some(before) => {
                self.at += before + 1;
                true
            }
            None => false,
        }
    }
}

fn newline_in(bytes: &[u8]) -> Option<usize> {
    bytes.iter().position(|&byte| byte == NEWLINE)
}
