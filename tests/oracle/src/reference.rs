//! The reference: its lines (kind 07), and the bases a match takes from it.

use crate::alphabet::{Alphabet, UNKNOWN};
use crate::frame::Frame;
use crate::hex::{read_line, Lines};
use crate::kind;
use crate::limits::{REFERENCE_LINE_MAX, REFERENCE_MAX};
use crate::refusal::Refusal;

/// Joins the lines of reference.hex; no line gives an empty reference.
pub fn read_reference(file: &[u8]) -> Result<Vec<u8>, Refusal> {
    let mut lines = Lines::new(file);
    let mut indexes = Vec::new();
    while !lines.at_end() {
        let bytes = read_line(lines.take()?)?;
        let more = read_reference_line(&bytes, indexes.len())?;
        indexes.extend_from_slice(more);
    }
    Ok(indexes)
}

/// The indexes of one reference frame, read after `before` others. Any byte value is taken here, as the
/// alphabet is not known yet (decision 4).
pub fn read_reference_line(bytes: &[u8], before: usize) -> Result<&[u8], Refusal> {
    let mut frame = Frame::new(bytes);
    frame.kind(kind::REFERENCE)?;
    let indexes = frame.bytes(frame.left())?;
    if indexes.is_empty() || indexes.len() > REFERENCE_LINE_MAX {
        return Err(Refusal::Frame);
    }
    reference_fits(before + indexes.len())?;
    Ok(indexes)
}

/// The limit over all lines, which a lent reference must keep as well (document 01, Order).
pub fn reference_fits(bases: usize) -> Result<(), Refusal> {
    if bases > REFERENCE_MAX {
        return Err(Refusal::Frame);
    }
    Ok(())
}

/// The lent reference and where it lies.
#[derive(Clone, Copy, Debug)]
pub struct Reference<'a> {
    first: u64,
    indexes: &'a [u8],
}

impl<'a> Reference<'a> {
    pub fn new(first: u32, indexes: &'a [u8]) -> Self {
        Reference { first: u64::from(first), indexes }
    }

    /// Adds the letters of `count` matches from position `from` on. What lies before or behind the lent
    /// bases reads as N (10.2.2); a byte outside the alphabet is refused only here, under a match.
    pub fn add_matches(self, out: &mut Vec<u8>, alphabet: Alphabet, from: u64, count: usize) -> Result<(), Refusal> {
        let to = from + count as u64;
        let lent_from = from.max(self.first).min(to);
        let lent_to = to.min(self.first + self.indexes.len() as u64).max(lent_from);
        pad(out, lent_from - from);
        if lent_from < lent_to {
            let (start, end) = ((lent_from - self.first) as usize, (lent_to - self.first) as usize);
            for &index in &self.indexes[start..end] {
                out.push(alphabet.letter(index)?);
            }
        }
        pad(out, to - lent_to);
        Ok(())
    }
}

fn pad(out: &mut Vec<u8>, count: u64) {
    out.resize(out.len() + count as usize, UNKNOWN);
}
