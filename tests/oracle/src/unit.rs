//! The unit line (kind 01) and the values a unit can have.

use crate::alphabet::Alphabet;
use crate::frame::Frame;
use crate::kind;
use crate::limits::RECORDS_MAX;
use crate::refusal::Refusal;

#[derive(Clone, Copy, Debug, PartialEq, Eq)]
pub enum Class {
    P,
    N,
    M,
    I,
    HM,
    U,
}

impl Class {
    pub const ALL: [Class; 6] = [Class::P, Class::N, Class::M, Class::I, Class::HM, Class::U];

    /// Classes are numbered from 1.
    pub fn from_number(number: u8) -> Option<Class> {
        let place = number.checked_sub(1)?;
        Class::ALL.get(place as usize).copied()
    }

    pub fn has_clips(self) -> bool {
        matches!(self, Class::I | Class::HM)
    }

    /// Whether an aligned block says of how many pieces its read is.
    pub fn has_splices(self) -> bool {
        self.has_clips()
    }

    pub fn has_edits(self) -> bool {
        self != Class::P
    }
}

/// A unit as a caller hands it over: numbers that nobody has looked at.
#[derive(Clone, Debug, PartialEq, Eq)]
pub struct UnitNumbers {
    pub class: u8,
    pub alphabet: u8,
    pub template_segments: u8,
    pub sequence_id: u16,
    /// Position of the first lent reference base.
    pub first: u32,
    pub au_start: u32,
    pub au_end: u32,
    pub record_count: u16,
}

/// A unit whose values are all in their range.
#[derive(Clone, Debug)]
pub struct Unit {
    pub class: Class,
    pub alphabet: Alphabet,
    pub template_segments: u8,
    pub sequence_id: u16,
    pub first: u32,
    pub au_start: u32,
    pub au_end: u32,
    pub record_count: u16,
}

impl Unit {
    pub fn from_numbers(numbers: &UnitNumbers) -> Result<Unit, Refusal> {
        let class = class(numbers.class)?;
        Ok(Unit {
            class,
            alphabet: alphabet(numbers.alphabet)?,
            template_segments: template_segments(class, numbers.template_segments)?,
            sequence_id: numbers.sequence_id,
            first: numbers.first,
            au_start: numbers.au_start,
            au_end: au_end(numbers.au_start, numbers.au_end)?,
            record_count: record_count(numbers.record_count)?,
        })
    }

    /// One past the last position; wider than u32, as AU end may be the last u32 (decision 47).
    pub fn au_past(&self) -> i64 {
        i64::from(self.au_end) + 1
    }
}

/// Reads a unit frame left to right, each field checked when complete (decision 1).
pub fn read_unit(bytes: &[u8]) -> Result<Unit, Refusal> {
    let mut frame = Frame::new(bytes);
    frame.kind(kind::UNIT)?;
    let class = class(frame.u8()?)?;
    let alphabet = alphabet(frame.u8()?)?;
    let template_segments = template_segments(class, frame.u8()?)?;
    let sequence_id = frame.u16()?;
    let first = frame.u32()?;
    let au_start = frame.u32()?;
    let au_end = au_end(au_start, frame.u32()?)?;
    let record_count = record_count(frame.u16()?)?;
    frame.end()?;
    Ok(Unit { class, alphabet, template_segments, sequence_id, first, au_start, au_end, record_count })
}

fn class(number: u8) -> Result<Class, Refusal> {
    Class::from_number(number).ok_or(Refusal::UnitValue)
}

fn alphabet(number: u8) -> Result<Alphabet, Refusal> {
    Alphabet::from_number(number).ok_or(Refusal::UnitValue)
}

fn template_segments(class: Class, number: u8) -> Result<u8, Refusal> {
    match number {
        1 if class != Class::HM => Ok(number),
        2 => Ok(number),
        _ => Err(Refusal::UnitValue),
    }
}

fn au_end(au_start: u32, au_end: u32) -> Result<u32, Refusal> {
    if au_end < au_start {
        return Err(Refusal::UnitValue);
    }
    Ok(au_end)
}

/// A count above the limit is a unit field outside its values (decision 5).
fn record_count(count: u16) -> Result<u16, Refusal> {
    if count > RECORDS_MAX {
        return Err(Refusal::UnitValue);
    }
    Ok(count)
}
