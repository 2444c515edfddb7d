//! Damage to frames: fields at and past their limits, cuts, bytes too many or too few.

use crate::frames::{Field, Frame, Place};
use crate::rng::Rng;
use oracle::kind;
use oracle::limits::*;
use oracle::UnitNumbers;

/// Damages one frame: a field at or past its limits, a cut, bytes too many or too few.
pub fn damage_frame(rng: &mut Rng, unit: &UnitNumbers, frame: &mut Frame) {
    match rng.below(10) {
        0 | 4 => cut_frame(rng, frame),
        1 => lengthen_frame(rng, frame),
        2 if !frame.bytes.is_empty() => {
            frame.bytes.remove(rng.index(frame.bytes.len()));
            frame.places.clear();
        }
        3 => {
            let at = rng.index(frame.bytes.len() + 1);
            frame.bytes.insert(at, *rng.pick(&[0, 1, 2, u8::MAX]));
            frame.places.clear();
        }
        _ => change_field(rng, unit, frame),
    }
}

/// Cuts a frame anywhere, near its end, or about a field: before, inside or behind it.
pub fn cut_frame(rng: &mut Rng, frame: &mut Frame) {
    if frame.bytes.is_empty() {
        return;
    }
    let at = match (rng.below(10), some_place(rng, frame)) {
        (0..=1, _) => rng.index(frame.bytes.len()),
        (2..=3, _) | (_, None) => frame.bytes.len().saturating_sub(rng.between(1, 3) as usize),
        (_, Some(place)) => place.at + rng.index(place.width + 1),
    };
    frame.bytes.truncate(at);
    frame.places.retain(|place| place.at + place.width <= at);
}

fn lengthen_frame(rng: &mut Rng, frame: &mut Frame) {
    for _ in 0..rng.between(1, 4) {
        frame.bytes.push(rng.below(3) as u8);
    }
}

fn change_field(rng: &mut Rng, unit: &UnitNumbers, frame: &mut Frame) {
    let Some(place) = some_place(rng, frame) else { return };
    let old = frame.get(place);
    let value = *rng.pick(&edges(place.field, unit, old));
    frame.set(place, value);
}

/// The kind of field is chosen first, so that a count is hit as often as one of a thousand bases.
fn some_place(rng: &mut Rng, frame: &Frame) -> Option<Place> {
    let mut fields: Vec<Field> = Vec::new();
    for place in &frame.places {
        if !fields.contains(&place.field) {
            fields.push(place.field);
        }
    }
    if fields.is_empty() {
        return None;
    }
    let field = *rng.pick(&fields);
    let places: Vec<Place> = frame.places.iter().copied().filter(|place| place.field == field).collect();
    Some(*rng.pick(&places))
}

/// Values at and past the limits of a field, and those beside the old one.
fn edges(field: Field, unit: &UnitNumbers, old: u64) -> Vec<u64> {
    let (start, end) = (u64::from(unit.au_start), u64::from(unit.au_end));
    let (length, edits) = (u64::from(READ_LENGTH_MAX), u64::from(EDITS_MAX));
    let byte = u64::from(u8::MAX);
    let two = u64::from(u16::MAX);
    let four = u64::from(u32::MAX);
    let mut values = match field {
        Field::Kind => vec![0, 1, 2, 3, 4, 5, 6, 7, 8, byte],
        Field::Class => vec![0, 1, 2, 3, 4, 5, 6, 7, byte],
        Field::Alphabet => vec![0, 1, 2, byte],
        Field::TemplateSegments => vec![0, 1, 2, 3, byte],
        Field::SequenceId | Field::HardClip => vec![0, 1, two],
        Field::First => vec![0, start, end, four],
        Field::AuStart | Field::AuEnd | Field::Pos => vec![0, start.wrapping_sub(1), start, end, end + 1, four],
        Field::RecordCount => vec![0, u64::from(RECORDS_MAX), u64::from(RECORDS_MAX) + 1, two],
        Field::Subsequence => vec![0, 7, 8, byte],
        Field::SymbolCount => vec![0, u64::from(SYMBOLS_MAX), u64::from(SYMBOLS_MAX) + 1, two],
        Field::PairSymbol => vec![0, 1, 2, 3, 4, 5, 6, 7, two, two + 1, 2 * (two + 1), four],
        Field::ReadLength => vec![0, 1, length, length + 1, two],
        Field::Rcomp => vec![0, 1, 2, byte],
        Field::PieceCount => vec![0, 1, 2, u64::from(PIECES_MAX), u64::from(PIECES_MAX) + 1, byte],
        Field::PieceLength => vec![0, 1, length, two],
        Field::SoftClip => vec![0, 1, length - 1, length, two],
        Field::EditCount => vec![0, 1, edits, edits + 1, two],
        Field::Offset => vec![0, 1, length - 1, length, length + 1, two],
        Field::EditType => vec![0, 1, 2, 3, byte],
        Field::SoftBase | Field::EditSymbol | Field::Base | Field::ReferenceBase => vec![0, 3, 4, 5, 14, 15, 16, byte],
    };
    values.extend([old.wrapping_sub(1), old.wrapping_add(1)]);
    values
}

/// Damages the reference's frames: line and total counts at and past their limits, a wrong kind, a lone kind.
pub fn damage_reference(rng: &mut Rng, unit: &UnitNumbers, frames: &mut Vec<Frame>) {
    let long = |count: usize| Frame { bytes: [vec![kind::REFERENCE], vec![0; count]].concat(), places: Vec::new() };
    match rng.below(8) {
        0 => frames.push(long(REFERENCE_LINE_MAX)),
        1 => frames.push(long(REFERENCE_LINE_MAX + 1)),
        2 => frames.insert(rng.index(frames.len() + 1), long(0)),
        3 => {
            let mut missing = REFERENCE_MAX + rng.index(2)
                - frames.iter().map(|frame| frame.bytes.len() - 1).sum::<usize>().min(REFERENCE_MAX);
            while missing > 0 {
                let count = missing.min(REFERENCE_LINE_MAX);
                frames.push(long(count));
                missing -= count;
            }
        }
        _ if frames.is_empty() => frames.push(long(0)),
        _ => {
            let at = rng.index(frames.len());
            damage_frame(rng, unit, &mut frames[at]);
        }
    }
}
