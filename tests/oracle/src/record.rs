//! One record: the call with everything lent, the decoding of its frame, and its 04 line.

use crate::frame::Frame;
use crate::hex::{read_line, write_line};
use crate::kind;
use crate::limits::{LISTED_FRAME_LEAST, SUBSEQUENCES};
use crate::pairing::{link, symbol_count_fits, Link, Mate, State, Symbols, Taker};
use crate::reference::{reference_fits, Reference};
use crate::refusal::Refusal;
use crate::segment::{take_aligned, take_unaligned, Segment};
use crate::unit::{Class, Unit, UnitNumbers};

/// A decoded record, owned.
#[derive(Clone, Debug)]
pub(crate) struct Record {
    number: u16,
    link: Link,
    mate_sequence_id: u16,
    mate_position: u32,
    segments: Vec<Segment>,
    /// The state after this record.
    pub(crate) after: State,
}

/// The record call in document 01's Order. `room` is the length of the lent output. The answer is the 04 line
/// with its 0A and the state after it, or the refusal; nothing that was lent is written to.
pub fn record(
    numbers: &UnitNumbers,
    reference: &[u8],
    symbols: &[Vec<u32>],
    counts: &[u16],
    state: &[u16],
    line: &[u8],
    room: usize,
) -> Result<(Vec<u8>, State), Refusal> {
    let unit = Unit::from_numbers(numbers)?;
    reference_fits(reference.len())?;
    let (symbols, counts) = lent_symbols(symbols, counts)?;
    let state = lent_state(&unit, &counts, state)?;
    let frame = read_line(line)?;
    let reference = Reference::new(unit.first, reference);
    let record = decode(&unit, reference, symbols, &counts, &state, &frame)?;
    let mut out = Vec::new();
    print(&record, &mut out);
    if room < out.len() {
        return Err(Refusal::Room);
    }
    Ok((out, record.after))
}

/// Eight counts in their limit and eight lists, each as long as its count; another shape has the same number
/// and the same place in the Order (decision 10).
fn lent_symbols<'a>(symbols: &'a [Vec<u32>], counts: &[u16]) -> Result<(&'a Symbols, [u16; SUBSEQUENCES]), Refusal> {
    let symbols: &Symbols = symbols.try_into().map_err(|_| Refusal::SymbolCount)?;
    let counts: [u16; SUBSEQUENCES] = counts.try_into().map_err(|_| Refusal::SymbolCount)?;
    for (list, &count) in symbols.iter().zip(&counts) {
        symbol_count_fits(count)?;
        if list.len() != usize::from(count) {
            return Err(Refusal::SymbolCount);
        }
    }
    Ok((symbols, counts))
}

/// The record number and eight indexes; the number below the record count, no index above its count.
fn lent_state(unit: &Unit, counts: &[u16; SUBSEQUENCES], lent: &[u16]) -> Result<State, Refusal> {
    let (&number, indexes) = lent.split_first().ok_or(Refusal::Lines)?;
    let indexes = indexes.try_into().map_err(|_| Refusal::Lines)?;
    let state = State { number, indexes };
    if !state_stands(unit, counts, &state) {
        return Err(Refusal::Lines);
    }
    Ok(state)
}

/// Shared with resuming, where the same is asked of an 04 line's own number and indexes.
pub(crate) fn state_stands(unit: &Unit, counts: &[u16; SUBSEQUENCES], state: &State) -> bool {
    state.number < unit.record_count && state.indexes.iter().zip(counts).all(|(index, count)| index <= count)
}

/// Kind, pair symbols, pos, blocks, left-over bytes (document 01, Order). The pair symbols come before pos
/// is read (decision 7); those of a block's splices in the midst of that block.
pub(crate) fn decode(
    unit: &Unit,
    reference: Reference,
    symbols: &Symbols,
    counts: &[u16; SUBSEQUENCES],
    state: &State,
    bytes: &[u8],
) -> Result<Record, Refusal> {
    let mut frame = Frame::new(bytes);
    frame.kind(kind::RECORD)?;
    let mut taker = Taker::new(symbols, counts, state);
    let link = link(unit, &mut taker)?;
    let pos = frame.u32()?;
    if unit.class == Class::U && pos != 0 {
        return Err(Refusal::Position);
    }
    let segments = segments(unit, reference, &link, pos, &mut taker, &mut frame)?;
    frame.end()?;
    let after = State { number: state.number + 1, indexes: taker.state.indexes };
    let (mate_sequence_id, mate_position) = mate(unit, &link, pos);
    Ok(Record { number: state.number, link, mate_sequence_id, mate_position, segments, after })
}

/// Each block is finished, 13 and 10 included, before the next one is read (decision 9).
fn segments(
    unit: &Unit,
    reference: Reference,
    link: &Link,
    pos: u32,
    taker: &mut Taker,
    frame: &mut Frame,
) -> Result<Vec<Segment>, Refusal> {
    let mut segments = Vec::with_capacity(usize::from(link.segments));
    for number in 0..link.segments {
        let aligned = match unit.class {
            Class::U => false,
            Class::HM => number == 0,
            _ => true,
        };
        segments.push(if aligned {
            take_aligned(unit, reference, position(link, pos, number), taker, frame)?
        } else {
            take_unaligned(unit.alphabet, frame)?
        });
    }
    Ok(segments)
}

/// The sum is never wrapped: past the last u32 it lies outside every unit (decision 8).
fn position(link: &Link, pos: u32, number: u8) -> i64 {
    match link.mate {
        Mate::Behind { delta } if number == 1 => i64::from(pos) + i64::from(delta),
        _ => i64::from(pos),
    }
}

/// The mate's fields of the 04 line; 0 where there is no aligned mate. A mate in this record has been decoded
/// when this is called, so its position is in the unit and the sum is a u32.
fn mate(unit: &Unit, link: &Link, pos: u32) -> (u16, u32) {
    match link.mate {
        Mate::None => (0, 0),
        Mate::Behind { .. } => (unit.sequence_id, position(link, pos, 1) as u32),
        Mate::Elsewhere { sequence_id, position } => (sequence_id, position),
    }
}

/// Bytes of a listed segment beside its bases and its E-CIGAR: position, rcomp and two lengths.
const SEGMENT_FIELDS: usize = 4 + 1 + 2 + 2;

/// Adds the record's 04 line with its 0A.
pub(crate) fn print(record: &Record, out: &mut Vec<u8>) {
    let lengths: usize =
        record.segments.iter().map(|segment| segment.bases.len() + segment.ecigar.len() + SEGMENT_FIELDS).sum();
    let mut bytes = Vec::with_capacity(LISTED_FRAME_LEAST + lengths);
    bytes.push(kind::LISTED);
    bytes.extend(record.number.to_be_bytes());
    for index in record.after.indexes {
        bytes.extend(index.to_be_bytes());
    }
    bytes.extend([record.link.read1_first, record.link.split_mate, record.link.segments]);
    bytes.extend(record.mate_sequence_id.to_be_bytes());
    bytes.extend(record.mate_position.to_be_bytes());
    for segment in &record.segments {
        add_segment(&mut bytes, segment);
    }
    write_line(out, &bytes);
}

fn add_segment(bytes: &mut Vec<u8>, segment: &Segment) {
    bytes.extend(segment.position.to_be_bytes());
    bytes.push(segment.rcomp);
    bytes.extend((segment.bases.len() as u16).to_be_bytes());
    bytes.extend_from_slice(&segment.bases);
    bytes.extend((segment.ecigar.len() as u16).to_be_bytes());
    bytes.extend_from_slice(&segment.ecigar);
}
