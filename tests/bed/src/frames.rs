//! Frames with a note of where each field lies, and hexadecimal lines of them.

use crate::model::{AlignedModel, BlockModel, RecordModel, UnalignedModel, UnitModel};
use crate::rng::Rng;
use oracle::kind;
use oracle::limits::{REFERENCE_LINE_MAX, SUBSEQUENCES};
use oracle::{Class, UnitNumbers};

/// Lines of a unit file before its first record line: the unit line and the pair lines.
pub const HEAD_LINES: usize = 1 + SUBSEQUENCES;
/// Where the record count lies in a unit frame, and the symbol count in a pair frame.
pub const RECORD_COUNT_AT: usize = 18;
pub const SYMBOL_COUNT_AT: usize = 2;
/// Where the record number and the indexes lie in an 04 frame.
pub const LISTED_NUMBER_AT: usize = 1;
pub const LISTED_INDEXES_AT: usize = 3;

/// The u16 at this place of a frame.
pub fn u16_at(bytes: &[u8], at: usize) -> Option<u16> {
    let field = bytes.get(at..at + 2)?;
    Some(u16::from_be_bytes([field[0], field[1]]))
}

/// Writes a u16 where the frame is long enough for it.
pub fn set_u16(bytes: &mut [u8], at: usize, value: u16) {
    if let Some(field) = bytes.get_mut(at..at + 2) {
        field.copy_from_slice(&value.to_be_bytes());
    }
}

#[derive(Clone, Copy, Debug, PartialEq, Eq)]
pub enum Field {
    Kind,
    Class,
    Alphabet,
    TemplateSegments,
    SequenceId,
    First,
    AuStart,
    AuEnd,
    RecordCount,
    Subsequence,
    SymbolCount,
    PairSymbol,
    Pos,
    ReadLength,
    Rcomp,
    PieceCount,
    PieceLength,
    SoftClip,
    HardClip,
    SoftBase,
    EditCount,
    Offset,
    EditType,
    EditSymbol,
    Base,
    ReferenceBase,
}

#[derive(Clone, Copy, Debug)]
pub struct Place {
    pub field: Field,
    pub at: usize,
    pub width: usize,
}

#[derive(Clone, Debug, Default)]
pub struct Frame {
    pub bytes: Vec<u8>,
    pub places: Vec<Place>,
}

impl Frame {
    fn new(kind: u8) -> Frame {
        let mut frame = Frame::default();
        frame.put(Field::Kind, 1, u64::from(kind));
        frame
    }

    fn put(&mut self, field: Field, width: usize, value: u64) {
        self.places.push(Place { field, at: self.bytes.len(), width });
        self.bytes.extend_from_slice(&value.to_be_bytes()[8 - width..]);
    }

    fn put_all(&mut self, field: Field, bytes: &[u8]) {
        for byte in bytes {
            self.put(field, 1, u64::from(*byte));
        }
    }

    pub fn get(&self, place: Place) -> u64 {
        self.bytes[place.at..place.at + place.width].iter().fold(0, |value, byte| value << 8 | u64::from(*byte))
    }

    /// Writes the low bytes of the value into the field.
    pub fn set(&mut self, place: Place, value: u64) {
        self.bytes[place.at..place.at + place.width].copy_from_slice(&value.to_be_bytes()[8 - place.width..]);
    }

    pub fn line(&self) -> Vec<u8> {
        line(&self.bytes)
    }
}

/// A hexadecimal line with its 0A.
pub fn line(bytes: &[u8]) -> Vec<u8> {
    let mut line = Vec::with_capacity(2 * bytes.len() + 1);
    for byte in bytes {
        for digit in [byte >> 4, byte & 15] {
            line.push(char::from_digit(u32::from(digit), 16).map_or(b'?', |digit| digit as u8));
        }
    }
    line.push(b'\n');
    line
}

/// The lines of a unit file: unit, pairs, records.
pub fn unit_frames(model: &UnitModel) -> Vec<Frame> {
    let mut frames = vec![unit_frame(&model.unit)];
    for (number, symbols) in model.symbols.iter().enumerate() {
        frames.push(pair_frame(number as u8, symbols));
    }
    frames.extend(model.records.iter().map(|record| record_frame(model.class(), record)));
    frames
}

pub fn unit_frame(unit: &UnitNumbers) -> Frame {
    let mut frame = Frame::new(kind::UNIT);
    frame.put(Field::Class, 1, u64::from(unit.class));
    frame.put(Field::Alphabet, 1, u64::from(unit.alphabet));
    frame.put(Field::TemplateSegments, 1, u64::from(unit.template_segments));
    frame.put(Field::SequenceId, 2, u64::from(unit.sequence_id));
    frame.put(Field::First, 4, u64::from(unit.first));
    frame.put(Field::AuStart, 4, u64::from(unit.au_start));
    frame.put(Field::AuEnd, 4, u64::from(unit.au_end));
    frame.put(Field::RecordCount, 2, u64::from(unit.record_count));
    frame
}

pub fn pair_frame(subsequence: u8, symbols: &[u32]) -> Frame {
    let mut frame = Frame::new(kind::PAIR);
    frame.put(Field::Subsequence, 1, u64::from(subsequence));
    frame.put(Field::SymbolCount, 2, symbols.len() as u64);
    for symbol in symbols {
        frame.put(Field::PairSymbol, 4, u64::from(*symbol));
    }
    frame
}

pub fn record_frame(class: Class, record: &RecordModel) -> Frame {
    let mut frame = Frame::new(kind::RECORD);
    frame.put(Field::Pos, 4, u64::from(record.pos));
    for block in &record.blocks {
        put_block(&mut frame, class, block);
    }
    frame
}

/// A block without the kind and pos that stand before it in a record.
pub fn block_frame(class: Class, block: &BlockModel) -> Frame {
    let mut frame = Frame::default();
    put_block(&mut frame, class, block);
    frame
}

fn put_block(frame: &mut Frame, class: Class, block: &BlockModel) {
    match block {
        BlockModel::Aligned(block) => put_aligned(frame, class, block),
        BlockModel::Unaligned(block) => put_unaligned(frame, block),
    }
}

fn put_unaligned(frame: &mut Frame, block: &UnalignedModel) {
    frame.put(Field::ReadLength, 2, u64::from(block.length));
    frame.put_all(Field::Base, &block.bases);
}

fn put_aligned(frame: &mut Frame, class: Class, block: &AlignedModel) {
    frame.put(Field::ReadLength, 2, u64::from(block.length));
    frame.put(Field::Rcomp, 1, u64::from(block.rcomp));
    if class.has_splices() {
        frame.put(Field::PieceCount, 1, u64::from(block.piece_count));
        for length in &block.pieces {
            frame.put(Field::PieceLength, 2, u64::from(*length));
        }
    }
    if class.has_clips() {
        for (number, clip) in block.clips.iter().enumerate() {
            let field = if number % 2 == 0 { Field::SoftClip } else { Field::HardClip };
            frame.put(field, 2, u64::from(*clip));
        }
        frame.put_all(Field::SoftBase, &block.soft);
    }
    if class.has_edits() {
        frame.put(Field::EditCount, 2, u64::from(block.edit_count));
        for edit in &block.edits {
            frame.put(Field::Offset, 2, u64::from(edit.offset));
            if class.has_clips() {
                frame.put(Field::EditType, 1, u64::from(edit.kind));
            }
            if class != Class::N {
                frame.put(Field::EditSymbol, 1, u64::from(edit.symbol));
            }
        }
    }
}

/// The reference in lines of any length that is allowed.
pub fn reference_frames(rng: &mut Rng, reference: &[u8]) -> Vec<Frame> {
    let mut frames = Vec::new();
    let mut rest = reference;
    while !rest.is_empty() {
        let length = if rng.percent(70) { REFERENCE_LINE_MAX } else { 1 + rng.index(REFERENCE_LINE_MAX) };
        let (indexes, behind) = rest.split_at(length.min(rest.len()));
        let mut frame = Frame::new(kind::REFERENCE);
        frame.put_all(Field::ReferenceBase, indexes);
        frames.push(frame);
        rest = behind;
    }
    frames
}
