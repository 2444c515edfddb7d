//! One block of a record frame: its fields, its bases, its E-CIGAR (Tables 92 to 94, 10.6.1).

use crate::alphabet::{Alphabet, UNKNOWN};
use crate::deletions::stand_between_bases;
use crate::frame::Frame;
use crate::limits::{ECIGAR_MAX, EDITS_MAX, RCOMP_MAX, READ_LENGTH_MAX, SPLICED_RCOMP_MAX};
use crate::pairing::Taker;
use crate::reference::Reference;
use crate::refusal::Refusal;
use crate::splices::{clip, one_piece, pieces, Fault, Piece};
use crate::unit::{Class, Unit};

/// A segment as it is listed.
#[derive(Clone, Debug, PartialEq, Eq)]
pub struct Segment {
    pub position: u32,
    pub rcomp: u8,
    /// Letters, on the forward strand; their number is the read length.
    pub bases: Vec<u8>,
    /// Empty for an unaligned segment.
    pub ecigar: Vec<u8>,
}

#[derive(Clone, Copy, Debug, PartialEq, Eq)]
pub(crate) enum EditKind {
    Substitution,
    Insertion,
    Deletion,
}

#[derive(Clone, Copy, Debug)]
pub(crate) struct Edit {
    /// Read bases from the first mapped base.
    pub(crate) offset: usize,
    pub(crate) kind: EditKind,
    /// The base that stands in the read; of no meaning for a deletion.
    letter: u8,
}

/// Clips of the two sides. A side has soft bases (letters) and a number of hard ones.
#[derive(Default)]
struct Clips {
    left_soft: Vec<u8>,
    left_hard: u16,
    right_soft: Vec<u8>,
    right_hard: u16,
}

/// An aligned block, all of its own fields in their values.
struct Block {
    rcomp: u8,
    pieces: Vec<Piece>,
    clips: Clips,
    edits: Vec<Edit>,
}

/// A piece with the edits that belong to it.
struct Edited<'a> {
    piece: Piece,
    /// The offset of its first mapped base in the whole read.
    start: usize,
    edits: &'a [Edit],
}

/// What stands between the clips, as the E-CIGAR counts it.
enum Run {
    Match(usize),
    Substitution(u8),
    /// The edits of one run of insertions, from and to.
    Insertion(usize, usize),
    Deletion(usize),
}

/// Decodes the aligned block that begins at `offset` of a frame, for a segment at `position` (which may lie
/// above every u32, decision 8). Its splices take symbols. Gives the segment and where the next block begins.
pub fn aligned_segment(
    unit: &Unit,
    reference: Reference,
    position: i64,
    taker: &mut Taker,
    frame: &[u8],
    offset: usize,
) -> Result<(Segment, usize), Refusal> {
    let mut frame = Frame::from_offset(frame, offset);
    let segment = take_aligned(unit, reference, position, taker, &mut frame)?;
    Ok((segment, frame.at()))
}

/// The same for an unaligned block: only the alphabet matters.
pub fn unaligned_segment(alphabet: Alphabet, frame: &[u8], offset: usize) -> Result<(Segment, usize), Refusal> {
    let mut frame = Frame::from_offset(frame, offset);
    let segment = take_unaligned(alphabet, &mut frame)?;
    Ok((segment, frame.at()))
}

/// Where deletions stand (12), once the last edit is read; then the pieces one after the other, each with 13, then 10
/// (decision 78); the clips around them.
pub(crate) fn take_aligned(
    unit: &Unit,
    reference: Reference,
    position: i64,
    taker: &mut Taker,
    frame: &mut Frame,
) -> Result<Segment, Refusal> {
    let block = read_block(unit, position, taker, frame)?;
    block.check_deletions()?;
    let clips = &block.clips;
    let mut bases = Vec::with_capacity(block.read_length());
    let mut ecigar = Vec::with_capacity(block.text_room());
    bases.extend_from_slice(&clips.left_soft);
    write_clip(&mut ecigar, clips.left_soft.len(), clips.left_hard);
    let mut end_before = None;
    for edited in block.edited() {
        let runs = runs(&edited);
        let start = edited.piece.position;
        let end = start + runs.iter().map(reference_taken).sum::<usize>() as i64;
        check_place(unit, start, end, end_before)?;
        if let Some(end_before) = end_before {
            write_counted(&mut ecigar, (start - end_before) as usize, splice_sign(block.rcomp));
        }
        let added = add_bases(&mut bases, unit.alphabet, reference, &edited, &runs);
        added.map_err(|refusal| if end_before.is_some() { Fault::Reference.into() } else { refusal })?;
        write_runs(&mut ecigar, &runs);
        end_before = Some(end);
    }
    bases.extend_from_slice(&clips.right_soft);
    write_clip(&mut ecigar, clips.right_soft.len(), clips.right_hard);
    debug_assert!(ecigar.len() <= ECIGAR_MAX);
    // The first piece lies in the unit, so this is a u32 again.
    Ok(Segment { position: position as u32, rcomp: block.rcomp, bases, ecigar })
}

/// An unaligned segment has position 0, rcomp 0 and no E-CIGAR.
pub(crate) fn take_unaligned(alphabet: Alphabet, frame: &mut Frame) -> Result<Segment, Refusal> {
    let length = read_length(frame)?;
    let bases = letters(alphabet, frame, length)?;
    Ok(Segment { position: 0, rcomp: 0, bases, ecigar: Vec::new() })
}

// The fields of a block, left to right.

fn read_block(unit: &Unit, position: i64, taker: &mut Taker, frame: &mut Frame) -> Result<Block, Refusal> {
    let length = read_length(frame)?;
    let rcomp = rcomp(unit.class, frame)?;
    let mut pieces =
        if unit.class.has_splices() { pieces(frame, length, position, taker)? } else { one_piece(position, length) };
    let clips = if unit.class.has_clips() { clips(unit.alphabet, frame, &mut pieces)? } else { Clips::default() };
    let mapped_length = mapped_length(&pieces);
    let edits = if unit.class.has_edits() { edits(unit, frame, mapped_length)? } else { Vec::new() };
    Ok(Block { rcomp, pieces, clips, edits })
}

/// Mapped bases of the whole read.
fn mapped_length(pieces: &[Piece]) -> usize {
    pieces.iter().map(|piece| piece.mapped_length).sum()
}

fn rcomp(class: Class, frame: &mut Frame) -> Result<u8, Refusal> {
    let rcomp = frame.u8()?;
    if class.has_splices() && rcomp > SPLICED_RCOMP_MAX {
        return Err(Fault::Rcomp.into());
    }
    if !class.has_splices() && rcomp > RCOMP_MAX {
        return Err(Refusal::BlockValue);
    }
    Ok(rcomp)
}

fn read_length(frame: &mut Frame) -> Result<u16, Refusal> {
    let length = frame.u16()?;
    if length == 0 || length > READ_LENGTH_MAX {
        return Err(Refusal::ReadLength);
    }
    Ok(length)
}

/// Each index is a field, so a bad one is refused before a missing later one is noticed.
fn letters(alphabet: Alphabet, frame: &mut Frame, count: u16) -> Result<Vec<u8>, Refusal> {
    let mut letters = Vec::with_capacity(usize::from(count));
    for _ in 0..count {
        letters.push(alphabet.letter(frame.u8()?)?);
    }
    Ok(letters)
}

/// The four numbers are looked at once all of them are read (document 01, Order): each piece has a mapped base.
fn clips(alphabet: Alphabet, frame: &mut Frame, pieces: &mut [Piece]) -> Result<Clips, Refusal> {
    let left_soft = frame.u16()?;
    let left_hard = frame.u16()?;
    let right_soft = frame.u16()?;
    let right_hard = frame.u16()?;
    clip(pieces, left_soft, right_soft)?;
    let left_soft = letters(alphabet, frame, left_soft)?;
    let right_soft = letters(alphabet, frame, right_soft)?;
    Ok(Clips { left_soft, left_hard, right_soft, right_hard })
}

fn edits(unit: &Unit, frame: &mut Frame, mapped_length: usize) -> Result<Vec<Edit>, Refusal> {
    let count = frame.u16()?;
    if count > EDITS_MAX {
        return Err(Refusal::BlockValue);
    }
    let mut edits = Vec::with_capacity(usize::from(count));
    let mut least = 0;
    for _ in 0..count {
        let edit = read_edit(unit, frame)?;
        least = next_offset(edit, least, mapped_length)?;
        edits.push(edit);
    }
    Ok(edits)
}

/// All bytes of an edit are read before any is looked at; then type, then symbol (document 01, Order).
fn read_edit(unit: &Unit, frame: &mut Frame) -> Result<Edit, Refusal> {
    match unit.class {
        Class::N => {
            let offset = usize::from(frame.u16()?);
            Ok(Edit { offset, kind: EditKind::Substitution, letter: UNKNOWN })
        }
        Class::M => {
            let bytes = frame.bytes(3)?;
            let letter = unit.alphabet.letter(bytes[2])?;
            Ok(Edit { offset: offset(bytes), kind: EditKind::Substitution, letter })
        }
        _ => {
            let bytes = frame.bytes(4)?;
            let (kind, letter) = match (bytes[2], bytes[3]) {
                (0, symbol) => (EditKind::Substitution, unit.alphabet.letter(symbol)?),
                (1, symbol) => (EditKind::Insertion, unit.alphabet.letter(symbol)?),
                (2, 0) => (EditKind::Deletion, UNKNOWN),
                _ => return Err(Refusal::BlockValue),
            };
            Ok(Edit { offset: offset(bytes), kind, letter })
        }
    }
}

fn offset(edit: &[u8]) -> usize {
    usize::from(u16::from_be_bytes([edit[0], edit[1]]))
}

/// The offset comes last in an edit. Gives the least offset of the next one: a deletion takes no read base,
/// so another edit may stand at its offset, and one behind the last base is refused only once all edits are read.
fn next_offset(edit: Edit, least: usize, mapped_length: usize) -> Result<usize, Refusal> {
    let (past, next) = match edit.kind {
        EditKind::Deletion => (mapped_length + 1, edit.offset),
        _ => (mapped_length, edit.offset + 1),
    };
    if edit.offset < least || edit.offset >= past {
        return Err(Refusal::Offset);
    }
    Ok(next)
}

// From edits to runs, from runs to positions, bases and text.

impl Block {
    fn read_length(&self) -> usize {
        self.pieces.iter().map(|piece| usize::from(piece.length)).sum()
    }

    /// Told once of the whole read, however many deletions are at its ends (document 02, Wish 2).
    fn check_deletions(&self) -> Result<(), Refusal> {
        let spliced = self.pieces.len() > 1;
        let stand = stand_between_bases(&self.edits, mapped_length(&self.pieces));
        stand.map_err(|bare| Refusal::Deletion { bare, spliced })
    }

    /// Room set aside for the text: four characters an edit, ten a piece, and two clips of which the longest is a hard
    /// clip of five digits.
    fn text_room(&self) -> usize {
        4 * self.edits.len() + 10 * self.pieces.len() + 2 * "[65535]".len()
    }

    /// The pieces with their own edits. Offsets count through all pieces; a piece's edits are those at its bases, and
    /// behind the last piece no other begins (decision 76).
    fn edited(&self) -> impl Iterator<Item = Edited<'_>> {
        let mut end = 0;
        let mut rest = &self.edits[..];
        self.pieces.iter().enumerate().map(move |(number, piece)| {
            let start = end;
            end += piece.mapped_length;
            let last = number + 1 == self.pieces.len();
            let (edits, behind) = rest.split_at(if last { rest.len() } else { edits_before(rest, end) });
            rest = behind;
            Edited { piece: *piece, start, edits }
        })
    }
}

/// How many edits belong to a piece that ends at this offset and is not the last: a deletion at the end itself belongs to
/// the piece that begins there.
fn edits_before(edits: &[Edit], end: usize) -> usize {
    edits.iter().take_while(|edit| edit.offset < end).count()
}

/// Neighbouring insertions, and neighbouring deletions, become one run: they are neighbours exactly when no
/// match and no other edit lies between them, which is what document 01 says by offsets. No run goes over a splice.
fn runs(edited: &Edited) -> Vec<Run> {
    let mut runs = Vec::with_capacity(2 * edited.edits.len() + 1);
    let mut read_place = edited.start;
    for (number, edit) in edited.edits.iter().enumerate() {
        if edit.offset > read_place {
            runs.push(Run::Match(edit.offset - read_place));
            read_place = edit.offset;
        }
        match (edit.kind, runs.last_mut()) {
            (EditKind::Insertion, Some(Run::Insertion(_, to))) => *to = number + 1,
            (EditKind::Insertion, _) => runs.push(Run::Insertion(number, number + 1)),
            (EditKind::Deletion, Some(Run::Deletion(count))) => *count += 1,
            (EditKind::Deletion, _) => runs.push(Run::Deletion(1)),
            (EditKind::Substitution, _) => runs.push(Run::Substitution(edit.letter)),
        }
        if edit.kind != EditKind::Deletion {
            read_place += 1;
        }
    }
    let end = edited.start + edited.piece.mapped_length;
    if read_place < end {
        runs.push(Run::Match(end - read_place));
    }
    runs
}

/// How far a run moves pointer R: an insertion not at all.
fn reference_taken(run: &Run) -> usize {
    match run {
        Run::Match(count) | Run::Deletion(count) => *count,
        Run::Substitution(_) => 1,
        Run::Insertion(..) => 0,
    }
}

/// A piece lies in the unit, whole, and behind the one before it, which ended at `end_before` (13).
fn check_place(unit: &Unit, start: i64, end: i64, end_before: Option<i64>) -> Result<(), Refusal> {
    let au_start = i64::from(unit.au_start);
    let Some(end_before) = end_before else {
        let inside = au_start <= start && start < unit.au_past() && end <= unit.au_past();
        return if inside { Ok(()) } else { Err(Refusal::Position) };
    };
    let fault = match start - end_before {
        _ if start < 0 => Fault::BelowZero,
        _ if start > i64::from(u32::MAX) => Fault::PastAll,
        _ if start < au_start => Fault::BeforeUnit,
        _ if start >= unit.au_past() => Fault::BehindUnit,
        _ if end > unit.au_past() => Fault::EndsBehindUnit,
        0 => Fault::NoSplice,
        count if count < 0 => Fault::NegativeSplice,
        _ => return Ok(()),
    };
    Err(fault.into())
}

fn add_bases(
    bases: &mut Vec<u8>,
    alphabet: Alphabet,
    reference: Reference,
    edited: &Edited,
    runs: &[Run],
) -> Result<(), Refusal> {
    // The piece lies in the unit.
    let mut reference_place = edited.piece.position as u64;
    for run in runs {
        match run {
            Run::Match(count) => reference.add_matches(bases, alphabet, reference_place, *count)?,
            Run::Substitution(letter) => bases.push(*letter),
            Run::Insertion(from, to) => bases.extend(edited.edits[*from..*to].iter().map(|edit| edit.letter)),
            Run::Deletion(_) => {}
        }
        reference_place += reference_taken(run) as u64;
    }
    Ok(())
}

fn write_runs(text: &mut Vec<u8>, runs: &[Run]) {
    for run in runs {
        match run {
            Run::Match(count) => write_counted(text, *count, b'='),
            Run::Substitution(letter) => text.push(*letter),
            Run::Insertion(from, to) => write_counted(text, to - from, b'+'),
            Run::Deletion(count) => write_counted(text, *count, b'-'),
        }
    }
}

/// Table 94: a forward, a reverse and an undirected splice.
fn splice_sign(rcomp: u8) -> u8 {
    match rcomp {
        0 => b'/',
        1 => b'%',
        _ => b'*',
    }
}

/// On a side with soft clips a hard clip is not written (Table 92).
fn write_clip(text: &mut Vec<u8>, soft: usize, hard: u16) {
    if soft > 0 {
        text.push(b'(');
        write_counted(text, soft, b')');
    } else if hard > 0 {
        text.push(b'[');
        write_counted(text, usize::from(hard), b']');
    }
}

fn write_counted(text: &mut Vec<u8>, count: usize, operation: u8) {
    write_count(text, count);
    text.push(operation);
}

fn write_count(text: &mut Vec<u8>, count: usize) {
    if count >= 10 {
        write_count(text, count / 10);
    }
    text.push(b'0' + (count % 10) as u8);
}
