//! Damage to the splices of a record: the numbers and lengths of its pieces, its clips, the symbols that place it.

use super::record::{bad_index, damage_by, OnRecord};
use crate::model::*;
use crate::rng::Rng;
use crate::valid::DELTA_MAX;
use oracle::limits::PIECES_MAX;

/// To any block of a class that may have splices.
pub const ON_PIECES: [OnRecord; 6] =
    [no_piece, too_many_pieces, empty_piece, lengths_of_less, lengths_of_more, rcomp_without_sign];

/// To a block of several pieces, each with how often it is wanted beside the others.
const ON_SPLICES: [(u64, OnRecord); 16] = [
    (2, left_clip_reaches_the_first),
    (3, right_clip_reaches_the_last),
    (7, symbols_used_up),
    (13, reserved_code),
    (1, the_other_code),
    (2, distance_too_large),
    (7, piece_below_zero),
    (5, piece_past_all),
    (6, piece_before_the_unit),
    (4, piece_behind_the_unit),
    (12, piece_ends_outside),
    (5, no_splice),
    (3, negative_splice),
    (12, bad_reference_under_a_piece),
    (2, misplaced_behind_a_bad_reference),
    (1, clips_and_pieces),
];

pub fn damage_splices(rng: &mut Rng, model: &mut UnitModel, record: usize) -> bool {
    damage_by(rng, &ON_SPLICES, model, record)
}

pub fn has_splices(model: &UnitModel, record: usize) -> bool {
    let spliced = |block: &BlockModel| matches!(block, BlockModel::Aligned(block) if block.is_spliced());
    model.records[record].blocks.iter().any(spliced)
}

/// A block of the record with its splices, and where its first piece lies.
struct Spliced {
    block: usize,
    position: i64,
}

/// Some aligned block of the record, of two pieces at least.
fn some_spliced(rng: &mut Rng, model: &mut UnitModel, record: usize) -> Option<Spliced> {
    let spliced = |block: &BlockModel| matches!(block, BlockModel::Aligned(block) if block.is_spliced());
    let blocks = &model.records[record].blocks;
    let numbers: Vec<usize> = (0..blocks.len()).filter(|number| spliced(&blocks[*number])).collect();
    if numbers.is_empty() {
        return None;
    }
    let block = *rng.pick(&numbers);
    let mut position = i64::from(model.records[record].pos);
    if block > 0 {
        let value = usize::from(model.records[record].before[1]);
        position += i64::from(model.symbols[1].get(value).copied().unwrap_or(0) / 2);
    }
    Some(Spliced { block, position })
}

fn block_of(model: &mut UnitModel, record: usize, number: usize) -> Option<&mut AlignedModel> {
    match model.records[record].blocks.get_mut(number)? {
        BlockModel::Aligned(block) => Some(block),
        BlockModel::Unaligned(_) => None,
    }
}

/// Some aligned block, spliced or not.
fn some_block<'a>(rng: &mut Rng, model: &'a mut UnitModel, record: usize) -> Option<&'a mut AlignedModel> {
    let aligned = |block: &BlockModel| matches!(block, BlockModel::Aligned(_));
    let count = model.records[record].blocks.iter().filter(|block| aligned(block)).count();
    if count == 0 {
        return None;
    }
    block_of(model, record, rng.index(count))
}

// The number and the lengths. The frame stays whole.

fn no_piece(rng: &mut Rng, model: &mut UnitModel, record: usize) -> bool {
    let Some(block) = some_block(rng, model, record) else { return false };
    block.piece_count = 0;
    block.pieces.clear();
    true
}

/// One more than there may be, which make up the read where it is long enough.
fn too_many_pieces(rng: &mut Rng, model: &mut UnitModel, record: usize) -> bool {
    let Some(block) = some_block(rng, model, record) else { return false };
    let count = *rng.pick(&[PIECES_MAX + 1, PIECES_MAX + 1, PIECES_MAX + 2, u8::MAX]);
    block.piece_count = count;
    block.pieces = vec![1; usize::from(count)];
    block.pieces[0] = block.length.saturating_sub(u16::from(count) - 1).max(1);
    true
}

/// A length of 0; the others make up the read, or they do not.
fn empty_piece(rng: &mut Rng, model: &mut UnitModel, record: usize) -> bool {
    let Some(block) = some_block(rng, model, record) else { return false };
    if block.pieces.is_empty() {
        return false;
    }
    let at = rng.index(block.pieces.len());
    if rng.percent(50) && block.pieces.len() < usize::from(PIECES_MAX) {
        block.pieces.insert(at, 0);
        block.piece_count = block.pieces.len() as u8;
        return true;
    }
    let length = std::mem::replace(&mut block.pieces[at], 0);
    if rng.percent(50) && at > 0 {
        block.pieces[at - 1] += length;
    }
    true
}

fn lengths_of_less(rng: &mut Rng, model: &mut UnitModel, record: usize) -> bool {
    let Some(block) = some_block(rng, model, record) else { return false };
    if block.pieces.len() > 1 && rng.percent(30) {
        block.pieces.remove(rng.index(block.pieces.len()));
        block.piece_count = block.pieces.len() as u8;
        return true;
    }
    let Some(piece) = block.pieces.iter_mut().find(|length| **length > 1) else { return false };
    *piece -= if rng.percent(50) { 1 } else { rng.between(1, u64::from(*piece) - 1) as u16 };
    true
}

/// One more, far more, or so many more that as u16 the sum would be the read length again.
fn lengths_of_more(rng: &mut Rng, model: &mut UnitModel, record: usize) -> bool {
    let Some(block) = some_block(rng, model, record) else { return false };
    let half = 1 << 15;
    match (rng.below(4), &mut block.pieces[..]) {
        (0, [first, .., last]) if *first < half && *last < half => {
            *first += half;
            *last += half;
        }
        (1, [.., last]) => *last = u16::MAX,
        (2, pieces) if pieces.len() < usize::from(PIECES_MAX) => {
            let length = rng.between(1, 3) as u16;
            block.pieces.push(length);
            block.piece_count = block.pieces.len() as u8;
        }
        (_, [.., last]) => *last = last.saturating_add(1),
        _ => return false,
    }
    true
}

fn rcomp_without_sign(rng: &mut Rng, model: &mut UnitModel, record: usize) -> bool {
    let Some(block) = some_block(rng, model, record) else { return false };
    block.rcomp = *rng.pick(&[3, 3, 4, u8::MAX]);
    true
}

// The clips: at the last length that fits, at the first that does not, or above it.

fn left_clip_reaches_the_first(rng: &mut Rng, model: &mut UnitModel, record: usize) -> bool {
    let Some(spliced) = some_spliced(rng, model, record) else { return false };
    let Some(block) = block_of(model, record, spliced.block) else { return false };
    let length = block.pieces[0];
    block.clips[0] = *rng.pick(&[length.saturating_sub(1), length, length, length.saturating_add(1)]);
    block.soft.resize(usize::from(block.clips[0]) + usize::from(block.clips[2]), 0);
    true
}

fn right_clip_reaches_the_last(rng: &mut Rng, model: &mut UnitModel, record: usize) -> bool {
    let Some(spliced) = some_spliced(rng, model, record) else { return false };
    let Some(block) = block_of(model, record, spliced.block) else { return false };
    let length = block.pieces[block.pieces.len() - 1];
    block.clips[2] = *rng.pick(&[length.saturating_sub(1), length, length, length.saturating_add(1)]);
    block.soft.resize(usize::from(block.clips[0]) + usize::from(block.clips[2]), 0);
    true
}

// The symbols.

/// One of the symbols that place the pieces of some block, from one of these subsequences.
fn some_symbol(rng: &mut Rng, model: &mut UnitModel, record: usize, from: &[usize]) -> Option<SymbolPlace> {
    let spliced = some_spliced(rng, model, record)?;
    let block = block_of(model, record, spliced.block)?;
    let wanted: Vec<usize> =
        from.iter().copied().filter(|list| block.splices.iter().any(|place| place.subsequence == *list)).collect();
    if wanted.is_empty() {
        return None;
    }
    let list = *rng.pick(&wanted);
    let places: Vec<SymbolPlace> = block.splices.iter().copied().filter(|place| place.subsequence == list).collect();
    Some(*rng.pick(&places))
}

fn set_symbol(model: &mut UnitModel, place: SymbolPlace, value: u32) -> bool {
    match model.symbols[place.subsequence].get_mut(place.index) {
        Some(symbol) => *symbol = value,
        None => return false,
    }
    true
}

/// A code, a distance or a position is missing, and all behind it.
fn symbols_used_up(rng: &mut Rng, model: &mut UnitModel, record: usize) -> bool {
    let Some(place) = some_symbol(rng, model, record, &[0, 1, 3]) else { return false };
    model.symbols[place.subsequence].truncate(place.index);
    true
}

fn reserved_code(rng: &mut Rng, model: &mut UnitModel, record: usize) -> bool {
    let Some(place) = some_symbol(rng, model, record, &[0]) else { return false };
    // Codes of which the low bytes look good, too.
    let above = *rng.pick(&[7, 8, 0x100, 0x1_0000, 0x0100_0002, u32::MAX]);
    let code = *rng.pick(&[1, 3, 4, 5, 6, above]);
    set_symbol(model, place, code)
}

/// A distance for a position, or the other way round.
fn the_other_code(rng: &mut Rng, model: &mut UnitModel, record: usize) -> bool {
    let Some(place) = some_symbol(rng, model, record, &[0]) else { return false };
    let code = model.symbols[0].get(place.index).copied().unwrap_or(0);
    set_symbol(model, place, code ^ 2)
}

fn distance_too_large(rng: &mut Rng, model: &mut UnitModel, record: usize) -> bool {
    let Some(place) = some_symbol(rng, model, record, &[1]) else { return false };
    let value = *rng.pick(&[0x1_0000, 0x1_0000, 0x1_0001, 0x2_0000, u32::MAX]);
    set_symbol(model, place, value)
}

// The places.

/// A piece behind the first, and what is known of its surroundings in the undamaged read.
struct SomePiece {
    block: usize,
    number: usize,
    /// Where Table 62's distance to it counts from.
    counted_from: i64,
    /// Where the piece before ends.
    end_before: i64,
    start: i64,
    taken: i64,
}

fn some_piece(rng: &mut Rng, model: &mut UnitModel, record: usize) -> Option<SomePiece> {
    let spliced = some_spliced(rng, model, record)?;
    let block = block_of(model, record, spliced.block)?;
    let number = 1 + rng.index(block.pieces.len() - 1);
    let before = spliced.position + *block.starts.get(number - 1)? as i64;
    let start = spliced.position + *block.starts.get(number)? as i64;
    let taken = block.taken_by_pieces();
    Some(SomePiece {
        block: spliced.block,
        number,
        counted_from: before + i64::from(block.pieces[number - 1]),
        end_before: before + taken[number - 1] as i64,
        start,
        taken: taken[number] as i64,
    })
}

/// Has a piece start at this position, by the code that it has; false where that code cannot say it.
fn move_piece(model: &mut UnitModel, record: usize, piece: &SomePiece, start: i64) -> bool {
    let Some(block) = block_of(model, record, piece.block) else { return false };
    let Some([_, place]) = block.splices.chunks(2).nth(piece.number - 1) else { return false };
    let place = *place;
    let value = if place.subsequence == 3 {
        u32::try_from(start).ok()
    } else {
        let distance = start - piece.counted_from;
        let fits = distance.unsigned_abs() <= DELTA_MAX;
        fits.then(|| 2 * distance.unsigned_abs() as u32 + u32::from(distance < 0))
    };
    value.is_some_and(|value| set_symbol(model, place, value))
}

/// A read at the very start of all positions, or where it lies: the first piece stays inside.
fn piece_below_zero(rng: &mut Rng, model: &mut UnitModel, record: usize) -> bool {
    let start = -1 - rng.below(30) as i64;
    if let Some(taken) = first_by_distance(model, record).filter(|_| rng.percent(80)) {
        let last = (i64::from(model.unit.au_end) + 1 - taken.max(1)).max(0);
        model.unit.au_start = 0;
        model.records[record].pos = rng.below(100).min(last as u64) as u32;
        return move_second(model, record, start);
    }
    let Some(piece) = some_piece(rng, model, record) else { return false };
    move_piece(model, record, &piece, start)
}

/// The same at the very end: wrapped, the next piece would lie in the unit again.
fn piece_past_all(rng: &mut Rng, model: &mut UnitModel, record: usize) -> bool {
    let past = i64::from(u32::MAX) + 1;
    let start = past + rng.below(30) as i64;
    if let Some(taken) = first_by_distance(model, record).filter(|_| rng.percent(80)) {
        model.unit.au_end = u32::MAX;
        let pos = past - taken.max(1) - rng.below(100) as i64;
        model.records[record].pos = pos.max(i64::from(model.unit.au_start)) as u32;
        return move_second(model, record, start);
    }
    let Some(piece) = some_piece(rng, model, record) else { return false };
    move_piece(model, record, &piece, start)
}

/// What the first piece of the record takes, where its second one is told by a distance.
fn first_by_distance(model: &mut UnitModel, record: usize) -> Option<i64> {
    let block = block_of(model, record, 0)?;
    let by_distance = block.is_spliced() && block.splices.get(1)?.subsequence == 1;
    by_distance.then(|| block.taken_by_pieces()[0] as i64)
}

/// Has the second piece of the record's first block start at this position.
fn move_second(model: &mut UnitModel, record: usize, start: i64) -> bool {
    let position = i64::from(model.records[record].pos);
    let Some(block) = block_of(model, record, 0) else { return false };
    let (counted_from, end_before) = (position + i64::from(block.pieces[0]), position);
    let piece = SomePiece { block: 0, number: 1, counted_from, end_before, start, taken: 0 };
    move_piece(model, record, &piece, start)
}

fn piece_before_the_unit(rng: &mut Rng, model: &mut UnitModel, record: usize) -> bool {
    let Some(piece) = some_piece(rng, model, record) else { return false };
    let start = i64::from(model.unit.au_start) - 1 - rng.below(3) as i64;
    start >= 0 && move_piece(model, record, &piece, start)
}

fn piece_behind_the_unit(rng: &mut Rng, model: &mut UnitModel, record: usize) -> bool {
    let Some(piece) = some_piece(rng, model, record) else { return false };
    let start = i64::from(model.unit.au_end) + 1 + rng.below(3) as i64;
    start <= i64::from(u32::MAX) && move_piece(model, record, &piece, start)
}

/// The last position that the piece takes lies outside the unit, or is the last inside.
fn piece_ends_outside(rng: &mut Rng, model: &mut UnitModel, record: usize) -> bool {
    let Some(piece) = some_piece(rng, model, record) else { return false };
    if rng.percent(50) {
        // The unit's end is drawn in.
        let end = piece.start + piece.taken - 1 - rng.below(2) as i64;
        let inside = end >= i64::from(model.unit.au_start) && end <= i64::from(u32::MAX);
        if inside {
            model.unit.au_end = end as u32;
        }
        return inside;
    }
    let start = i64::from(model.unit.au_end) + 2 - piece.taken - rng.below(2) as i64;
    move_piece(model, record, &piece, start)
}

fn no_splice(rng: &mut Rng, model: &mut UnitModel, record: usize) -> bool {
    let Some(piece) = some_piece(rng, model, record) else { return false };
    // Now and then the least that there may be.
    let start = piece.end_before + i64::from(rng.percent(20));
    move_piece(model, record, &piece, start)
}

/// Upon the piece before, or in front of it, in the unit.
fn negative_splice(rng: &mut Rng, model: &mut UnitModel, record: usize) -> bool {
    let Some(piece) = some_piece(rng, model, record) else { return false };
    let first = i64::from(model.unit.au_start);
    if piece.end_before <= first {
        return false;
    }
    let back = if rng.percent(50) { 1 } else { rng.between(1, (piece.end_before - first).min(40) as u64) as i64 };
    move_piece(model, record, &piece, piece.end_before - back)
}

/// A reference byte outside the alphabet where a piece behind the first lies.
fn bad_reference_under_a_piece(rng: &mut Rng, model: &mut UnitModel, record: usize) -> bool {
    let Some(piece) = some_piece(rng, model, record) else { return false };
    let position = piece.start + rng.below(piece.taken.max(1) as u64) as i64;
    let bad = bad_index(rng, &model.unit);
    let place = usize::try_from(position - i64::from(model.unit.first)).ok();
    match place.and_then(|place| model.reference.get_mut(place)) {
        Some(index) => *index = bad,
        None => return false,
    }
    true
}

/// Of two pieces both faults, the one that is told first before the other or behind it.
fn misplaced_behind_a_bad_reference(rng: &mut Rng, model: &mut UnitModel, record: usize) -> bool {
    let bad = bad_reference_under_a_piece(rng, model, record);
    let misplaced = rng.pick(&[no_splice as OnRecord, negative_splice, piece_ends_outside])(rng, model, record);
    bad && misplaced
}

/// A fault of the frame behind one of its lengths: the lengths are told, then the symbols, then the clips.
fn clips_and_pieces(rng: &mut Rng, model: &mut UnitModel, record: usize) -> bool {
    let clip = rng.pick(&[left_clip_reaches_the_first as OnRecord, right_clip_reaches_the_last])(rng, model, record);
    let other = rng.pick(&[reserved_code as OnRecord, symbols_used_up, distance_too_large])(rng, model, record);
    clip && other
}
