//! Damage to a unit before it is written down. A kind of damage that does not fit a case says so by `false`, and
//! another one is tried.

use super::deletions::damage_deletions;
use super::splices::{damage_splices, has_splices, ON_PIECES};
use crate::model::*;
use crate::rng::Rng;
use oracle::alphabet::Alphabet;
use oracle::limits::{EDITS_MAX, READ_LENGTH_MAX, RECORDS_MAX, SUBSEQUENCES, SYMBOLS_MAX};
use oracle::UnitNumbers;

/// How often another kind of damage is tried where one does not fit.
const TRIES: usize = 12;

pub type OnRecord = fn(&mut Rng, &mut UnitModel, usize) -> bool;
type OnUnit = fn(&mut Rng, &mut UnitModel) -> bool;

/// Those named twice or more are wanted more often.
const ON_RECORD: [OnRecord; 29] = [
    no_length,
    no_unaligned_length,
    clips_reach_the_length,
    clips_reach_the_length,
    too_many_edits,
    edits_swapped,
    offset_repeated,
    offset_at_the_end,
    pos_at_an_edge,
    pos_at_an_edge,
    last_base_outside,
    nothing_taken_at_the_edge,
    mate_outside,
    mate_outside,
    bad_base,
    bad_edit_symbol,
    bad_deletion_symbol,
    bad_edit_type,
    bad_rcomp,
    bad_code,
    bad_code,
    bad_value,
    bad_value,
    bad_value,
    symbols_used_up,
    bad_value_then_used_up,
    another_number_of_blocks,
    bad_reference_under_the_read,
    outside_over_a_bad_reference,
];

const ON_UNIT: [OnUnit; 5] = [bad_reference, another_record_count, symbol_left_over, too_many_symbols, symbol_gone];

/// Damages a unit as its author might have: the frames stay whole. Damage to a record goes to `focus`, so that
/// several kinds meet in one record and the Order of checks has to decide between them.
pub fn damage_model(rng: &mut Rng, model: &mut UnitModel, focus: usize) {
    if model.records.is_empty() || rng.percent(20) {
        for _ in 0..TRIES {
            if rng.pick(&ON_UNIT)(rng, model) {
                return;
            }
        }
    } else {
        damage_record(rng, model, focus);
    }
}

/// Damages one record, in one way or, now and then, in two.
pub fn damage_record(rng: &mut Rng, model: &mut UnitModel, record: usize) {
    for _ in 0..if rng.percent(30) { 2 } else { 1 } {
        let kinds = kinds(rng, model, record);
        for _ in 0..TRIES {
            if rng.pick(kinds)(rng, model, record) {
                break;
            }
        }
    }
}

/// One kind of damage out of these, each as often as is said beside it.
pub fn damage_by(rng: &mut Rng, kinds: &[(u64, OnRecord)], model: &mut UnitModel, record: usize) -> bool {
    let mut at = rng.below(kinds.iter().map(|(often, _)| often).sum());
    for (often, damage) in kinds {
        if at < *often {
            return damage(rng, model, record);
        }
        at -= often;
    }
    false
}

/// Where there are splices, mostly damage that is theirs; where there are none, often deletions at the ends of a read.
fn kinds(rng: &mut Rng, model: &UnitModel, record: usize) -> &'static [OnRecord] {
    if !model.class().has_splices() {
        return &ON_RECORD;
    }
    match rng.below(15) {
        0 => &ON_PIECES,
        1..=8 if has_splices(model, record) => &[damage_splices],
        1 => &ON_PIECES,
        2..=12 => &[damage_deletions],
        _ => &ON_RECORD,
    }
}

pub fn some_aligned<'a>(rng: &mut Rng, model: &'a mut UnitModel, record: usize) -> Option<&'a mut AlignedModel> {
    let mut blocks: Vec<_> = model.records[record]
        .blocks
        .iter_mut()
        .filter_map(|block| match block {
            BlockModel::Aligned(block) => Some(block),
            BlockModel::Unaligned(_) => None,
        })
        .collect();
    if blocks.is_empty() {
        return None;
    }
    Some(blocks.swap_remove(rng.index(blocks.len())))
}

fn some_unaligned(model: &mut UnitModel, record: usize) -> Option<&mut UnalignedModel> {
    model.records[record].blocks.iter_mut().rev().find_map(|block| match block {
        BlockModel::Unaligned(block) => Some(block),
        BlockModel::Aligned(_) => None,
    })
}

fn no_length(rng: &mut Rng, model: &mut UnitModel, record: usize) -> bool {
    let Some(block) = some_aligned(rng, model, record) else { return false };
    block.length = *rng.pick(&[0, READ_LENGTH_MAX + 1, u16::MAX]);
    true
}

fn no_unaligned_length(rng: &mut Rng, model: &mut UnitModel, record: usize) -> bool {
    let Some(block) = some_unaligned(model, record) else { return false };
    block.length = *rng.pick(&[0, READ_LENGTH_MAX + 1]);
    block.bases.resize(usize::from(block.length), 0);
    true
}

fn clips_reach_the_length(rng: &mut Rng, model: &mut UnitModel, record: usize) -> bool {
    if !model.class().has_clips() {
        return false;
    }
    let Some(block) = some_aligned(rng, model, record) else { return false };
    let left = rng.between(0, u64::from(block.length)) as u16;
    // At the last length that fits, at the first that does not, or far above it.
    let right = (block.length - left).saturating_sub(rng.below(2) as u16);
    block.clips[0] = left;
    block.clips[2] = if rng.percent(10) { u16::MAX } else { right };
    block.soft.resize(usize::from(left) + usize::from(right), 0);
    true
}

fn too_many_edits(rng: &mut Rng, model: &mut UnitModel, record: usize) -> bool {
    let class = model.class();
    let Some(block) = some_aligned(rng, model, record) else { return false };
    if !class.has_edits() {
        return false;
    }
    let offset = block.edits.last().map_or(0, |edit| edit.offset);
    block.edits.resize(usize::from(EDITS_MAX) + 1, EditModel { offset, kind: DELETION, symbol: 0 });
    block.edit_count = EDITS_MAX + 1;
    true
}

fn edits_swapped(rng: &mut Rng, model: &mut UnitModel, record: usize) -> bool {
    let Some(block) = some_aligned(rng, model, record) else { return false };
    if block.edits.len() < 2 {
        return false;
    }
    let at = rng.index(block.edits.len() - 1);
    block.edits.swap(at, at + 1);
    true
}

/// Allowed where the first of the two is a deletion.
fn offset_repeated(rng: &mut Rng, model: &mut UnitModel, record: usize) -> bool {
    let Some(block) = some_aligned(rng, model, record) else { return false };
    if block.edits.len() < 2 {
        return false;
    }
    let at = rng.index(block.edits.len() - 1);
    block.edits[at + 1].offset = block.edits[at].offset;
    true
}

pub fn offset_at_the_end(rng: &mut Rng, model: &mut UnitModel, record: usize) -> bool {
    let Some(block) = some_aligned(rng, model, record) else { return false };
    let mapped = block.length.saturating_sub(block.clips[0]).saturating_sub(block.clips[2]);
    let Some(edit) = block.edits.last_mut() else { return false };
    edit.offset = mapped.saturating_add(rng.below(4) as u16).saturating_sub(1);
    true
}

/// The positions about the edges of the unit, for a segment that takes so many positions.
fn position_edges(unit: &UnitNumbers, taken: u64) -> [u32; 8] {
    let past = u64::from(unit.au_end) + 1;
    let last_fit = past.saturating_sub(taken.max(1)) as u32;
    [
        unit.au_start.wrapping_sub(1),
        unit.au_start,
        last_fit,
        last_fit.wrapping_add(1),
        unit.au_end,
        unit.au_end.wrapping_add(1),
        0,
        u32::MAX,
    ]
}

pub fn pos_at_an_edge(rng: &mut Rng, model: &mut UnitModel, record: usize) -> bool {
    let unit = model.unit.clone();
    let taken = match &model.records[record].blocks[..] {
        [BlockModel::Aligned(block), ..] => block.reach(),
        _ => 1,
    };
    model.records[record].pos = *rng.pick(&position_edges(&unit, taken));
    true
}

/// Draws the unit's end in until the last position taken lies outside, or is just inside.
pub fn last_base_outside(rng: &mut Rng, model: &mut UnitModel, record: usize) -> bool {
    let [BlockModel::Aligned(block), ..] = &model.records[record].blocks[..] else { return false };
    let end = u64::from(model.records[record].pos) + block.reach();
    let wanted = end.saturating_sub(1 + rng.below(2));
    if wanted < u64::from(model.unit.au_start) || wanted > u64::from(u32::MAX) {
        return false;
    }
    model.unit.au_end = wanted as u32;
    true
}

/// A first segment of insertions only, at the last position of the unit or just behind it.
fn nothing_taken_at_the_edge(rng: &mut Rng, model: &mut UnitModel, record: usize) -> bool {
    if !model.class().has_clips() {
        return false;
    }
    let pos = model.unit.au_end.wrapping_add(rng.below(2) as u32);
    let [BlockModel::Aligned(block), ..] = &mut model.records[record].blocks[..] else { return false };
    let mapped = block.length.saturating_sub(block.clips[0]).saturating_sub(block.clips[2]);
    block.edit_count = mapped.min(EDITS_MAX);
    block.edits = (0..block.edit_count).map(|offset| EditModel { offset, kind: INSERTION, symbol: 0 }).collect();
    model.records[record].pos = pos;
    true
}

/// Where the record's symbol of this subsequence stands, if it has one.
pub fn own_symbol(model: &mut UnitModel, record: usize, subsequence: usize) -> Option<&mut u32> {
    let index = usize::from(model.records[record].before[subsequence]);
    let next = model.records.get(record + 1).map(|next| usize::from(next.before[subsequence]));
    let end = next.unwrap_or(model.symbols[subsequence].len());
    if index < end {
        model.symbols[subsequence].get_mut(index)
    } else {
        None
    }
}

pub fn mate_outside(rng: &mut Rng, model: &mut UnitModel, record: usize) -> bool {
    let [BlockModel::Aligned(first), BlockModel::Aligned(mate)] = &model.records[record].blocks[..] else {
        return false;
    };
    let (first, mate) = (first.reach().max(1), mate.reach().max(1));
    if own_symbol(model, record, 1).is_none() {
        return false;
    }
    if rng.percent(30) {
        // Over all positions, the first segment at the very end: wrapped, the mate would lie in the unit again.
        (model.unit.au_start, model.unit.au_end) = (0, u32::MAX);
        model.records[record].pos = (u64::from(u32::MAX) + 1 - first) as u32;
    }
    let room = (u64::from(model.unit.au_end) + 1).saturating_sub(u64::from(model.records[record].pos));
    let delta = room.saturating_sub(mate).saturating_add(rng.below(3)).min(u64::from(u16::MAX));
    let wanted = *rng.pick(&[2 * delta as u32, 2 * delta as u32 + 1, u32::from(u16::MAX), u32::from(u16::MAX) - 1]);
    if let Some(value) = own_symbol(model, record, 1) {
        *value = wanted;
    }
    true
}

/// The first index outside the unit's alphabet, one that the other alphabet has, or any large one.
pub fn bad_index(rng: &mut Rng, unit: &UnitNumbers) -> u8 {
    let size = Alphabet::from_number(unit.alphabet).map_or(0, Alphabet::size);
    *rng.pick(&[size, size, size + 10, u8::MAX])
}

fn bad_base(rng: &mut Rng, model: &mut UnitModel, record: usize) -> bool {
    let bad = bad_index(rng, &model.unit);
    let block = rng.index(model.records[record].blocks.len().max(1));
    let bases = match model.records[record].blocks.get_mut(block) {
        Some(BlockModel::Aligned(block)) => &mut block.soft,
        Some(BlockModel::Unaligned(block)) => &mut block.bases,
        None => return false,
    };
    if bases.is_empty() {
        return false;
    }
    let at = rng.index(bases.len());
    bases[at] = bad;
    true
}

fn some_edit<'a>(
    rng: &mut Rng,
    model: &'a mut UnitModel,
    record: usize,
    wanted: fn(u8) -> bool,
) -> Option<&'a mut EditModel> {
    let block = some_aligned(rng, model, record)?;
    let mut edits: Vec<_> = block.edits.iter_mut().filter(|edit| wanted(edit.kind)).collect();
    if edits.is_empty() {
        return None;
    }
    // The last one more often, as frames are often cut near their end.
    let at = if rng.percent(40) { edits.len() - 1 } else { rng.index(edits.len()) };
    Some(edits.swap_remove(at))
}

pub fn bad_edit_symbol(rng: &mut Rng, model: &mut UnitModel, record: usize) -> bool {
    let bad = bad_index(rng, &model.unit);
    let Some(edit) = some_edit(rng, model, record, |kind| kind != DELETION) else { return false };
    edit.symbol = bad;
    true
}

pub fn bad_deletion_symbol(rng: &mut Rng, model: &mut UnitModel, record: usize) -> bool {
    let symbol = *rng.pick(&[1, 4, 5, u8::MAX]);
    let Some(edit) = some_edit(rng, model, record, |kind| kind == DELETION) else { return false };
    edit.symbol = symbol;
    true
}

pub fn bad_edit_type(rng: &mut Rng, model: &mut UnitModel, record: usize) -> bool {
    let kind = *rng.pick(&[3, 4, u8::MAX]);
    let Some(edit) = some_edit(rng, model, record, |_| true) else { return false };
    edit.kind = kind;
    true
}

fn bad_rcomp(rng: &mut Rng, model: &mut UnitModel, record: usize) -> bool {
    let Some(block) = some_aligned(rng, model, record) else { return false };
    block.rcomp = *rng.pick(&[2, 3, u8::MAX]);
    true
}

fn bad_code(rng: &mut Rng, model: &mut UnitModel, record: usize) -> bool {
    // Codes of which the low bytes look good, too.
    let wanted = *rng.pick(&[7, 7, 8, 0x100, 0x1_0000, 0x0100_0001, u32::MAX]);
    let Some(code) = own_symbol(model, record, 0) else { return false };
    *code = wanted;
    true
}

fn bad_value(rng: &mut Rng, model: &mut UnitModel, record: usize) -> bool {
    let wanted = *rng.pick(&[0x1_0000, 0x1_0000, 0x1_0001, 0x2_0000, u32::MAX]);
    let taken: Vec<usize> = [1, 4, 5].into_iter().filter(|at| own_symbol(model, record, *at).is_some()).collect();
    if taken.is_empty() {
        return false;
    }
    let subsequence = *rng.pick(&taken);
    let Some(value) = own_symbol(model, record, subsequence) else { return false };
    *value = wanted;
    true
}

/// The record's own symbol of some subsequence is gone, and all behind it.
fn symbols_used_up(rng: &mut Rng, model: &mut UnitModel, record: usize) -> bool {
    let subsequence = rng.index(SUBSEQUENCES);
    if own_symbol(model, record, subsequence).is_none() {
        return false;
    }
    let index = usize::from(model.records[record].before[subsequence]);
    model.symbols[subsequence].truncate(index);
    true
}

/// A sequence id that is none, and no position behind it.
fn bad_value_then_used_up(rng: &mut Rng, model: &mut UnitModel, record: usize) -> bool {
    let subsequence = *rng.pick(&[4, 5]);
    let position = usize::from(model.records[record].before[subsequence + 2]);
    let Some(value) = own_symbol(model, record, subsequence) else { return false };
    *value = u32::from(u16::MAX) + 1;
    model.symbols[subsequence + 2].truncate(position);
    true
}

pub fn another_number_of_blocks(rng: &mut Rng, model: &mut UnitModel, record: usize) -> bool {
    let blocks = &mut model.records[record].blocks;
    if rng.percent(50) {
        return blocks.pop().is_some();
    }
    let Some(last) = blocks.last().cloned() else { return false };
    blocks.push(last);
    true
}

/// A reference byte outside the alphabet where the first segment lies.
pub fn bad_reference_under_the_read(rng: &mut Rng, model: &mut UnitModel, record: usize) -> bool {
    let [BlockModel::Aligned(block), ..] = &model.records[record].blocks[..] else { return false };
    let taken = block.taken_by_pieces().first().copied().unwrap_or(0);
    let position = u64::from(model.records[record].pos) + rng.below(taken.max(1));
    let bad = bad_index(rng, &model.unit);
    let place = position.checked_sub(u64::from(model.unit.first));
    match place.and_then(|place| model.reference.get_mut(place as usize)) {
        Some(index) => *index = bad,
        None => return false,
    }
    true
}

/// Both faults that are looked for after a segment.
pub fn outside_over_a_bad_reference(rng: &mut Rng, model: &mut UnitModel, record: usize) -> bool {
    let bad = bad_reference_under_the_read(rng, model, record);
    last_base_outside(rng, model, record) && bad
}

fn bad_reference(rng: &mut Rng, model: &mut UnitModel) -> bool {
    if model.reference.is_empty() {
        return false;
    }
    for _ in 0..rng.between(1, 1 + model.reference.len() as u64 / 20) {
        let at = rng.index(model.reference.len());
        model.reference[at] = bad_index(rng, &model.unit);
    }
    true
}

fn another_record_count(rng: &mut Rng, model: &mut UnitModel) -> bool {
    let count = model.unit.record_count;
    let (fewer, more) = (count.wrapping_sub(1), count.wrapping_add(1));
    model.unit.record_count = *rng.pick(&[fewer, more, more, 0, RECORDS_MAX, RECORDS_MAX + 1]);
    true
}

fn symbol_left_over(rng: &mut Rng, model: &mut UnitModel) -> bool {
    let subsequence = rng.index(SUBSEQUENCES);
    let at = rng.index(model.symbols[subsequence].len() + 1);
    model.symbols[subsequence].insert(at, rng.below(7) as u32);
    true
}

fn symbol_gone(rng: &mut Rng, model: &mut UnitModel) -> bool {
    let subsequence = rng.index(SUBSEQUENCES);
    if model.symbols[subsequence].is_empty() {
        return false;
    }
    let at = rng.index(model.symbols[subsequence].len());
    model.symbols[subsequence].remove(at);
    true
}

fn too_many_symbols(rng: &mut Rng, model: &mut UnitModel) -> bool {
    let count = usize::from(SYMBOLS_MAX) + rng.index(2);
    model.symbols[rng.index(SUBSEQUENCES)].resize(count, 5);
    true
}
