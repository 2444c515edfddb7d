//! Damage to the deletions of a record: such as no match or substitution of their read stands before, or none behind.

use super::record::*;
use super::splices::damage_splices;
use crate::model::*;
use crate::rng::Rng;
use oracle::limits::{EDITS_MAX, READ_LENGTH_MAX};

/// Each with how often it is wanted beside the others. A read of one mapped base cannot have all of them.
const ON_DELETIONS: [(u64, OnRecord); 6] = [
    (4, at_the_front),
    (6, behind_insertions),
    (4, at_the_back),
    (5, before_insertions),
    (2, at_both_ends),
    (2, no_base),
];

/// What the Order has right before deletions at an end, and right behind them.
const BESIDE: [OnRecord; 11] = [
    bad_edit_type,
    bad_edit_symbol,
    bad_deletion_symbol,
    offset_at_the_end,
    pos_at_an_edge,
    last_base_outside,
    mate_outside,
    bad_reference_under_the_read,
    outside_over_a_bad_reference,
    another_number_of_blocks,
    damage_splices,
];

/// Deletions at the ends of some read, often with something else that is wrong: which of the two is told?
pub fn damage_deletions(rng: &mut Rng, model: &mut UnitModel, record: usize) -> bool {
    let damaged = damage_by(rng, &ON_DELETIONS, model, record);
    if damaged && rng.percent(40) {
        // Where it does not fit the deletions stay alone.
        rng.pick(&BESIDE)(rng, model, record);
    }
    damaged
}

/// Some read that may have deletions, and how many mapped bases it has.
fn some_read<'a>(rng: &mut Rng, model: &'a mut UnitModel, record: usize) -> Option<(&'a mut AlignedModel, u16)> {
    if !model.class().has_clips() {
        return None;
    }
    let block = some_aligned(rng, model, record)?;
    let mapped = block.length.saturating_sub(block.clips[0]).saturating_sub(block.clips[2]);
    (1..=READ_LENGTH_MAX).contains(&mapped).then_some((block, mapped))
}

/// A deletion or few at this offset, in front of what else stands there.
fn delete(rng: &mut Rng, block: &mut AlignedModel, offset: u16) -> bool {
    let room = usize::from(EDITS_MAX).saturating_sub(block.edits.len());
    let count = room.min(rng.between(1, 3) as usize);
    put(block, offset, vec![EditModel { offset, kind: DELETION, symbol: 0 }; count]);
    count > 0
}

/// Has the bases from one offset to another inserted, whatever was done to them before.
fn insert(rng: &mut Rng, block: &mut AlignedModel, from: u16, to: u16) -> bool {
    let stays = |edit: &EditModel| !(from..to).contains(&edit.offset);
    let others = block.edits.iter().filter(|edit| stays(edit)).count();
    if others + usize::from(to - from) > usize::from(EDITS_MAX) {
        return false;
    }
    block.edits.retain(stays);
    let symbol = rng.below(4) as u8;
    put(block, from, (from..to).map(|offset| EditModel { offset, kind: INSERTION, symbol }).collect());
    true
}

fn put(block: &mut AlignedModel, offset: u16, edits: Vec<EditModel>) {
    let at = block.edits.iter().position(|edit| edit.offset >= offset).unwrap_or(block.edits.len());
    block.edits.splice(at..at, edits);
    block.edit_count = block.edits.len() as u16;
}

/// How many bases of an end are inserted: few, or those of the piece at that end; some are left.
fn some_bases(rng: &mut Rng, mapped: u16, piece: Option<u64>) -> Option<u16> {
    let most = mapped.checked_sub(1).filter(|most| *most > 0)?;
    let piece = piece.filter(|bases| (1..=u64::from(most)).contains(bases) && rng.percent(60));
    Some(piece.unwrap_or_else(|| rng.between(1, u64::from(most.min(3)))) as u16)
}

fn at_the_front(rng: &mut Rng, model: &mut UnitModel, record: usize) -> bool {
    some_read(rng, model, record).is_some_and(|(block, _)| delete(rng, block, 0))
}

fn at_the_back(rng: &mut Rng, model: &mut UnitModel, record: usize) -> bool {
    some_read(rng, model, record).is_some_and(|(block, mapped)| delete(rng, block, mapped))
}

fn at_both_ends(rng: &mut Rng, model: &mut UnitModel, record: usize) -> bool {
    let Some((block, mapped)) = some_read(rng, model, record) else { return false };
    let front = delete(rng, block, 0);
    front && delete(rng, block, mapped)
}

fn behind_insertions(rng: &mut Rng, model: &mut UnitModel, record: usize) -> bool {
    let Some((block, mapped)) = some_read(rng, model, record) else { return false };
    let piece = block.borders().first().copied();
    let Some(bases) = some_bases(rng, mapped, piece) else { return false };
    insert(rng, block, 0, bases) && delete(rng, block, bases)
}

fn before_insertions(rng: &mut Rng, model: &mut UnitModel, record: usize) -> bool {
    let Some((block, mapped)) = some_read(rng, model, record) else { return false };
    let piece = block.borders().last().map(|border| u64::from(mapped).saturating_sub(*border));
    let Some(bases) = some_bases(rng, mapped, piece) else { return false };
    insert(rng, block, mapped - bases, mapped) && delete(rng, block, mapped - bases)
}

/// Deletions and insertions only.
fn no_base(rng: &mut Rng, model: &mut UnitModel, record: usize) -> bool {
    let Some((block, mapped)) = some_read(rng, model, record) else { return false };
    let at = rng.below(u64::from(mapped) + 1) as u16;
    block.edits.clear();
    insert(rng, block, 0, mapped) && delete(rng, block, at)
}
