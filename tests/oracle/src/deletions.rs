//! Where deletions may stand: between two bases of their read that lie on the reference (document 02, Wish 2).

use crate::segment::{Edit, EditKind};
use std::collections::BTreeSet;

/// What is wrong with a read of which a deletion has no match or substitution before it, or none behind it. All of this
/// has one number; it is told apart for the sake of those who count what a run has reached, as faults of splices are.
#[derive(Clone, Copy, Debug, PartialEq, Eq, PartialOrd, Ord, Hash)]
pub enum Bare {
    /// No mapped base stands before the first deletion, or inserted ones only.
    Front,
    BehindInsertions,
    /// No mapped base stands behind the first deletion that lacks one there, or inserted ones only.
    Back,
    BeforeInsertions,
    /// A deletion lacks a base before it and another one behind it.
    BothEnds,
    /// The read has neither a match nor a substitution.
    NoBase,
}

/// Of each deletion some mapped base before its offset, and some from its offset on, is a match or a substitution: those
/// are all that were not inserted. Offsets count through all pieces, so that a base of any piece will do.
pub(crate) fn stand_between_bases(edits: &[Edit], mapped_length: usize) -> Result<(), Bare> {
    let offsets = |kind: EditKind| edits.iter().filter(move |edit| edit.kind == kind).map(|edit| edit.offset);
    let inserted: BTreeSet<usize> = offsets(EditKind::Insertion).collect();
    let on_reference = |base: usize| !inserted.contains(&base);
    let none_before = offsets(EditKind::Deletion).find(|at| !(0..*at).any(on_reference));
    let none_behind = offsets(EditKind::Deletion).find(|at| !(*at..mapped_length).any(on_reference));
    match (none_before, none_behind) {
        (None, None) => Ok(()),
        (Some(0), None) => Err(Bare::Front),
        (Some(_), None) => Err(Bare::BehindInsertions),
        (None, Some(at)) if at == mapped_length => Err(Bare::Back),
        (None, Some(_)) => Err(Bare::BeforeInsertions),
        (Some(_), Some(_)) if inserted.len() < mapped_length => Err(Bare::BothEnds),
        (Some(_), Some(_)) => Err(Bare::NoBase),
    }
}
