//! Deletions that no base of their read stands before, or none behind: document 02's Wish 2.

mod common;
use common::*;
use oracle::{Bare, Refusal};

const S: u8 = SUBSTITUTION;
const IN: u8 = INSERTION;
const D: u8 = DELETION;

type Edits<'a> = &'a [(u16, u8, u8)];

/// A read at 100 in a unit of class I. The letter of position p is A, C, G or T as p leaves 0, 1, 2 or 3 when divided by
/// 4.
fn read(length: u16, clips: [u16; 4], edits: Edits) -> Given {
    given(I).with(record(100, &[block_i(length, clips, edits)]))
}

fn four(edits: Edits) -> Given {
    read(4, [0; 4], edits)
}

/// Two pieces of three bases, at 100 and at 110.
fn two_of_three(edits: Edits) -> Given {
    spliced(&[3, 3], edits)
}

/// Pieces at 100, 110, 120 and so on.
fn spliced(lengths: &[u16], edits: Edits) -> Given {
    let mut unit = given(I).with(record(100, &[block_pieces(lengths.iter().sum(), 0, lengths, [0; 4], edits)]));
    unit.symbols[0] = vec![2; lengths.len() - 1];
    unit.symbols[3] = (1..lengths.len() as u32).map(|piece| 100 + 10 * piece).collect();
    unit
}

/// What the unit is refused for. Offsets have the same number as deletions at an end, and another name.
fn told(unit: &Given) -> Option<Refusal> {
    let (listing, told) = oracle::listing_and_refusal(&unit.reference_file(), &unit.file());
    assert_eq!(refusal(&listing).map(|(_, number)| number), told.map(Refusal::number));
    told
}

fn bare(bare: Bare) -> Option<Refusal> {
    Some(Refusal::Deletion { bare, spliced: false })
}

fn bare_over_introns(bare: Bare) -> Option<Refusal> {
    Some(Refusal::Deletion { bare, spliced: true })
}

fn says(unit: &Given, ecigar: &str, bases: &str) {
    let segment = unit.segment();
    assert_eq!((segment.ecigar.as_str(), segment.bases.as_str()), (ecigar, bases));
}

#[test]
fn the_number_is_that_of_offsets() {
    assert_eq!(four(&[(0, D, 0)]).refusal(), Some((0, 12)));
    assert_eq!(four(&[(4, D, 0)]).refusal(), Some((0, 12)));
    assert_eq!(two_of_three(&[(0, D, 0)]).refusal(), Some((0, 12)));
    // The records before it are listed.
    let second = four(&[(1, D, 0)]).with(record(100, &[block_i(4, [0; 4], &[(0, D, 0)])]));
    assert_eq!(second.refusal(), Some((1, 12)));
    assert_eq!(listed(&second.listing()).len(), 1);
}

#[test]
fn no_base_before_or_none_behind() {
    let cases: [(Edits, Bare); 15] = [
        (&[(0, D, 0)], Bare::Front),
        (&[(0, D, 0), (0, D, 0)], Bare::Front),
        // What stands at its own offset stands behind it.
        (&[(0, D, 0), (0, S, 3)], Bare::Front),
        (&[(0, D, 0), (0, IN, 3)], Bare::Front),
        (&[(0, IN, 3), (1, D, 0)], Bare::BehindInsertions),
        (&[(0, IN, 3), (1, IN, 3), (2, IN, 3), (3, D, 0)], Bare::BehindInsertions),
        (&[(0, IN, 3), (1, D, 0), (1, IN, 3)], Bare::BehindInsertions),
        (&[(4, D, 0)], Bare::Back),
        (&[(3, S, 3), (4, D, 0), (4, D, 0)], Bare::Back),
        (&[(3, IN, 3), (4, D, 0)], Bare::Back),
        (&[(3, D, 0), (3, IN, 3)], Bare::BeforeInsertions),
        (&[(2, IN, 3), (3, D, 0), (3, IN, 3)], Bare::BeforeInsertions),
        (&[(1, D, 0), (1, IN, 3), (2, IN, 3), (3, IN, 3)], Bare::BeforeInsertions),
        (&[(0, D, 0), (4, D, 0)], Bare::BothEnds),
        (&[(0, IN, 3), (1, D, 0), (3, D, 0), (3, IN, 3)], Bare::BothEnds),
    ];
    for (edits, expected) in cases {
        assert_eq!(told(&four(edits)), bare(expected), "{edits:?}");
    }
}

/// One deletion at an end is enough, wherever the others stand.
#[test]
fn one_of_several_deletions() {
    assert_eq!(told(&four(&[(0, D, 0), (2, D, 0)])), bare(Bare::Front));
    assert_eq!(told(&four(&[(0, D, 0), (1, D, 0), (3, D, 0)])), bare(Bare::Front));
    assert_eq!(told(&four(&[(0, IN, 0), (1, D, 0), (2, D, 0)])), bare(Bare::BehindInsertions));
    assert_eq!(told(&four(&[(2, D, 0), (4, D, 0)])), bare(Bare::Back));
    assert_eq!(told(&four(&[(1, D, 0), (3, D, 0), (4, D, 0)])), bare(Bare::Back));
    assert_eq!(told(&four(&[(2, D, 0), (3, D, 0), (3, IN, 0)])), bare(Bare::BeforeInsertions));
    assert_eq!(told(&four(&[(1, D, 0), (2, D, 0), (3, D, 0)])), None);
}

#[test]
fn a_read_of_deletions_and_insertions_only() {
    for at in 0..=4 {
        let inserted = |from, to| (from..to).map(|offset| (offset, IN, 3));
        let edits: Vec<_> = inserted(0, at).chain([(at, D, 0)]).chain(inserted(at, 4)).collect();
        assert_eq!(told(&four(&edits)), bare(Bare::NoBase), "deletion at {at}");
    }
    // Without the deletion it is accepted, and so it is with one base left on either side.
    let inserted: Vec<_> = (0..4).map(|offset| (offset, IN, 3)).collect();
    says(&four(&inserted), "4+", "TTTT");
    says(&four(&[(1, IN, 3), (2, D, 0), (2, IN, 3)]), "1=1+1-1+1=", "ATTG");
}

/// A match or a substitution alone on either side, with insertions about it or without.
#[test]
fn deletions_as_near_to_the_ends_as_they_may_stand() {
    let cases: [(Edits, &str, &str); 12] = [
        (&[(1, D, 0)], "1=1-3=", "AGTA"),
        (&[(3, D, 0)], "3=1-1=", "ACGA"),
        (&[(1, D, 0), (3, D, 0)], "1=1-2=1-1=", "AGTC"),
        (&[(0, S, 3), (1, D, 0)], "T1-3=", "TGTA"),
        (&[(3, D, 0), (3, S, 3)], "3=1-T", "ACGT"),
        (&[(0, S, 3), (1, D, 0), (1, S, 3), (2, IN, 3), (3, IN, 3)], "T1-T2+", "TTTT"),
        (&[(0, IN, 3), (2, D, 0)], "1+1=1-2=", "TAGT"),
        (&[(1, IN, 3), (2, D, 0)], "1=1+1-2=", "ATGT"),
        (&[(2, D, 0), (2, IN, 3)], "2=1-1+1=", "ACTT"),
        (&[(2, D, 0), (3, IN, 3)], "2=1-1=1+", "ACTT"),
        (&[(0, IN, 3), (2, D, 0), (3, IN, 3)], "1+1=1-1=1+", "TAGT"),
        (&[(0, IN, 3), (1, IN, 3), (3, D, 0), (3, D, 0)], "2+1=2-1=", "TTAT"),
    ];
    for (edits, ecigar, bases) in cases {
        says(&four(edits), ecigar, bases);
    }
}

/// One base is the first and the last at once: no deletion has one on both sides.
#[test]
fn a_read_of_one_mapped_base() {
    let cases: [(Edits, Bare); 6] = [
        (&[(0, D, 0)], Bare::Front),
        (&[(1, D, 0)], Bare::Back),
        (&[(0, D, 0), (0, S, 3)], Bare::Front),
        (&[(0, S, 3), (1, D, 0)], Bare::Back),
        (&[(0, D, 0), (0, IN, 3)], Bare::NoBase),
        (&[(0, IN, 3), (1, D, 0)], Bare::NoBase),
    ];
    for (edits, expected) in cases {
        assert_eq!(told(&read(1, [0; 4], edits)), bare(expected), "{edits:?}");
        assert_eq!(told(&read(5, [3, 0, 1, 0], edits)), bare(expected), "{edits:?} between soft clips");
    }
    assert_eq!(told(&read(1, [0; 4], &[(0, D, 0), (1, D, 0)])), bare(Bare::BothEnds));
    says(&read(2, [0; 4], &[(1, D, 0)]), "1=1-1=", "AG");
}

/// A clipped base is not mapped, so it is no base before a deletion or behind it.
#[test]
fn soft_clips_are_no_bases() {
    let clips = [1, 9, 1, 9];
    assert_eq!(told(&read(6, clips, &[(0, D, 0)])), bare(Bare::Front));
    assert_eq!(told(&read(6, clips, &[(4, D, 0)])), bare(Bare::Back));
    assert_eq!(told(&read(6, clips, &[(0, IN, 0), (1, D, 0)])), bare(Bare::BehindInsertions));
    assert_eq!(told(&read(6, clips, &[(3, D, 0), (3, IN, 0)])), bare(Bare::BeforeInsertions));
    says(&read(6, clips, &[(1, D, 0), (3, D, 0)]), "(1)1=1-2=1-1=(1)", "TAGTCT");
    assert_eq!(told(&read(5, [1, 0, 0, 0], &[(0, D, 0)])), bare(Bare::Front));
    assert_eq!(told(&read(5, [0, 0, 1, 0], &[(4, D, 0)])), bare(Bare::Back));
    // Nor are hard clips.
    assert_eq!(told(&read(4, [0, 5, 0, 5], &[(0, D, 0)])), bare(Bare::Front));
    assert_eq!(told(&read(4, [0, 5, 0, 5], &[(4, D, 0)])), bare(Bare::Back));
    says(&read(4, [0, 5, 0, 5], &[(3, D, 0)]), "[5]3=1-1=[5]", "ACGA");
}

/// The letter - is a base wherever it is substituted, and an insertion where it is inserted.
#[test]
fn the_letter_minus_beside_a_deletion() {
    let with = |edits: Edits| {
        let mut unit = four(edits);
        unit.alphabet = 1;
        unit
    };
    says(&with(&[(0, S, 15), (1, D, 0)]), "-1-3=", "-GTA");
    says(&with(&[(3, D, 0), (3, S, 15)]), "3=1--", "ACG-");
    assert_eq!(told(&with(&[(0, IN, 15), (1, D, 0)])), bare(Bare::BehindInsertions));
    assert_eq!(told(&with(&[(3, D, 0), (3, IN, 15)])), bare(Bare::BeforeInsertions));
}

// Over introns.

#[test]
fn before_and_behind_are_over_the_whole_read() {
    let inserted = |from: u16, to: u16| (from..to).map(|offset| (offset, IN, 3)).collect::<Vec<_>>();
    let cases: [(Vec<_>, Bare); 10] = [
        // First in the first piece, last in the last.
        (vec![(0, D, 0)], Bare::Front),
        (vec![(6, D, 0)], Bare::Back),
        (vec![(0, D, 0), (6, D, 0)], Bare::BothEnds),
        // The deletion at the border is fine by itself.
        (vec![(0, D, 0), (3, D, 0)], Bare::Front),
        (vec![(3, D, 0), (6, D, 0)], Bare::Back),
        // A first piece of insertions only, and the deletion at the border; also with one more behind it.
        ([inserted(0, 3), vec![(3, D, 0)]].concat(), Bare::BehindInsertions),
        ([inserted(0, 4), vec![(4, D, 0)]].concat(), Bare::BehindInsertions),
        // The same of a last piece.
        ([vec![(3, D, 0)], inserted(3, 6)].concat(), Bare::BeforeInsertions),
        ([vec![(2, D, 0)], inserted(2, 6)].concat(), Bare::BeforeInsertions),
        ([inserted(0, 3), vec![(3, D, 0)], inserted(3, 6)].concat(), Bare::NoBase),
    ];
    for (edits, expected) in cases {
        assert_eq!(told(&two_of_three(&edits)), bare_over_introns(expected), "{edits:?}");
    }
}

#[test]
fn a_base_in_any_piece_will_do() {
    // The first piece ends at 103, or as said.
    says(&two_of_three(&[(3, D, 0)]), "3=7/1-3=", "ACGTAC");
    // Takes 100 to 103.
    says(&two_of_three(&[(1, D, 0), (5, D, 0)]), "1=1-2=6/2=1-1=", "AGTGTC");
    // A first piece of insertions only takes nothing: the base before the deletion is the second's first.
    says(&two_of_three(&[(0, IN, 3), (1, IN, 3), (2, IN, 3), (4, D, 0)]), "3+10/1=1-2=", "TTTGAC");
    // Of insertions and one base: takes 100.
    says(&two_of_three(&[(0, IN, 3), (1, IN, 3), (3, D, 0)]), "2+1=9/1-3=", "TTATAC");
    // A last piece of insertions only, or of a base and insertions.
    says(&two_of_three(&[(2, D, 0), (3, IN, 3), (4, IN, 3), (5, IN, 3)]), "2=1-1=6/3+", "ACTTTT");
    says(&two_of_three(&[(3, D, 0), (4, IN, 3), (5, IN, 3)]), "3=7/1-1=2+", "ACGTTT");
    // The only bases behind it lie in the second piece; the only ones before it in the first.
    says(&two_of_three(&[(1, D, 0), (1, IN, 3), (2, IN, 3)]), "1=1-2+8/3=", "ATTGTA");
    says(&two_of_three(&[(3, IN, 3), (4, D, 0)]), "3=7/1+1-2=", "ACGTTA");
    // One substitution at each end of the read, and nothing else that lies on the reference.
    let edits = [(0, S, 3), (1, IN, 3), (2, IN, 3), (3, D, 0), (3, IN, 3), (4, IN, 3), (5, S, 3)];
    says(&two_of_three(&edits), "T2+9/1-2+T", "TTTTTT");
    // No deletion: a read of insertions only stays accepted.
    let edits: Vec<_> = (0..6).map(|offset| (offset, IN, 3)).collect();
    says(&two_of_three(&edits), "3+10/3+", "TTTTTT");
}

#[test]
fn a_middle_piece_without_a_base() {
    // 100 and 101; an insertion, 110 deleted, an insertion; 120 and 121.
    let middle = [(2, IN, 3), (3, D, 0), (3, IN, 3)];
    says(&spliced(&[2, 2, 2], &middle), "2=8/1+1-1+9/2=", "ACTTAC");
    // With the first piece inserted as well nothing stands before the deletion, with the last nothing behind it.
    let first = [&[(0, IN, 3), (1, IN, 3)][..], &middle].concat();
    assert_eq!(told(&spliced(&[2, 2, 2], &first)), bare_over_introns(Bare::BehindInsertions));
    let last = [&middle[..], &[(4, IN, 3), (5, IN, 3)]].concat();
    assert_eq!(told(&spliced(&[2, 2, 2], &last)), bare_over_introns(Bare::BeforeInsertions));
    // Pieces of one base each, and a deletion in front of each but the first.
    says(&spliced(&[1, 1, 1], &[(1, D, 0), (2, D, 0)]), "1=9/1-1=8/1-1=", "ATC");
    assert_eq!(told(&spliced(&[1, 1, 1], &[(1, D, 0), (3, D, 0)])), bare_over_introns(Bare::Back));
}

/// Offsets count from the first mapped base: a soft clip of the first piece moves the border.
#[test]
fn soft_clips_of_the_first_and_the_last_piece() {
    let with = |edits: Edits| {
        let mut unit = two_of_three(&[]);
        unit.records = vec![record(100, &[block_pieces(6, 0, &[3, 3], [2, 0, 2, 0], edits)])];
        unit
    };
    // One mapped base each: 100 and 110.
    says(&with(&[(1, D, 0)]), "(2)1=9/1-1=(2)", "TTATTT");
    assert_eq!(told(&with(&[(0, D, 0)])), bare_over_introns(Bare::Front));
    assert_eq!(told(&with(&[(2, D, 0)])), bare_over_introns(Bare::Back));
    assert_eq!(told(&with(&[(0, IN, 0), (1, D, 0)])), bare_over_introns(Bare::BehindInsertions));
    assert_eq!(told(&with(&[(1, D, 0), (1, IN, 0)])), bare_over_introns(Bare::BeforeInsertions));
}

/// All reads of up to five steps, whole, between soft clips and cut into two pieces at each place. Of the steps without
/// the insertions the first or the last is a deletion: then it is refused, else not.
#[test]
fn every_short_read() {
    for steps in (1..=5).flat_map(step_lists) {
        let (mapped, edits) = read_of(&steps);
        if mapped == 0 {
            continue;
        }
        let on_reference: Vec<u8> = steps.iter().copied().filter(|step| *step != IN).collect();
        let refused = on_reference.first() == Some(&D) || on_reference.last() == Some(&D);
        let mut units = vec![read(mapped, [0; 4], &edits), read(mapped + 3, [1, 0, 2, 0], &edits)];
        units.extend((1..mapped).map(|first| spliced(&[first, mapped - first], &edits)));
        for mut unit in units {
            // What is not lent reads as N: nothing else can be refused.
            unit.reference.clear();
            let told = told(&unit).map(|told| matches!(told, Refusal::Deletion { .. }));
            assert_eq!(told, refused.then_some(true), "steps {steps:?} in {}", hex(&unit.records[0]));
        }
    }
}

/// A step is an edit's type, or a match.
const MATCH: u8 = 3;

fn step_lists(length: u32) -> impl Iterator<Item = Vec<u8>> {
    (0..4u32.pow(length)).map(move |number| (0..length).map(|at| (number >> (2 * at) & 3) as u8).collect())
}

/// The mapped bases and the edits of a read that takes these steps.
fn read_of(steps: &[u8]) -> (u16, Vec<(u16, u8, u8)>) {
    let mut offset = 0;
    let mut edits = Vec::new();
    for step in steps {
        if *step != MATCH {
            edits.push((offset, *step, 0));
        }
        if *step != D {
            offset += 1;
        }
    }
    (offset, edits)
}

// Classes and segments.

#[test]
fn half_mapped_reads() {
    let with = |edits: Edits| given(HM).symbol(1, 0).with(record(100, &[block_i(4, [0; 4], edits), block_u(&[3, 3])]));
    assert_eq!(told(&with(&[(0, D, 0)])), bare(Bare::Front));
    assert_eq!(told(&with(&[(4, D, 0)])), bare(Bare::Back));
    assert_eq!(told(&with(&[(0, IN, 0), (1, D, 0)])), bare(Bare::BehindInsertions));
    assert_eq!(with(&[(1, D, 0), (3, D, 0)]).listed()[0].segments[0].ecigar, "1=1-2=1-1=");
}

/// Two segments of class I, at 100 and at 110.
fn pair(first: Vec<u8>, second: Vec<u8>) -> Given {
    given(I).symbol(0, 0).symbol(1, 20).with(record(100, &[first, second]))
}

fn block(edits: Edits) -> Vec<u8> {
    block_i(4, [0; 4], edits)
}

#[test]
fn the_second_segment() {
    assert_eq!(told(&pair(block(&[]), block(&[(0, D, 0)]))), bare(Bare::Front));
    assert_eq!(told(&pair(block(&[(1, D, 0)]), block(&[(4, D, 0)]))), bare(Bare::Back));
    assert_eq!(told(&pair(block(&[(4, D, 0)]), block(&[(0, D, 0)]))), bare(Bare::Back));
    // A base of the other segment is none of this read's.
    let listed = pair(block(&[(3, D, 0)]), block(&[(1, D, 0)])).listed().remove(0);
    assert_eq!((listed.segments[0].ecigar.as_str(), listed.segments[1].ecigar.as_str()), ("3=1-1=", "1=1-3="));
}

// The Order. The tables of faults in records.rs and splices.rs have the deletion among all others.

/// Each edit is accepted by itself before the deletions are looked at.
#[test]
fn order_what_is_wrong_with_an_edit_comes_first() {
    let front = (0, D, 0);
    assert_eq!(told(&four(&[front])), bare(Bare::Front));
    assert_eq!(told(&four(&[front, (1, 3, 0)])), Some(Refusal::BlockValue));
    assert_eq!(told(&four(&[front, (1, D, 1)])), Some(Refusal::BlockValue));
    assert_eq!(told(&four(&[front, (1, S, 5)])), Some(Refusal::Symbol));
    assert_eq!(told(&four(&[front, (1, IN, 5)])), Some(Refusal::Symbol));
    assert_eq!(told(&four(&[front, (4, S, 0)])), Some(Refusal::Offset));
    assert_eq!(told(&four(&[front, (5, D, 0)])), Some(Refusal::Offset));
    assert_eq!(told(&four(&[front, (2, S, 0), (2, S, 0)])), Some(Refusal::Offset));
    // At the back a deletion may be followed by deletions alone.
    assert_eq!(told(&four(&[(4, D, 0), (4, D, 1)])), Some(Refusal::BlockValue));
    assert_eq!(told(&four(&[(4, D, 0), (4, IN, 0)])), Some(Refusal::Offset));
    assert_eq!(told(&four(&[(4, D, 0), (3, D, 0)])), Some(Refusal::Offset));
    assert_eq!(told(&four(&[(4, D, 0), (4, D, 0)])), bare(Bare::Back));
    // All 1,001 of them: their number comes before them.
    assert_eq!(told(&four(&[front; 1_001])), Some(Refusal::BlockValue));
    assert_eq!(told(&four(&[front; 1_000])), bare(Bare::Front));
}

/// A frame that ends before the last edit is complete is short (2), whatever stands in front of it.
#[test]
fn order_the_frame_s_end_comes_first() {
    for edits in [&[(0, D, 0), (2, S, 1), (4, D, 0)][..], &[(0, IN, 0), (1, D, 0), (1, D, 0)]] {
        let whole = four(edits);
        assert_eq!(whole.refusal(), Some((0, 12)));
        for cut in 0..whole.records[0].len() {
            let mut unit = whole.clone();
            unit.records[0].truncate(cut);
            assert_eq!(told(&unit), Some(Refusal::Frame), "cut at {cut}");
        }
    }
    // An edit more is announced than there is.
    let mut unit = four(&[(0, D, 0)]);
    let count = unit.records[0].len() - 5;
    unit.records[0][count] = 2;
    assert_eq!(told(&unit), Some(Refusal::Frame));
}

/// 13 of the segment and 10 of the reference come behind it.
#[test]
fn order_before_the_place_and_the_reference() {
    let with = |pos: u32, edits: Edits| {
        let mut unit = given(I).with(record(pos, &[block(edits)]));
        unit.reference[..8].fill(5);
        told(&unit)
    };
    // Before the unit, behind it, ending behind it; and inside it, over bad reference bytes.
    let position = Refusal::Position;
    for (pos, otherwise) in [(99, position), (2_100, position), (2_097, position), (100, Refusal::Symbol)] {
        assert_eq!(with(pos, &[(0, D, 0)]), bare(Bare::Front), "at {pos}");
        assert_eq!(with(pos, &[(4, D, 0)]), bare(Bare::Back), "at {pos}");
        assert_eq!(with(pos, &[(1, D, 0)]), Some(otherwise), "at {pos}");
    }
}

/// The same of every piece: not even the first one's place is told before it.
#[test]
fn order_before_all_pieces() {
    let with = |position: u32, bad: Option<usize>, edits: Edits| {
        let mut unit = two_of_three(edits);
        unit.symbols[3] = vec![position];
        if let Some(bad) = bad {
            unit.reference[bad - 100] = 5;
        }
        told(&unit)
    };
    for (position, bad) in [(0, None), (103, None), (2_099, None), (110, Some(101)), (110, Some(111))] {
        assert_eq!(with(position, bad, &[(0, D, 0)]), bare_over_introns(Bare::Front), "{position}, {bad:?}");
        assert_eq!(with(position, bad, &[(6, D, 0)]), bare_over_introns(Bare::Back), "{position}, {bad:?}");
        let otherwise = with(position, bad, &[]).map(Refusal::number);
        assert_eq!(otherwise, Some(if bad.is_some() { 10 } else { 13 }), "{position}, {bad:?}");
    }
    // The symbols of the pieces, and the clips, are taken and looked at long before.
    let mut none = two_of_three(&[(0, D, 0)]);
    none.symbols[0].clear();
    assert_eq!(none.refusal(), Some((0, 5)));
    let mut clipped = two_of_three(&[]);
    clipped.records = vec![record(100, &[block_pieces(6, 0, &[3, 3], [3, 0, 0, 0], &[(0, D, 0)])])];
    assert_eq!(clipped.refusal(), Some((0, 9)));
}

/// A first segment's comes before anything of the second block, a second one's behind all of the first.
#[test]
fn order_between_two_segments() {
    let front = || block(&[(0, D, 0)]);
    let seconds = [
        (vec![], 2),
        (vec![0], 2),
        (block_i(0, [0; 4], &[]), 8),
        // No code is left for its second piece.
        (block_pieces(4, 0, &[2, 2], [0; 4], &[]), 5),
        (block_i(4, [4, 0, 0, 0], &[]), 9),
        (block(&[(1, S, 5)]), 10),
        (block(&[(1, 3, 0)]), 11),
        (block(&[(9, S, 0)]), 12),
    ];
    for (second, otherwise) in seconds {
        assert_eq!(told(&pair(front(), second.clone())), bare(Bare::Front), "{otherwise}");
        assert_eq!(pair(block(&[(1, D, 0)]), second).refusal(), Some((0, otherwise)));
    }
    let mut unit = pair(block(&[]), front());
    assert_eq!(told(&unit), bare(Bare::Front));
    unit.reference[1] = 5;
    assert_eq!(told(&unit), Some(Refusal::Symbol));
    unit.au_start = 101;
    assert_eq!(told(&unit), Some(Refusal::Position));
    // The second lies outside: its own deletion is told first.
    let mut unit = pair(block(&[]), front());
    unit.symbols[1] = vec![4_000];
    assert_eq!(told(&unit), bare(Bare::Front));
}

/// Left-over bytes (2) and room (17) come last.
#[test]
fn order_before_what_is_left_over_and_room() {
    let mut unit = four(&[(4, D, 0)]);
    unit.records[0].push(0);
    assert_eq!(told(&unit), bare(Bare::Back));
    let numbers = oracle::UnitNumbers {
        class: unit.class,
        alphabet: unit.alphabet,
        template_segments: unit.template_segments,
        sequence_id: unit.sequence_id,
        first: unit.first,
        au_start: unit.au_start,
        au_end: unit.au_end,
        record_count: unit.count(),
    };
    for (edits, expected) in [(&[(4, D, 0)], 12), (&[(3, D, 0)], 17)] {
        let line = line(&record(100, &[block(edits)]));
        let answer = oracle::record(&numbers, &unit.reference, &unit.symbols, &[0; 8], &[0; 9], &line, 0);
        assert_eq!(answer.map_err(Refusal::number).err(), Some(expected));
    }
}

/// With one mapped base no deletion is accepted, so the longest line of reads in one piece clips a base less a block.
#[test]
fn the_longest_line_of_reads_in_one_piece() {
    let with = |left, right| {
        let block = block_i(1_000, [left, 0, right, 0], &[(1, D, 0); 1_000]);
        let unit = pair(block.clone(), block);
        (unit.lines()[9].len() - 1, unit.refusal().map_or(0, |(_, number)| number))
    };
    assert_eq!(with(499, 499), (20_066, 0));
    assert_eq!(with(500, 499), (20_070, 12));
}
