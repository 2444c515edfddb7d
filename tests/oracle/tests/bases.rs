//! Bases, E-CIGAR and positions: decisions 12 to 15, Table 35, and the limits at their edges.

mod common;
use common::*;
use oracle::Refusal;

fn segment_i(length: u16, clips: [u16; 4], edits: &[(u16, u8, u8)]) -> ListedSegment {
    given(I).with(record(100, &[block_i(length, clips, edits)])).segment()
}

fn refused_i(length: u16, clips: [u16; 4], edits: &[(u16, u8, u8)]) -> u8 {
    given(I).with(record(100, &[block_i(length, clips, edits)])).refusal().map_or(0, |(_, number)| number)
}

#[test]
fn reading_14_two_pointers_and_not_table_42() {
    // Reference ACGTAC from 100. Table 42 would take the last base from 105 (C), counting both edits alike.
    let segment = segment_i(4, [0; 4], &[(1, INSERTION, 3), (2, DELETION, 0)]);
    assert_eq!((segment.bases.as_str(), segment.ecigar.as_str()), ("ATGT", "1=1+1-2="));
}

// Decision 13 names an example of the standard that is no vector: there is nothing to run.

#[test]
fn reading_16_a_padded_base_is_n_in_either_alphabet() {
    for alphabet in [0, 1] {
        let mut unit = given(P).with(record(100, &[block_p(10)]));
        unit.alphabet = alphabet;
        unit.first = 103;
        unit.reference = vec![2; 4];
        assert_eq!(unit.segment().bases, "NNNGGGGNNN");
        unit.reference.clear();
        assert_eq!(unit.segment().bases, "NNNNNNNNNN");
        assert_eq!(unit.segment().ecigar, "10=");
    }
}

#[test]
fn padding_around_a_reference_that_lies_elsewhere() {
    let with = |first, length: usize| {
        let mut unit = given(P).with(record(500, &[block_p(4)]));
        (unit.first, unit.reference) = (first, vec![1; length]);
        unit.segment().bases
    };
    assert_eq!(with(0, 500), "NNNN");
    assert_eq!(with(0, 501), "CNNN");
    assert_eq!(with(0, 504), "CCCC");
    assert_eq!(with(503, 1), "NNNC");
    assert_eq!(with(504, 100), "NNNN");
    assert_eq!(with(501, 2), "NCCN");
    assert_eq!(with(u32::MAX, 1_000), "NNNN");
}

#[test]
fn padding_is_counted_like_any_base_by_edits() {
    // 100 to 102 are not lent. A deletion of 102 moves on into the lent part.
    let mut unit = given(I).with(record(100, &[block_i(4, [0; 4], &[(2, DELETION, 0)])]));
    unit.first = 103;
    assert_eq!(unit.segment().bases, "NNAC");
}

#[test]
fn reading_17_class_n_and_the_letter_minus() {
    let mut unit = given(N).with(record(100, &[block_n(5, &[1, 2, 4])]));
    assert_eq!(unit.segment().bases, "ANNTN");
    assert_eq!(unit.segment().ecigar, "1=NN1=N");
    unit.alphabet = 1;
    assert_eq!(unit.segment().bases, "ANNTN");
    // Inserted or substituted, index 15 is a base of the read; a deletion beside it stays a deletion.
    let mut minus = given(I)
        .with(record(100, &[block_i(4, [0; 4], &[(1, SUBSTITUTION, 15), (2, DELETION, 0), (2, INSERTION, 15)])]));
    minus.alphabet = 1;
    assert_eq!(minus.segment().bases, "A--T");
    assert_eq!(minus.segment().ecigar, "1=-1-1+1=");
}

#[test]
fn table_35_letter_by_letter() {
    let all: Vec<u8> = (0..16).collect();
    let mut unit = given(U).with(record(0, &[block_u(&all)]));
    unit.alphabet = 1;
    assert_eq!(unit.segment().bases, "ACGTRYSWKMBDHVN-");
    unit.alphabet = 0;
    assert_eq!(unit.refusal(), Some((0, 10)));
    unit.records = vec![record(0, &[block_u(&all[..5])])];
    assert_eq!(unit.segment().bases, "ACGTN");
    unit.alphabet = 1;
    unit.records = vec![record(0, &[block_u(&[16])])];
    assert_eq!(unit.refusal(), Some((0, 10)));
}

#[test]
fn table_92_clips_of_each_side() {
    let cases = [
        ([0, 0, 0, 0], "6="),
        ([0, 2, 0, 0], "[2]6="),
        ([0, 0, 0, 65_535], "6=[65535]"),
        ([0, 1, 0, 3], "[1]6=[3]"),
        ([2, 1, 0, 3], "(2)4=[3]"),
        ([0, 1, 2, 3], "[1]4=(2)"),
        ([2, 1, 2, 3], "(2)2=(2)"),
        ([5, 0, 0, 0], "(5)1="),
        ([0, 0, 5, 0], "1=(5)"),
    ];
    for (clips, expected) in cases {
        assert_eq!(segment_i(6, clips, &[]).ecigar, expected, "{clips:?}");
    }
}

#[test]
fn soft_clipped_bases_stand_left_then_right() {
    let block = [&unhex("000500")[..], &pieces(&[5]), &unhex("0002000000010000"), &[0, 1, 2], &unhex("0000")].concat();
    let segment = given(I).with(record(103, &[block])).segment();
    assert_eq!((segment.bases.as_str(), segment.ecigar.as_str()), ("ACTAG", "(2)2=(1)"));
}

#[test]
fn table_93_runs() {
    let (s, i, d) = (SUBSTITUTION, INSERTION, DELETION);
    type Case<'a> = (&'a [(u16, u8, u8)], &'a str, &'a str);
    let cases: [Case; 9] = [
        (&[(0, i, 3), (1, i, 3), (2, i, 3), (3, i, 3)], "4+", "TTTT"),
        (&[(0, s, 3), (1, s, 3), (2, s, 3), (3, s, 3)], "TTTT", "TTTT"),
        (&[(1, i, 3), (2, d, 0), (2, i, 3)], "1=1+1-1+1=", "ATTG"),
        (&[(1, d, 0), (1, i, 3), (2, d, 0)], "1=1-1+1-2=", "ATTA"),
        (&[(1, i, 3), (2, s, 0), (3, i, 3)], "1=1+A1+", "ATAT"),
        (&[(1, d, 0), (2, d, 0)], "1=1-1=1-2=", "AGAC"),
        (&[(1, d, 0), (1, s, 3), (2, d, 0)], "1=1-T1-2=", "ATAC"),
        (&[(3, d, 0), (3, d, 0)], "3=2-1=", "ACGC"),
        (&[(3, i, 2)], "3=1+", "ACGG"),
    ];
    for (edits, ecigar, bases) in cases {
        let segment = segment_i(4, [0; 4], edits);
        assert_eq!((segment.ecigar.as_str(), segment.bases.as_str()), (ecigar, bases), "{edits:?}");
    }
}

#[test]
fn counts_in_base_ten() {
    for count in [1, 9, 10, 11, 99, 100, 101, 999, 1_000] {
        assert_eq!(segment_i(count, [0; 4], &[]).ecigar, format!("{count}="));
        let deletions = vec![(1, DELETION, 0); usize::from(count)];
        assert_eq!(segment_i(2, [0; 4], &deletions).ecigar, format!("1={count}-1="));
    }
}

#[test]
fn offsets_at_their_edges() {
    let (s, i, d) = (SUBSTITUTION, INSERTION, DELETION);
    // Read length 6, soft clips 1 and 1: the mapped length is 4.
    let clips = [1, 0, 1, 0];
    for (kind, first, last) in [(s, 0, 3), (i, 0, 3), (d, 1, 3)] {
        for offset in [first, 1, 2, last] {
            assert_eq!(refused_i(6, clips, &[(offset, kind, 0)]), 0, "type {kind} at {offset}");
        }
        for offset in [last + 1, last + 2, u16::MAX] {
            assert_eq!(refused_i(6, clips, &[(offset, kind, 0)]), 12, "type {kind} at {offset}");
        }
    }
    // The offset of a deletion may be the mapped length and may be 0: it is the whole read that lacks a base then.
    let told = |offset| {
        let unit = given(I).with(record(100, &[block_i(6, clips, &[(offset, d, 0)])]));
        oracle::listing_and_refusal(&unit.reference_file(), &unit.file()).1
    };
    assert!([0, 4].into_iter().all(|offset| matches!(told(offset), Some(Refusal::Deletion { .. }))));
    assert!([5, 6, u16::MAX].into_iter().all(|offset| told(offset) == Some(Refusal::Offset)));
    for (first, least) in [(s, 3), (i, 3), (d, 2)] {
        for second in [s, i, d] {
            assert_eq!(refused_i(6, clips, &[(2, first, 0), (least, second, 0)]), 0, "{second} after {first}");
            assert_eq!(refused_i(6, clips, &[(2, first, 0), (least - 1, second, 0)]), 12, "{second} after {first}");
        }
    }
    assert_eq!(refused_i(6, clips, &[(3, d, 0), (3, d, 0)]), 0);
    assert_eq!(refused_i(6, clips, &[(2, s, 0), (3, d, 0)]), 0);
    assert_eq!(refused_i(6, clips, &[(3, d, 0), (4, s, 0)]), 12);
}

#[test]
fn offsets_in_classes_n_and_m() {
    let refused_n =
        |offsets: &[u16]| given(N).with(record(100, &[block_n(4, offsets)])).refusal().map(|refusal| refusal.1);
    let refused_m =
        |edits: &[(u16, u8)]| given(M).with(record(100, &[block_m(4, edits)])).refusal().map(|refusal| refusal.1);
    for (offsets, expected) in
        [([0, 3], None), ([2, 3], None), ([1, 1], Some(12)), ([2, 1], Some(12)), ([3, 4], Some(12))]
    {
        assert_eq!(refused_n(&offsets), expected, "{offsets:?}");
        assert_eq!(refused_m(&offsets.map(|offset| (offset, 1))), expected, "{offsets:?}");
    }
}

#[test]
fn read_lengths_at_their_edges() {
    for (length, expected) in
        [(0, Some((0, 8))), (1, None), (1_000, None), (1_001, Some((0, 8))), (65_535, Some((0, 8)))]
    {
        assert_eq!(given(P).with(record(100, &[block_p(length)])).refusal(), expected);
        // As many bases as a line has room for: the length is refused before they are looked at.
        let bases = vec![0; usize::from(length.min(1_001))];
        let unaligned = [&length.to_be_bytes()[..], &bases].concat();
        assert_eq!(given(U).with(record(0, &[unaligned])).refusal(), expected);
    }
}

#[test]
fn soft_clips_at_their_edges() {
    for (length, left, right, expected) in [
        (1, 0, 0, 0),
        (1, 1, 0, 9),
        (1, 0, 1, 9),
        (10, 9, 0, 0),
        (10, 5, 4, 0),
        (10, 5, 5, 9),
        (10, 10, 0, 9),
        (10, 0, 65_535, 9),
        (10, 65_535, 65_535, 9),
        // As u16 the sum would be 1.
        (10, 65_535, 2, 9),
        (1_000, 0, 999, 0),
        (1_000, 0, 1_000, 9),
    ] {
        assert_eq!(refused_i(length, [left, 0, right, 0], &[]), expected, "{length}, {left}, {right}");
    }
}

#[test]
fn edit_counts_at_their_edges() {
    let deletions = |count| vec![(1, DELETION, 0); count];
    assert_eq!(refused_i(2, [0; 4], &deletions(1_000)), 0);
    assert_eq!(refused_i(2, [0; 4], &deletions(1_001)), 11);
    let substitutions: Vec<_> = (0..1_000).map(|offset| (offset, 2)).collect();
    assert_eq!(given(M).with(record(100, &[block_m(1_000, &substitutions)])).segment().ecigar, "G".repeat(1_000));
    // The count is looked at before the edits, of which none is there.
    let frame = [&record(100, &[block_p(5)])[..], &[0x03, 0xe9]].concat();
    assert_eq!(given(N).with(frame.clone()).refusal(), Some((0, 11)));
    let frame = [&frame[..frame.len() - 2], &[0x03, 0xe8]].concat();
    assert_eq!(given(N).with(frame).refusal(), Some((0, 2)));
}

#[test]
fn rcomp_is_passed_through() {
    for rcomp in 0..=255 {
        let mut block = block_p(4);
        block[2] = rcomp;
        let unit = given(P).with(record(100, &[block]));
        if rcomp > 1 {
            assert_eq!(unit.refusal(), Some((0, 11)));
        } else {
            let segment = unit.segment();
            assert_eq!((segment.rcomp, segment.bases.as_str()), (rcomp, "ACGT"));
        }
    }
}

#[test]
fn positions_at_the_edges_of_the_unit() {
    let refused = |pos, block: Vec<u8>| given(I).with(record(pos, &[block])).refusal().map_or(0, |(_, number)| number);
    let matches = |length| block_i(length, [0; 4], &[]);
    assert_eq!(refused(99, matches(1)), 13);
    assert_eq!(refused(100, matches(1)), 0);
    assert_eq!(refused(2_099, matches(1)), 0);
    assert_eq!(refused(2_099, matches(2)), 13);
    assert_eq!(refused(2_100, matches(1)), 13);
    assert_eq!(refused(0, matches(1)), 13);
    assert_eq!(refused(u32::MAX, matches(1)), 13);
    // Soft clips take no reference; an insertion neither; a deletion does.
    assert_eq!(refused(2_099, block_i(5, [2, 0, 2, 0], &[])), 0);
    assert_eq!(refused(2_099, block_i(3, [0; 4], &[(0, INSERTION, 0), (1, INSERTION, 0)])), 0);
    assert_eq!(refused(2_097, block_i(2, [0; 4], &[(1, DELETION, 0)])), 0);
    assert_eq!(refused(2_098, block_i(2, [0; 4], &[(1, DELETION, 0)])), 13);
    // Nothing is taken, but the position has to be in the unit all the same.
    let nothing = || block_i(1, [0; 4], &[(0, INSERTION, 0)]);
    assert_eq!(refused(2_099, nothing()), 0);
    assert_eq!(refused(2_100, nothing()), 13);
    assert_eq!(refused(99, nothing()), 13);
}

#[test]
fn a_unit_of_one_position() {
    let with = |start: u32, pos, length| {
        let mut unit = given(P).with(record(pos, &[block_p(length)]));
        (unit.au_start, unit.au_end) = (start, start);
        unit.refusal()
    };
    for start in [0, 1, u32::MAX] {
        assert_eq!(with(start, start, 1), None);
        assert_eq!(with(start, start, 2), Some((0, 13)));
        assert_eq!(with(start, start ^ 1, 1), Some((0, 13)));
    }
}

#[test]
fn class_u_knows_no_unit_region() {
    let mut unit = given(U).with(record(0, &[block_u(&[1, 2])]));
    (unit.au_start, unit.au_end) = (5, 5);
    assert_eq!(unit.segment(), ListedSegment { position: 0, rcomp: 0, bases: "CG".into(), ecigar: "".into() });
}

/// 1,000 matches with a deletion between any two of them, between the longest hard clips. Each base and each of the 999
/// gaps has two characters, and no edit list has more: the edit that is left over makes no count longer.
fn longest_block() -> Vec<u8> {
    let edits: Vec<_> = (1..1_000).map(|offset| (offset, DELETION, 0)).collect();
    block_i(1_000, [0, 65_535, 0, 65_535], &edits)
}

#[test]
fn the_longest_ecigar() {
    let segment = given(I).with(record(100, &[longest_block()])).segment();
    assert_eq!(segment.ecigar, format!("[65535]{}1=[65535]", "1=1-".repeat(999)));
    assert_eq!(segment.ecigar.len(), 4_012);
    // The thousandth deletion is refused behind the last base, where it would have two characters; elsewhere it has none.
    let with = |last| {
        let edits: Vec<_> = (1..1_000).chain([last]).map(|offset| (offset, DELETION, 0)).collect();
        given(I).with(record(100, &[block_i(1_000, [0, 65_535, 0, 65_535], &edits)]))
    };
    assert_eq!(with(1_000).refusal(), Some((0, 12)));
    assert_eq!(with(999).segment().ecigar, format!("[65535]{}1=2-1=[65535]", "1=1-".repeat(998)));
    assert_eq!(with(999).segment().ecigar.len(), 4_012);
}

/// Of reads without splices.
#[test]
fn the_longest_listed_line() {
    let unit = given(I).symbol(0, 0).symbol(1, 0).with(record(100, &[longest_block(), longest_block()]));
    let listing = unit.listing();
    assert_eq!(refusal(&listing), None);
    let line = listing.split_inclusive(|byte| *byte == b'\n').nth(1).unwrap();
    // 28 bytes and two segments of 9 + 1,000 + 4,012, two digits each, and the 0A.
    assert_eq!(line.len(), 20_141);
}

#[test]
fn a_unit_of_1_024_records_with_all_symbols() {
    let mut unit = given(P);
    unit.template_segments = 2;
    for _ in 0..1_024 {
        unit.symbols[0].push(0);
        unit.symbols[1].push(2);
        unit.records.push(record(100, &[block_p(1), block_p(1)]));
    }
    let listed = unit.listed();
    assert_eq!(listed.len(), 1_024);
    assert_eq!(listed[1_023].indexes, [1_024, 1_024, 0, 0, 0, 0, 0, 0]);
    assert!(unit.listing().ends_with(b"\n060400\n"));
}
