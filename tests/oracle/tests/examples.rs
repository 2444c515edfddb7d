//! The small examples of document 01 and the slips that look right.

mod common;
use common::*;

fn ecigar(class: u8, block: Vec<u8>) -> String {
    given(class).with(record(100, &[block])).segment().ecigar
}

#[test]
fn example_1_all_matches() {
    assert_eq!(ecigar(P, block_p(5)), "5=");
}

#[test]
fn example_2_unknown_bases() {
    let segment = given(N).with(record(100, &[block_n(4, &[0, 3])])).segment();
    assert_eq!(segment.ecigar, "N2=N");
    assert_eq!(segment.bases, "NCGN");
}

/// Example 3 is the unit whose whole listing document 01 prints.
#[test]
fn example_3_the_whole_listing() {
    let reference = b"070001020300010203\n";
    let unit = "01030001000200000064000000640000006d0001\n02000000\n02010000\n02020000\n02030000\n02040000\n\
                02050000\n02060000\n02070000\n03000000660008000002000100000401\n";
    let expected = "01030001000200000064000000640000006d0001\n\
                    040000000000000000000000000000000000000100010000000000000000006600000847414143\
                    43544e4e0008313d41323d43333d\n060001\n";
    let listing = oracle::listing(reference, unit.as_bytes());
    assert_eq!(String::from_utf8(listing.clone()).unwrap(), expected);
    let segment = &listed(&listing)[0].segments[0];
    assert_eq!((segment.bases.as_str(), segment.ecigar.as_str()), ("GAACCTNN", "1=A2=C3="));
}

#[test]
fn example_4_clips_and_insertions() {
    let edits = [(1, INSERTION, 2), (2, INSERTION, 2)];
    let segment = given(I).with(record(100, &[block_i(6, [2, 0, 0, 3], &edits)])).segment();
    assert_eq!(segment.ecigar, "(2)1=2+1=[3]");
    assert_eq!(segment.bases, "TTAGGC");
}

#[test]
fn example_5_deletions_join() {
    let segment = given(I).with(record(100, &[block_i(3, [0; 4], &[(1, DELETION, 0), (1, DELETION, 0)])])).segment();
    assert_eq!(segment.ecigar, "1=2-2=");
    assert_eq!(segment.bases, "ATA");
}

#[test]
fn example_6_deletion_then_substitution() {
    let segment =
        given(I).with(record(100, &[block_i(3, [0; 4], &[(1, DELETION, 0), (1, SUBSTITUTION, 2)])])).segment();
    assert_eq!(segment.ecigar, "1=1-G1=");
    assert_eq!(segment.bases, "AGT");
}

#[test]
fn example_7_insertions_apart() {
    let segment = given(I).with(record(100, &[block_i(4, [0; 4], &[(1, INSERTION, 3), (3, INSERTION, 3)])])).segment();
    assert_eq!(segment.ecigar, "1=1+1=1+");
    assert_eq!(segment.bases, "ATCT");
}

#[test]
fn example_8_hard_beside_soft() {
    assert_eq!(ecigar(I, block_i(3, [1, 2, 0, 0], &[])), "(1)2=");
}

#[test]
fn example_9_the_letter_of_index_15() {
    let mut unit = given(M).with(record(100, &[block_m(3, &[(1, 15)])]));
    unit.alphabet = 1;
    assert_eq!(unit.segment().ecigar, "1=-1=");
    assert_eq!(unit.segment().bases, "A-G");
}

#[test]
fn example_10_mate_behind() {
    let listed = given(P).symbol(0, 0).symbol(1, 5).with(record(1_000, &[block_p(3), block_p(3)])).listed();
    assert_eq!((listed[0].read1_first, listed[0].mate), (0, (7, 1_002)));
    assert_eq!(listed[0].segments[1].position, 1_002);
}

#[test]
fn example_11_code_0_in_class_u() {
    let unit = given(U).symbol(0, 0).with(record(0, &[block_u(&[0, 1]), block_u(&[4])]));
    let listed = unit.listed();
    assert_eq!(listed[0].segments.len(), 2);
    assert_eq!(listed[0].indexes, [1, 0, 0, 0, 0, 0, 0, 0]);
    // A symbol in subsequence 1 is not touched either: it is left over.
    assert_eq!(unit.symbol(1, 5).refusal(), Some((1, 14)));
}

#[test]
fn example_12_deletion_where_a_base_is_spent() {
    let unit = given(I).with(record(100, &[block_i(3, [0; 4], &[(1, SUBSTITUTION, 2), (1, DELETION, 0)])]));
    assert_eq!(unit.refusal(), Some((0, 12)));
}

#[test]
fn example_13_the_last_length_and_the_last_position() {
    assert_eq!(ecigar(P, block_p(1_000)), "1000=");
    assert_eq!(given(P).with(record(100, &[block_p(1_001)])).refusal(), Some((0, 8)));
    // AU end is 2,099.
    assert_eq!(given(P).with(record(2_095, &[block_p(5)])).refusal(), None);
    assert_eq!(given(P).with(record(2_096, &[block_p(5)])).refusal(), Some((0, 13)));
}

#[test]
fn slip_adding_1_after_a_deletion() {
    // Accepted, and the two deletions join; had 1 been added this would be refused by 12.
    assert_eq!(ecigar(I, block_i(3, [0; 4], &[(2, DELETION, 0), (2, DELETION, 0), (2, SUBSTITUTION, 0)])), "2=2-A");
}

#[test]
fn slip_the_letter_minus_as_a_deletion() {
    // Two substitutions by '-' neither join nor move the reference alone: the third base is that of 102.
    let mut unit = given(M).with(record(100, &[block_m(3, &[(0, 15), (1, 15)])]));
    unit.alphabet = 1;
    assert_eq!(unit.segment().ecigar, "--1=");
    assert_eq!(unit.segment().bases, "--G");
}

#[test]
fn slip_refusing_a_substitution_that_equals_the_reference() {
    // 100 is A in the reference.
    let segment = given(M).with(record(100, &[block_m(2, &[(0, 0)])])).segment();
    assert_eq!((segment.bases.as_str(), segment.ecigar.as_str()), ("AC", "A1="));
}
