//! Reads over introns: document 02's Wish 1, decisions 72 to 79, Tables 62 and 94.

mod common;
use common::*;

const S: u8 = SUBSTITUTION;
const IN: u8 = INSERTION;
const D: u8 = DELETION;

/// A unit of class I with one template segment, so that all symbols are those of splices. Reference: the letter of
/// position p is A, C, G or T as p leaves 0, 1, 2 or 3 when divided by 4; AU 100 to 2,099.
fn unit(pos: u32, block: Vec<u8>, symbols: &[(usize, u32)]) -> Given {
    let mut unit = given(I).with(record(pos, &[block]));
    for (subsequence, value) in symbols {
        unit.symbols[*subsequence].push(*value);
    }
    unit
}

/// Two pieces of three bases, the second 7 behind where the first ends by its length; forward.
fn two_of_three(edits: &[(u16, u8, u8)]) -> Given {
    unit(100, block_pieces(6, 0, &[3, 3], [0; 4], edits), &[(0, 0), (1, 14)])
}

fn text(unit: &Given) -> (String, String) {
    let segment = unit.segment();
    (segment.ecigar, segment.bases)
}

fn says(unit: &Given, ecigar: &str, bases: &str) {
    assert_eq!(text(unit), (ecigar.into(), bases.into()));
}

fn refused(unit: &Given) -> u8 {
    unit.refusal().map_or(0, |(_, number)| number)
}

// The frame.

/// Document 01's examples of class I in the frames of this format: the number 1 and the read length stand behind rcomp.
#[test]
fn a_read_in_one_piece_says_so() {
    let examples = [
        ("03 00000064 0006 00 01 0006 0002 0000 0000 0003 0000 0002 0001 01 00 0002 01 00", "(2)1=2+1=[3]"),
        ("03 00000064 0003 00 01 0003 0000 0000 0000 0000 0002 0001 02 00 0001 02 00", "1=2-2="),
        ("03 00000064 0003 00 01 0003 0000 0000 0000 0000 0002 0001 02 00 0001 00 02", "1=1-G1="),
        ("03 00000064 0004 00 01 0004 0000 0000 0000 0000 0002 0001 01 00 0003 01 00", "1=1+1=1+"),
        ("03 00000064 0003 00 01 0003 0001 0002 0000 0000 00 0000", "(1)2="),
    ];
    for (frame, ecigar) in examples {
        let unit = given(I).with(unhex(&frame.replace(' ', "")));
        assert_eq!(unit.segment().ecigar, ecigar);
    }
    let frame = "03 00000064 0003 00 01 0003 0000 0000 0000 0000 0002 0001 00 02 0001 02 00";
    assert_eq!(refused(&given(I).with(unhex(&frame.replace(' ', "")))), 12);
    assert_eq!(hex(&record(100, &[block_i(3, [1, 2, 0, 0], &[])])), "03000000640003000100030001000200000000030000");
}

/// Classes P, N and M have neither the number nor the lengths, and their rcomp is 0 or 1.
#[test]
fn other_classes_are_as_they_were() {
    for (class, block) in [(P, block_p(4)), (N, block_n(4, &[1])), (M, block_m(4, &[(1, 2)]))] {
        for rcomp in 0..4 {
            let mut block = block.clone();
            block[2] = rcomp;
            let unit = given(class).with(record(100, &[block]));
            assert_eq!(refused(&unit), if rcomp > 1 { 11 } else { 0 }, "class {class}, rcomp {rcomp}");
        }
    }
}

// The two ends of a piece.

/// Table 62 counts a distance from the piece's position and its read length; Table 94 counts a splice from what the piece
/// takes of the reference.
#[test]
fn the_two_ends_of_a_piece_differ() {
    // The first piece lies at 200, has 8 read bases, 2 of them soft-clipped, one inserted, and 2 deletions.
    //   By its read length it ends at 200 + 8 = 208; by what it takes (6 mapped - 1 + 2 = 7) at 207.
    //   Without the soft clip it would end at 206, with all three at 209.
    // The second piece lies 10 behind the first of these ends: 218. The splice counts 218 - 207 = 11.
    //   Counted from 207 in both tables it would lie at 217 and the splice count 10; from 208 in both it would lie at
    //   218 and the splice count 10; from 207 in Table 62 and 208 in Table 94: 217 and 9.
    // First piece, offsets 0 to 5: A at 200, G inserted, C at 201, 202 and 203 deleted, ACG at 204.
    // Second piece, offsets 6 to 11: GT at 218, T for the base at 220, CGT at 221.
    let edits = [(1, IN, 2), (3, D, 0), (3, D, 0), (8, S, 3)];
    let block = |rcomp| block_pieces(14, rcomp, &[8, 6], [2, 9, 0, 0], &edits);
    let symbols = [(0, 0), (1, 20)];
    let bases = "TTAGCACGGTTCGT";
    says(&unit(200, block(0), &symbols), "(2)1=1+1=2-3=11/2=T3=", bases);
    says(&unit(200, block(1), &symbols), "(2)1=1+1=2-3=11%2=T3=", bases);
    says(&unit(200, block(2), &symbols), "(2)1=1+1=2-3=11*2=T3=", bases);
    // A position in its place says the same: 218 from subsequence 3.
    says(&unit(200, block(0), &[(0, 2), (3, 218)]), "(2)1=1+1=2-3=11/2=T3=", bases);
    // The next piece begins where the first ends by what it takes, at 207: its splice counts 0, though by Table 62's
    // end it is one base behind (208 - 1). One further is the least.
    assert_eq!(refused(&unit(200, block(0), &[(0, 0), (1, 3)])), 13);
    says(&unit(200, block(0), &[(0, 0), (1, 0)]), "(2)1=1+1=2-3=1/2=T3=", "TTAGCACGACTTAC");
}

/// More deletions than insertions and clipped bases: the piece takes more than it has bases.
#[test]
fn a_piece_may_take_more_than_its_read_bases() {
    // First piece at 100: 3 bases, 5 deletions in front of the last: takes 8, to 107. Table 62's end is 103.
    let edits = [(2, D, 0); 5];
    let with = |value| unit(100, block_pieces(5, 0, &[3, 2], [0; 4], &edits), &[(0, 0), (1, value)]);
    // 4 behind 103 lies inside what the first piece takes; 5 behind it at its end; 6 behind is a splice of 1.
    assert_eq!(refused(&with(8)), 13);
    assert_eq!(refused(&with(10)), 13);
    says(&with(12), "2=5-1=1/2=", "ACTCG");
}

/// Soft clips of both sides, insertions in the middle: every next piece lies before Table 62's end.
#[test]
fn distances_that_are_negative() {
    // Piece 0 at 300: 5 bases, 3 of them soft-clipped: takes 300 and 301. Piece 1: 300 + 5 - 1 = 304, 304 - 302 = 2.
    // Piece 1: 4 bases, two of them inserted: takes 304 and 305. Piece 2: 304 + 4 - 1 = 307, 307 - 306 = 1.
    // Piece 2: 3 bases, the last soft-clipped: takes 307 and 308.
    let edits = [(3, IN, 1), (4, IN, 1)];
    let block = block_pieces(12, 1, &[5, 4, 3], [3, 0, 1, 7], &edits);
    let unit = |values: [u32; 2]| unit(300, block.clone(), &[(0, 0), (1, values[0]), (0, 0), (1, values[1])]);
    says(&unit([3, 3]), "(3)2=2%1=2+1=1%2=(1)", "TTTACACCCTAT");
    // No distance, once with either sign: 305 and 308, and then 305 and 309.
    says(&unit([0, 3]), "(3)2=3%1=2+1=1%2=(1)", "TTTACCCCGACT");
    says(&unit([1, 1]), "(3)2=3%1=2+1=2%2=(1)", "TTTACCCCGCGT");
    // One position less: the second splice would count 0.
    assert_eq!(refused(&unit([3, 5])), 13);
    assert_eq!(refused(&unit([7, 3])), 13);
}

// Edits and pieces.

/// A deletion between two pieces belongs to the one that begins there.
#[test]
fn a_deletion_at_a_border() {
    // The second piece lies at 103 + 7 = 110 and deletes 110 and 111; its bases are ACG from 112 on. Were the deletions
    // the first piece's, it would read 3=2-5/3= and GTA.
    says(&two_of_three(&[(3, D, 0), (3, D, 0)]), "3=7/2-3=", "ACGACG");
    // In front of the last base of all: the last piece's.
    says(&two_of_three(&[(5, D, 0)]), "3=7/2=1-1=", "ACGGTC");
    // Behind the first: the first's, which then takes 4, to 103: the splice counts 110 - 104 = 6.
    says(&two_of_three(&[(1, D, 0)]), "1=1-2=6/3=", "AGTGTA");
    // One on each side of the last base of the first piece: one before 102, one of 110.
    says(&two_of_three(&[(2, D, 0), (3, D, 0)]), "2=1-1=6/1-3=", "ACTTAC");
    // A deletion, then another edit at the same offset, which is the second piece's first base.
    says(&two_of_three(&[(3, D, 0), (3, S, 0)]), "3=7/1-A2=", "ACGAAC");
    says(&two_of_three(&[(3, D, 0), (3, IN, 0)]), "3=7/1-1+2=", "ACGATA");
}

/// Edits beside a splice: no run goes over it.
#[test]
fn edits_across_a_border() {
    // The first piece takes 100 and 101: the splice counts 110 - 102 = 8.
    says(&two_of_three(&[(2, IN, 3), (3, IN, 3)]), "2=1+8/1+2=", "ACTTGT");
    says(&two_of_three(&[(2, IN, 3), (3, D, 0), (3, IN, 3)]), "2=1+8/1-1+2=", "ACTTTA");
    // Substitutions beside it, and matches: 3= and 3= do not become 6=.
    says(&two_of_three(&[(2, S, 3), (3, S, 3)]), "2=T7/T2=", "ACTTTA");
    says(&two_of_three(&[]), "3=7/3=", "ACGGTA");
    // All bases edited, and the order of offsets goes on through both pieces.
    let all: Vec<_> = (0..6).map(|offset| (offset, S, 1)).collect();
    says(&two_of_three(&all), "CCC7/CCC", "CCCCCC");
    assert_eq!(refused(&two_of_three(&[(3, S, 0), (2, S, 0)])), 12);
    assert_eq!(refused(&two_of_three(&[(3, S, 0), (3, D, 0)])), 12);
    assert_eq!(refused(&two_of_three(&[(6, S, 0)])), 12);
    assert_eq!(refused(&two_of_three(&[(7, D, 0)])), 12);
}

/// Offsets count mapped bases: a left soft clip moves the border.
#[test]
fn offsets_count_from_the_first_mapped_base() {
    // Three bases, two of them clipped: the first piece has offset 0, the second 1 to 3. 100 + 3 + 7 = 110; 110 - 101.
    let with =
        |edits: &[(u16, u8, u8)]| unit(100, block_pieces(7, 2, &[3, 4], [2, 0, 1, 0], edits), &[(0, 0), (1, 14)]);
    says(&with(&[(0, S, 2), (1, S, 3)]), "(2)G9*T2=(1)", "TTGTTAT");
    says(&with(&[(1, D, 0)]), "(2)1=9*1-3=(1)", "TTATACT");
    says(&with(&[(3, D, 0)]), "(2)1=9*2=1-1=(1)", "TTAGTCT");
    assert_eq!(refused(&with(&[(4, S, 0)])), 12);
}

#[test]
fn a_piece_of_insertions_only() {
    // 100 and 101; the second piece at 102 + 8 = 110 takes nothing; the third at 110 + 2 - 1 = 111: 111 - 110 = 1.
    let with = |value| {
        let block = block_pieces(6, 0, &[2, 2, 2], [0; 4], &[(2, IN, 3), (3, IN, 3)]);
        unit(100, block, &[(0, 0), (1, 16), (0, 0), (1, value)])
    };
    says(&with(3), "2=8/2+1/2=", "ACTTTA");
    assert_eq!(refused(&with(5)), 13);
    // As the first and as the last piece; in the last position of the unit, but not behind it.
    let last = |position| unit(2_090, block_pieces(2, 0, &[1, 1], [0; 4], &[(1, IN, 0)]), &[(0, 2), (3, position)]);
    says(&last(2_099), "1=8/1+", "GA");
    assert_eq!(refused(&last(2_100)), 13);
    let first = |position| unit(100, block_pieces(2, 0, &[1, 1], [0; 4], &[(0, IN, 0)]), &[(0, 2), (3, position)]);
    says(&first(101), "1+1/1=", "AC");
    assert_eq!(refused(&first(100)), 13);
}

// Signs.

#[test]
fn rcomp_of_reads_that_may_have_splices() {
    for rcomp in 0..=255 {
        let one = unit(100, block_pieces(2, rcomp, &[2], [0; 4], &[]), &[]);
        let two = unit(100, block_pieces(2, rcomp, &[1, 1], [0; 4], &[]), &[(0, 0), (1, 2)]);
        if rcomp > 2 {
            assert_eq!((refused(&one), refused(&two)), (11, 11));
            continue;
        }
        assert_eq!((one.segment().rcomp, one.segment().ecigar.as_str()), (rcomp, "2="));
        let sign = ['/', '%', '*'][usize::from(rcomp)];
        assert_eq!((two.segment().rcomp, two.segment().ecigar), (rcomp, format!("1=1{sign}1=")));
    }
    // One rcomp a read: all splices have the same sign.
    let block = block_pieces(3, 2, &[1, 1, 1], [0; 4], &[]);
    says(&unit(100, block, &[(0, 0), (1, 2), (0, 2), (3, 110)]), "1=1*1=7*1=", "AGG");
}

// Symbols.

/// Table 60's symbols come first, then the first block's, then the second's.
#[test]
fn symbols_of_two_spliced_segments() {
    // Code 0 and 101: read1First 0, the mate at 100 + 50. First block: code 2, 110. Second: code 0 and 4, 150 + 2 + 2;
    // code 2 and 160.
    let blocks = [block_pieces(4, 0, &[2, 2], [0; 4], &[]), block_pieces(6, 1, &[2, 2, 2], [0; 4], &[])];
    let mut unit = given(I).with(record(100, &blocks));
    unit.template_segments = 2;
    unit.symbols[0] = vec![0, 2, 0, 2];
    unit.symbols[1] = vec![101, 4];
    unit.symbols[3] = vec![110, 160];
    let listed = unit.listed().remove(0);
    assert_eq!(listed.indexes, [4, 2, 0, 2, 0, 0, 0, 0]);
    assert_eq!((listed.read1_first, listed.mate), (0, (7, 150)));
    let segments: Vec<_> = listed.segments.iter().map(|s| (s.position, s.rcomp, s.ecigar.as_str())).collect();
    assert_eq!(segments, [(100, 0, "2=8/2="), (150, 1, "2=2%2=4%2=")]);
    // One symbol more is left over, one less is missed.
    for subsequence in [0, 1, 3] {
        let mut more = unit.clone();
        more.symbols[subsequence].push(0);
        assert_eq!(more.refusal(), Some((1, 14)));
        let mut less = unit.clone();
        less.symbols[subsequence].pop();
        assert_eq!(less.refusal(), Some((0, 5)));
    }
}

#[test]
fn the_mate_s_position_and_a_splice_s_from_one_subsequence() {
    // Pair code 2 takes the first symbol of subsequence 3, the splice the second.
    let mut unit = unit(100, block_pieces(4, 0, &[2, 2], [0; 4], &[]), &[(0, 2), (0, 2), (3, 900), (3, 110)]);
    unit.template_segments = 2;
    let listed = unit.listed().remove(0);
    assert_eq!((listed.mate, listed.segments[0].ecigar.as_str()), ((7, 900), "2=8/2="));
    assert_eq!(listed.indexes, [2, 0, 0, 2, 0, 0, 0, 0]);
}

/// In HM the first block alone is aligned and takes symbols.
#[test]
fn half_mapped_reads_have_splices() {
    let blocks = [block_pieces(4, 2, &[1, 3], [0; 4], &[(1, D, 0)]), block_u(&[3, 3])];
    let mut unit = given(HM).with(record(100, &blocks)).with(record(100, &blocks));
    unit.symbols[0] = vec![0, 2];
    unit.symbols[1] = vec![1, 6, 0];
    unit.symbols[3] = vec![102];
    let listed = unit.listed();
    // 100 + 1 + 3 = 104, of which the first is deleted.
    assert_eq!((listed[0].segments[0].ecigar.as_str(), listed[0].segments[0].bases.as_str()), ("1=3*1-3=", "ACGT"));
    assert_eq!(listed[0].indexes, [1, 2, 0, 0, 0, 0, 0, 0]);
    assert_eq!((listed[1].segments[0].ecigar.as_str(), listed[1].segments[0].bases.as_str()), ("1=1*1-3=", "ATAC"));
    assert_eq!(listed[1].indexes, [2, 3, 0, 1, 0, 0, 0, 0]);
    assert_eq!(listed[1].segments[1].ecigar, "");
}

#[test]
fn symbols_that_are_refused() {
    let with = |symbols: &[(usize, u32)]| refused(&unit(500, block_pieces(4, 0, &[2, 2], [0; 4], &[]), symbols));
    assert_eq!(with(&[(0, 0), (1, 0)]), 13);
    assert_eq!(with(&[(0, 0), (1, 2)]), 0);
    // Used up: the code, the value, the position.
    assert_eq!(with(&[]), 5);
    assert_eq!(with(&[(1, 2), (3, 600)]), 5);
    assert_eq!(with(&[(0, 0), (3, 600)]), 5);
    assert_eq!(with(&[(0, 2), (1, 2)]), 5);
    // Reserved codes, also such whose low bytes are a code.
    for code in [1, 3, 4, 5, 6, 7, 8, 0x100, 0x1_0000, 0x1_0002, 0x0100_0000, u32::MAX] {
        assert_eq!(with(&[(0, code), (1, 2), (2, 600), (3, 600)]), 6, "code {code}");
    }
    // The greatest value is a distance of 32,767, here below 0; the next is none, whatever its low bits are.
    assert_eq!(with(&[(0, 0), (1, 65_535)]), 13);
    for value in [65_536, 65_538, 0x0100_0002, u32::MAX] {
        assert_eq!(with(&[(0, 0), (1, value)]), 7, "value {value}");
    }
    // A position may be any u32.
    assert_eq!(with(&[(0, 2), (3, u32::MAX)]), 13);
    // Symbols come in order: the first splice's value before the second's code.
    let three = |symbols: &[(usize, u32)]| refused(&unit(500, block_pieces(4, 0, &[2, 1, 1], [0; 4], &[]), symbols));
    assert_eq!(three(&[(0, 0), (0, 9), (1, 65_536)]), 7);
    assert_eq!(three(&[(0, 0), (0, 9), (1, 2)]), 6);
    assert_eq!(three(&[(0, 0), (0, 9)]), 5);
    assert_eq!(three(&[(0, 9)]), 6);
    assert_eq!(three(&[(0, 0), (1, 2)]), 5);
}

/// With one piece no symbol is taken.
#[test]
fn one_piece_takes_no_symbol() {
    let unit = unit(100, block_i(4, [0; 4], &[]), &[]);
    assert_eq!(refused(&unit), 0);
    for subsequence in [0, 1, 3] {
        let mut more = unit.clone();
        more.symbols[subsequence].push(0);
        assert_eq!(more.refusal(), Some((1, 14)));
    }
}

// Numbers, lengths, clips.

#[test]
fn numbers_of_pieces_and_their_lengths() {
    let with = |length: u16, lengths: &[u16]| {
        let mut unit = unit(100, block_pieces(length, 0, lengths, [0; 4], &[]), &[]);
        for _ in 1..lengths.len() {
            unit.symbols[0].push(0);
            unit.symbols[1].push(2);
        }
        refused(&unit)
    };
    for number in 1..=16 {
        assert_eq!(with(number, &vec![1; usize::from(number)]), 0, "{number} pieces");
    }
    assert_eq!(with(1, &[]), 8);
    assert_eq!(with(17, &[1; 17]), 8);
    assert_eq!(with(255, &[1; 255]), 8);
    // A length of 0, also where the others make up the read.
    assert_eq!(with(4, &[0, 4]), 8);
    assert_eq!(with(4, &[4, 0]), 8);
    assert_eq!(with(4, &[2, 0, 2]), 8);
    // Sums of less and of more; as u16 the last two would be 4.
    for lengths in [&[3][..], &[5], &[2, 1], &[2, 3], &[1, 1, 1], &[65_535, 5], &[32_768, 32_768, 4]] {
        assert_eq!(with(4, lengths), 8, "{lengths:?}");
    }
    assert_eq!(with(4, &[2, 2]), 0);
    assert_eq!(with(1_000, &[999, 1]), 0);
}

#[test]
fn soft_clips_leave_each_piece_a_base() {
    let with = |lengths: &[u16], left, right| {
        let length = lengths.iter().sum();
        let mut unit = unit(100, block_pieces(length, 0, lengths, [left, 0, right, 0], &[]), &[]);
        for _ in 1..lengths.len() {
            unit.symbols[0].push(0);
            unit.symbols[1].push(20);
        }
        refused(&unit)
    };
    assert_eq!(with(&[4, 3], 3, 2), 0);
    assert_eq!(with(&[4, 3], 4, 0), 9);
    assert_eq!(with(&[4, 3], 0, 3), 9);
    assert_eq!(with(&[4, 3], 5, 0), 9);
    assert_eq!(with(&[4, 3], 0, 6), 9);
    assert_eq!(with(&[4, 3], 65_535, 65_535), 9);
    assert_eq!(with(&[1, 1], 1, 0), 9);
    assert_eq!(with(&[1, 1], 0, 1), 9);
    assert_eq!(with(&[3, 5, 3], 3, 0), 9);
    assert_eq!(with(&[3, 1, 3], 2, 2), 0);
    // With one piece the two are taken together, as before.
    assert_eq!(with(&[7], 3, 3), 0);
    assert_eq!(with(&[7], 3, 4), 9);
    assert_eq!(with(&[7], 6, 0), 0);
}

// Positions.

#[test]
fn pieces_outside_the_unit() {
    let block = |length: u16, lengths: &[u16]| block_pieces(length, 0, lengths, [0; 4], &[]);
    let at = |position| refused(&unit(150, block(4, &[2, 2]), &[(0, 2), (3, position)]));
    // The first piece takes 150 and 151. Before the unit, before the first piece, upon it, at its end, behind it.
    for (position, expected) in [(0, 13), (99, 13), (100, 13), (149, 13), (150, 13), (151, 13), (152, 13), (153, 0)] {
        assert_eq!(at(position), expected, "at {position}");
    }
    // AU end is 2,099.
    for (position, expected) in [(2_098, 0), (2_099, 13), (2_100, 13), (u32::MAX, 13)] {
        assert_eq!(at(position), expected, "at {position}");
    }
    // Below 0 and past every u32; wrapped, both would lie well inside a unit over all positions.
    let wide = |pos: u32, lengths: &[u16], symbols: &[(usize, u32)]| {
        let mut unit = unit(pos, block(lengths.iter().sum(), lengths), symbols);
        (unit.au_start, unit.au_end) = (0, u32::MAX);
        unit
    };
    assert_eq!(refused(&wide(0, &[2, 2], &[(0, 0), (1, 5)])), 13);
    assert_eq!(refused(&wide(0, &[2, 2], &[(0, 0), (1, 7)])), 13);
    assert_eq!(refused(&wide(u32::MAX - 1, &[2, 2], &[(0, 0), (1, 20)])), 13);
    // 2^32 - 4 and its next: the piece of 2^32 - 1 is the last there is.
    says(&wide(u32::MAX - 3, &[2, 1], &[(0, 0), (1, 2)]), "2=1/1=", "NNN");
    assert_eq!(refused(&wide(u32::MAX - 3, &[2, 1], &[(0, 0), (1, 4)])), 13);
    assert_eq!(refused(&wide(u32::MAX - 3, &[2, 2], &[(0, 0), (1, 2)])), 13);
    // A piece that lies outside is counted on from, and the read is refused by that piece, not healed by the next.
    assert_eq!(refused(&wide(0, &[2, 2, 2], &[(0, 0), (1, 2_001), (0, 0), (1, 4_000)])), 13);
    assert_eq!(refused(&wide(u32::MAX - 1, &[2, 2, 2], &[(0, 0), (1, 20), (0, 0), (1, 2_001)])), 13);
    assert_eq!(refused(&wide(0, &[2, 2, 2], &[(0, 0), (1, 2_001), (0, 2), (3, 100)])), 13);
}

/// The distance counts on from a piece that lies below 0 or past 2^32, without wrapping. The oracle's own tale of the
/// fault shows where the next one came to lie.
#[test]
fn the_first_piece_that_is_misplaced_is_told() {
    use oracle::{Fault, Refusal};
    let fault = |pos: u32, region: (u32, u32), symbols: &[(usize, u32)]| {
        let mut unit = unit(pos, block_pieces(4, 0, &[2, 2], [0; 4], &[]), symbols);
        (unit.au_start, unit.au_end) = region;
        match oracle::listing_and_refusal(&unit.reference_file(), &unit.file()).1 {
            Some(Refusal::Splices(fault)) => fault,
            other => panic!("{other:?}"),
        }
    };
    let all = (0, u32::MAX);
    assert_eq!(fault(0, all, &[(0, 0), (1, 7)]), Fault::BelowZero);
    assert_eq!(fault(u32::MAX - 1, all, &[(0, 0), (1, 0)]), Fault::PastAll);
    assert_eq!(fault(100, (100, 200), &[(0, 0), (1, 7)]), Fault::BeforeUnit);
    assert_eq!(fault(100, (100, 200), &[(0, 2), (3, 201)]), Fault::BehindUnit);
    assert_eq!(fault(100, (100, 200), &[(0, 2), (3, 200)]), Fault::EndsBehindUnit);
    assert_eq!(fault(100, (100, 200), &[(0, 2), (3, 102)]), Fault::NoSplice);
    assert_eq!(fault(100, (100, 200), &[(0, 2), (3, 101)]), Fault::NegativeSplice);
}

/// The greatest distance, and a position for what lies further.
#[test]
fn long_splices() {
    let with = |symbols: &[(usize, u32)]| {
        let mut unit = unit(1_000, block_pieces(4, 1, &[2, 2], [0; 4], &[]), symbols);
        unit.au_end = u32::MAX;
        unit.segment().ecigar
    };
    assert_eq!(with(&[(0, 0), (1, 65_534)]), "2=32767%2=");
    assert_eq!(with(&[(0, 2), (3, 1_002 + 32_768)]), "2=32768%2=");
    assert_eq!(with(&[(0, 2), (3, u32::MAX - 1)]), format!("2={}%2=", u32::MAX - 1 - 1_002));
}

/// Each piece's bases come from its own position; what is not lent reads as N.
#[test]
fn pieces_about_the_lent_reference() {
    let mut unit = unit(100, block_pieces(9, 0, &[3, 3, 3], [0; 4], &[]), &[(0, 2), (3, 106), (0, 2), (3, 111)]);
    (unit.first, unit.reference) = (102, vec![1; 10]);
    // 100 to 102, 106 to 108, 111 to 113; lent are 102 to 111.
    says(&unit, "3=3/3=2/3=", "NNCCCCCNN");
    unit.reference.clear();
    says(&unit, "3=3/3=2/3=", "NNNNNNNNN");
}

#[test]
fn a_bad_reference_byte_under_a_later_piece() {
    // 100 to 102, then 110 to 112 with a substitution at 111.
    let at = |place: usize| {
        let mut unit = two_of_three(&[(4, S, 0)]);
        unit.reference[place - 100] = 5;
        refused(&unit)
    };
    for place in 100..=113 {
        let under_a_match = [100, 101, 102, 110, 112].contains(&place);
        assert_eq!(at(place), if under_a_match { 10 } else { 0 }, "at {place}");
    }
}

// The Order.

/// The faults of a record of class I with three pieces and a second segment of two, in the Order, each with its number.
const FAULTS: [(&str, u8); 32] = [
    ("pair code", 6),
    ("pair value", 7),
    ("read length", 8),
    ("rcomp", 11),
    ("number of pieces", 8),
    ("length 0", 8),
    ("length 2", 8),
    ("sum of lengths", 8),
    ("code of splice 1", 6),
    ("value of splice 1", 7),
    ("position of splice 2", 5),
    ("left clip", 9),
    ("right clip", 9),
    ("soft base", 10),
    ("edit count", 11),
    ("edit 1 type", 11),
    ("edit 1 symbol", 10),
    ("edit 1 offset", 12),
    ("edit 2 offset", 12),
    ("deletion at the front", 12),
    ("place of piece 0", 13),
    ("reference under piece 0", 10),
    ("place of piece 1", 13),
    ("reference under piece 1", 10),
    ("place of piece 2", 13),
    ("reference under piece 2", 10),
    ("second number of pieces", 8),
    ("second code", 6),
    ("second clip", 9),
    ("second place", 13),
    ("second reference", 10),
    ("left-over byte", 2),
];

/// The unit with these faults and no other. Every fault changes its own field or symbol and leaves the layout as it is.
/// Piece 0: 1,000 to 1,002, one of 4 read bases clipped and the next substituted, or a deletion in front of it. Piece 1
/// at 1,000 + 4 + 6 = 1,010: 2 bases, one of them substituted. Piece 2 at 1,020: 3 bases, the last clipped; a deletion in
/// front of it. The mate: 1,100 and 1,110.
fn faulty(faults: &[usize]) -> Given {
    let has = |name: &str| faults.iter().any(|fault| FAULTS[*fault].0 == name);
    let pick = |name: &str, bad: u32, good: u32| if has(name) { bad } else { good };
    let two = |value: u32| (value as u16).to_be_bytes();
    let mut frame = vec![3];
    frame.extend(pick("place of piece 0", 99, 1_000).to_be_bytes());
    frame.extend(two(pick("read length", 1_001, 9)));
    frame.push(pick("rcomp", 3, 2) as u8);
    frame.push(pick("number of pieces", 17, 3) as u8);
    frame.extend(two(pick("length 0", 0, 4)));
    frame.extend(two(pick("sum of lengths", 3, 2)));
    frame.extend(two(pick("length 2", 0, 3)));
    for clip in [pick("left clip", 4, 1), 0, pick("right clip", 3, 1), 0] {
        frame.extend(two(clip));
    }
    frame.extend([0, pick("soft base", 5, 1) as u8]);
    frame.extend(two(pick("edit count", 1_001, 3)));
    frame.extend([0, 0, pick("deletion at the front", 2, 0) as u8, 0]);
    frame.extend(two(pick("edit 1 offset", 7, 4)));
    frame.extend([pick("edit 1 type", 3, 0) as u8, pick("edit 1 symbol", 5, 4) as u8]);
    frame.extend(two(pick("edit 2 offset", 4, 5)));
    frame.extend([2, 0]);
    frame.extend([0, 2, 0, pick("second number of pieces", 0, 2) as u8, 0, 1, 0, 1]);
    frame.extend(two(pick("second clip", 1, 0)));
    frame.extend([0; 8]);
    if has("left-over byte") {
        frame.push(0);
    }
    let mut given = given(I).with(frame);
    given.template_segments = 2;
    given.symbols[0] = vec![pick("pair code", 7, 0), pick("code of splice 1", 1, 0), 2, pick("second code", 3, 2)];
    let misplaced = pick("place of piece 1", 3, 12);
    given.symbols[1] = vec![pick("pair value", 65_536, 200), pick("value of splice 1", 65_536, misplaced)];
    let third = pick("place of piece 2", 1_012, 1_020);
    given.symbols[3] = vec![third, pick("second place", 2_100, 1_110)];
    if has("position of splice 2") {
        given.symbols[3].clear();
    }
    for (name, position) in [
        ("reference under piece 0", 1_002),
        ("reference under piece 1", 1_010),
        ("reference under piece 2", 1_021),
        ("second reference", 1_110),
    ] {
        given.reference[position - 100] = pick(name, 5, 0) as u8;
    }
    given
}

#[test]
fn order_without_faults_is_accepted() {
    let listed = faulty(&[]).listed().remove(0);
    assert_eq!(listed.indexes, [4, 2, 0, 2, 0, 0, 0, 0]);
    assert_eq!(listed.segments[0].ecigar, "(1)A2=7*1=N8*1-2=(1)");
    assert_eq!((listed.segments[1].position, listed.segments[1].ecigar.as_str()), (1_100, "1=9/1="));
}

#[test]
fn order_each_fault_alone_and_before_every_later_one() {
    for (first, (name, number)) in FAULTS.into_iter().enumerate() {
        assert_eq!(faulty(&[first]).refusal(), Some((0, number)), "{name}");
        for (second, (other, _)) in FAULTS.into_iter().enumerate().skip(first + 1) {
            assert_eq!(faulty(&[first, second]).refusal(), Some((0, number)), "{name}, then {other}");
        }
        let rest: Vec<_> = (first..FAULTS.len()).collect();
        assert_eq!(faulty(&rest).refusal(), Some((0, number)), "{name} and all behind it");
    }
}

/// A frame cut anywhere is short (2), unless something that is complete is refused first. The symbols are taken once the
/// last length is complete, and before anything of the clips.
#[test]
fn order_fields_are_checked_when_complete() {
    let complete = [
        ("pair code", 1),
        ("read length", 7),
        ("rcomp", 8),
        ("number of pieces", 9),
        ("length 0", 11),
        ("length 2", 15),
        ("sum of lengths", 15),
        ("code of splice 1", 15),
        ("value of splice 1", 15),
        ("position of splice 2", 15),
        ("left clip", 23),
        ("right clip", 23),
        ("soft base", 25),
        ("edit 1 offset", 35),
        ("deletion at the front", 39),
        ("place of piece 0", 39),
        ("place of piece 1", 39),
        ("reference under piece 1", 39),
        ("place of piece 2", 39),
        ("second number of pieces", 43),
        ("second code", 47),
        ("second clip", 55),
        ("second place", 57),
    ];
    for (name, needed) in complete {
        let fault = FAULTS.iter().position(|fault| fault.0 == name).unwrap();
        let whole = faulty(&[fault]);
        for cut in 0..whole.records[0].len() {
            let mut unit = whole.clone();
            unit.records[0].truncate(cut);
            // Without its kind a frame says nothing.
            let expected = if cut < needed { 2 } else { FAULTS[fault].1 };
            assert_eq!(unit.refusal(), Some((0, expected)), "{name}, cut at {cut}");
        }
    }
    let whole = faulty(&[]);
    assert_eq!(whole.records[0].len(), 57);
    for cut in 0..whole.records[0].len() {
        let mut unit = whole.clone();
        unit.records[0].truncate(cut);
        assert_eq!(unit.refusal(), Some((0, 2)), "cut at {cut}");
    }
}

/// 13 and 10 alternate: of two pieces the first one's bad reference byte is told before the second one's place.
#[test]
fn order_13_and_10_alternate_over_the_pieces() {
    let with = |bad: Option<usize>, position| {
        let mut unit = unit(100, block_pieces(4, 0, &[2, 2], [0; 4], &[]), &[(0, 2), (3, position)]);
        if let Some(bad) = bad {
            unit.reference[bad - 100] = 5;
        }
        refused(&unit)
    };
    assert_eq!(with(Some(101), 0), 10);
    assert_eq!(with(None, 0), 13);
    assert_eq!(with(Some(111), 110), 10);
    assert_eq!(with(Some(111), 0), 13);
}

// Limits.

/// Sixteen pieces, a deletion between any two of 1,000 bases, hard clips of five digits, and counts as long as can be:
/// fifteen of at least nine digits, and no more than three of ten, as four would make 4 * 10^9 + 11 * 10^8 positions (four
/// of ten, two of nine and nine of eight would fit, and have eight digits less). So the text has
/// 2 * 1,000 + 2 * 999 + 2 * 7 + 12 * 10 + 3 * 11 = 4,165 characters; the limit is what fifteen counts of ten digits would
/// need.
fn longest_block() -> (Vec<u8>, Vec<u32>) {
    let mut lengths = [62; 16];
    lengths[15] = 70;
    let edits: Vec<_> = (1..1_000).map(|offset| (offset, D, 0)).collect();
    let mut positions = Vec::new();
    // What the pieces take: 62 bases and a deletion in front of each, but not of the first.
    let mut end = 62 + 61;
    for number in 1..16 {
        let count = if number <= 12 { 100_000_000 } else { 1_000_000_000 };
        positions.push(end + count);
        end += count + 2 * 62;
    }
    (block_pieces(1_000, 2, &lengths, [0, 65_535, 0, 65_535], &edits), positions)
}

fn longest_unit() -> Given {
    let (block, positions) = longest_block();
    let mut unit = given(I).with(record(0, &[block.clone(), block]));
    (unit.au_start, unit.au_end, unit.template_segments) = (0, u32::MAX, 2);
    unit.symbols[0] = [vec![0], vec![2; 30]].concat();
    unit.symbols[1] = vec![0];
    unit.symbols[3] = [&positions[..], &positions].concat();
    unit
}

#[test]
fn the_longest_ecigar_and_listed_line() {
    let unit = longest_unit();
    let segments = unit.listed().remove(0).segments;
    assert_eq!(segments[0].ecigar, segments[1].ecigar);
    let text = &segments[0].ecigar;
    assert_eq!(text.len(), 4_165);
    assert!(text.len() <= oracle::limits::ECIGAR_MAX && oracle::limits::ECIGAR_MAX == 4_177);
    assert!(text.starts_with("[65535]1=1-1=1-"));
    assert!(text.ends_with("1=1-1=[65535]"));
    assert_eq!(text.matches("1=100000000*1-1=").count(), 12);
    assert_eq!(text.matches("1=1000000000*1-1=").count(), 3);
    let listing = unit.listing();
    let line = listing.split_inclusive(|byte| *byte == b'\n').nth(1).unwrap();
    // 20,140 digits without splices, and 153 characters more in each of two E-CIGARs.
    assert_eq!(line.len(), 20_140 + 2 * 2 * 153 + 1);
    assert!(line.len() <= LISTED_DIGITS + 1);
}

/// A record of the longest line there may be is refused: its clips leave some piece no base. The longest that is accepted
/// has a base in each of its 16 pieces.
#[test]
fn the_longest_input_lines() {
    // The second piece takes its base and 1,000 deletions, so the third lies at least 1,001 behind its read length's end.
    let with = |left: u16, right: u16, more: usize| {
        let mut lengths = [1; 16];
        lengths[0] = 500;
        lengths[15] = 486;
        let block = block_pieces(1_000, 0, &lengths, [left, 0, right, 0], &[(1, D, 0); 1_000]);
        let mut unit = given(I).with([record(0, &[block.clone(), block]), vec![0; more]].concat());
        (unit.au_start, unit.au_end, unit.template_segments) = (0, u32::MAX, 2);
        unit.symbols[0] = [vec![0], vec![0; 30]].concat();
        unit.symbols[1] = [vec![0], vec![2_002; 30]].concat();
        (unit.lines()[9].len() - 1, refused(&unit))
    };
    // 984 clipped bases a block, 15 fewer than with one piece.
    assert_eq!(with(499, 485, 0), (LINE_DIGITS - 2 * 2 * 15, 0));
    assert_eq!(with(500, 499, 0), (LINE_DIGITS, 9));
    assert_eq!(with(500, 499, 1), (LINE_DIGITS + 2, 1));
    assert_eq!(with(499, 485, 30), (LINE_DIGITS, 2));
    assert_eq!(with(499, 485, 31), (LINE_DIGITS + 2, 1));
}

/// Listings with splices are resumed like any other: the indexes carry the place.
#[test]
fn listings_with_splices_are_resumed() {
    let block = block_pieces(6, 1, &[2, 2, 2], [0; 4], &[]);
    let mut unit = given(I);
    unit.records = [100, 200, 300].map(|pos| record(pos, std::slice::from_ref(&block))).to_vec();
    unit.symbols[0] = vec![0, 2, 2, 0, 0, 0];
    unit.symbols[1] = vec![8, 10, 12, 14];
    unit.symbols[3] = vec![150, 210];
    let listing = unit.listing();
    assert_eq!(refusal(&listing), None);
    assert_eq!(listed(&listing)[1].indexes, [4, 2, 0, 2, 0, 0, 0, 0]);
    for cut in 0..=listing.len() {
        for zeros in [0, 7] {
            assert_eq!(unit.resume(&[&listing[..cut], &vec![0; zeros]].concat()), listing, "cut at {cut}");
        }
    }
}
