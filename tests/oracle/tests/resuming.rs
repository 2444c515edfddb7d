//! Resuming: document 01's section of that name, decisions 44 to 46.

mod common;
use common::*;

const REFUSED_15: &[u8] = b"05ffff0f\n";
const REFUSED_16: &[u8] = b"05ffff10\n";

/// Three records, with pair symbols that move the indexes.
fn paired() -> Given {
    given(P)
        .symbol(0, 5)
        .symbol(0, 0)
        .symbol(1, 9)
        .symbol(0, 3)
        .symbol(4, 2)
        .symbol(6, 77)
        .with(record(100, &[block_p(3)]))
        .with(record(105, &[block_p(2), block_p(1)]))
        .with(record(110, &[block_p(1)]))
}

/// Units of which each ends its listing in another way.
fn several() -> Vec<Given> {
    let mut left_over = paired();
    left_over.symbols[7].push(1);
    let mut missing = paired();
    missing.record_count = Some(5);
    let mut refused_later = paired();
    refused_later.records[1][6] = 0;
    let mut refused_pairs = paired();
    refused_pairs.symbols[3] = vec![0; 1_025];
    let mut refused_unit = paired();
    refused_unit.alphabet = 2;
    let mut refused_reference = paired();
    refused_reference.reference = vec![0; 32_769];
    let unaligned = given(U).with(record(0, &[block_u(&[0, 1, 2])])).with(record(0, &[block_u(&[3])]));
    let half_mapped = given(HM).symbol(1, 1).with(record(100, &[block_i(3, [1, 0, 0, 2], &[]), block_u(&[2])]));
    let mut used_up = paired();
    used_up.symbols[1].clear();
    vec![
        paired(),
        given(M),
        unaligned,
        half_mapped,
        left_over,
        missing,
        refused_later,
        refused_pairs,
        refused_unit,
        refused_reference,
        used_up,
    ]
}

fn lines_of(listing: &[u8]) -> Vec<Vec<u8>> {
    listing.split_inclusive(|byte| *byte == b'\n').map(<[u8]>::to_vec).collect()
}

fn spoilt(line: &[u8], at: usize, byte: u8) -> Vec<u8> {
    let mut line = line.to_vec();
    line[at] = byte;
    line
}

#[test]
fn a_listing_cut_anywhere_is_resumed() {
    for (number, unit) in several().iter().enumerate() {
        let listing = unit.listing();
        for cut in 0..=listing.len() {
            for zeros in [0, 1, 512] {
                let found = [&listing[..cut], &vec![0; zeros]].concat();
                assert_eq!(unit.resume(&found), listing, "unit {number}, cut at {cut}, {zeros} zero bytes");
            }
        }
    }
}

#[test]
fn a_listing_cut_twice_is_resumed() {
    for unit in [paired(), several().remove(6)] {
        let listing = unit.listing();
        for first in 0..=listing.len() {
            let once = unit.resume(&[&listing[..first], &[0; 3]].concat());
            for second in (0..=once.len()).step_by(7) {
                assert_eq!(unit.resume(&[&once[..second], &[0]].concat()), listing, "cut at {first}, then at {second}");
            }
        }
    }
}

#[test]
fn kept_is_what_stands_before_the_first_zero() {
    let cases: [(&[u8], &[u8]); 9] = [
        (b"", b""),
        (b"ab", b""),
        (b"ab\n", b"ab\n"),
        (b"ab\ncd", b"ab\n"),
        (b"ab\n\0\0", b"ab\n"),
        (b"ab\nc\0d\n", b"ab\n"),
        (b"\0ab\n", b""),
        (b"ab\0\ncd\n", b""),
        (b"\n\n", b"\n\n"),
    ];
    for (found, expected) in cases {
        assert_eq!(oracle::kept(found), expected, "{found:?}");
    }
}

#[test]
fn nothing_kept_starts_afresh() {
    for found in [&b""[..], b"\0", b"garbage", b"\0garbage\n"] {
        assert_eq!(paired().resume(found), paired().listing());
    }
}

#[test]
fn the_first_line_is_checked_first() {
    let lines = lines_of(&paired().listing());
    for at in 0..lines[0].len() - 1 {
        let first = spoilt(&lines[0], at, if lines[0][at] == b'0' { b'1' } else { b'0' });
        assert_eq!(paired().resume(&first), REFUSED_15, "digit {at}");
        // Also where the last line is no line at all.
        assert_eq!(paired().resume(&[&first[..], b"zz\n"].concat()), REFUSED_15);
    }
    assert_eq!(paired().resume(b"\n"), REFUSED_15);
    assert_eq!(paired().resume(&[b"\n", &lines[0][..]].concat()), REFUSED_15);
    let lettered = Given { sequence_id: 0xabcd, ..paired() };
    assert_eq!(lettered.resume(&line(&lettered.unit_frame()).to_ascii_uppercase()), REFUSED_15);
    // The first line of another unit, one that differs in its record count.
    let mut other = paired();
    other.record_count = Some(4);
    assert_eq!(other.resume(&lines[0]), REFUSED_15);
}

#[test]
fn last_lines_that_cannot_be_continued() {
    let unit = paired();
    let lines = lines_of(&unit.listing());
    let first = &lines[0];
    let after = |last: &[u8]| unit.resume(&[&first[..], last].concat());
    let frame = unhex(std::str::from_utf8(&lines[1]).unwrap().trim_end());
    let refused: Vec<Vec<u8>> = vec![
        b"\n".to_vec(),
        b"0\n".to_vec(),
        b"06000\n".to_vec(),
        b"06000G\n".to_vec(),
        b"06000A\n".to_vec(),
        line(&frame).to_ascii_uppercase(),
        line(&frame[..27]),
        line(&[6, 0]),
        line(&[6, 0, 3, 0]),
        line(&[5, 0, 0]),
        line(&[5, 0, 0, 1, 0]),
        line(&[0]),
        line(&[1, 0, 0]),
        line(&[2, 0, 0, 0]),
        line(&[7, 0, 0]),
        unit.lines()[1].clone(),
        unit.lines()[9].clone(),
        // Another unit line.
        line(&Given { class: N, ..unit.clone() }.unit_frame()),
    ];
    for last in refused {
        assert_eq!(after(&last), REFUSED_16, "{:?}", String::from_utf8_lossy(&last));
    }
}

#[test]
fn an_04_line_is_believed_when_it_can_be() {
    let unit = paired();
    let lines = lines_of(&unit.listing());
    let with = |number: u16, indexes: [u16; 8], length: usize| {
        let mut frame = vec![4];
        frame.extend(number.to_be_bytes());
        frame.extend(indexes.iter().flat_map(|index| index.to_be_bytes()));
        frame.resize(length, 0xee);
        [&lines[0][..], &line(&frame)].concat()
    };
    let counts = [3, 1, 0, 0, 1, 0, 1, 0];
    // True of record 0, but for what it does not need: 28 bytes suffice, and what they hold is believed.
    let found = with(0, [1, 0, 0, 0, 0, 0, 0, 0], 28);
    assert_eq!(unit.resume(&found), [&found[..], &lines[2..].concat()].concat());
    assert_eq!(unit.resume(&with(0, [1, 0, 0, 0, 0, 0, 0, 0], 27)), REFUSED_16);
    // Numbers up to the record count, indexes up to the symbol counts.
    let found = with(2, counts, 28);
    assert_eq!(unit.resume(&found), [&found[..], b"060003\n"].concat());
    assert_eq!(unit.resume(&with(3, counts, 28)), REFUSED_16);
    assert_eq!(unit.resume(&with(u16::MAX, counts, 28)), REFUSED_16);
    for subsequence in 0..8 {
        let mut above = counts;
        above[subsequence] += 1;
        assert_eq!(unit.resume(&with(2, above, 28)), REFUSED_16, "index {subsequence}");
    }
    // False, and believed: the symbols of record 1 are used up, or some are left over.
    let found = with(0, counts, 28);
    assert_eq!(unit.resume(&found), [&found[..], b"05000105\n"].concat());
    let found = with(2, [0; 8], 28);
    assert_eq!(unit.resume(&found), [&found[..], b"0500030e\n"].concat());
}

#[test]
fn the_longest_kept_line() {
    let unit = paired();
    let first = line(&unit.unit_frame());
    let with = |bytes: usize| {
        let mut frame = vec![0; bytes];
        frame[0] = 4;
        [&first[..], &line(&frame)].concat()
    };
    let bytes = LISTED_DIGITS / 2;
    assert_eq!(with(bytes).len() - first.len(), LISTED_DIGITS + 1);
    assert_ne!(unit.resume(&with(bytes)), REFUSED_16);
    assert_eq!(unit.resume(&with(bytes + 1)), REFUSED_16);
}

#[test]
fn an_end_is_believed() {
    let unit = paired();
    let first = line(&unit.unit_frame());
    for last in [&b"060000\n"[..], b"06ffff\n", b"05000000\n", b"05ffffff\n", b"0500010d\n"] {
        let found = [&first[..], last].concat();
        assert_eq!(unit.resume(&found), found);
        assert_eq!(unit.resume(&[&found[..], b"\0garbage\n"].concat()), found);
    }
}

#[test]
fn a_unit_line_at_the_end_is_gone_on_from() {
    let unit = paired();
    let lines = lines_of(&unit.listing());
    // Whatever stands between the first line and the last is not looked at.
    let found = [&lines[0][..], b"nonsense\n\n", &lines[0]].concat();
    assert_eq!(unit.resume(&found), [&found[..], &lines[1..].concat()].concat());
}

#[test]
fn an_04_line_needs_a_unit_that_can_be_read() {
    let lines = lines_of(&paired().listing());
    let refused_pairs = several().remove(7);
    let record_line = lines[1].clone();
    let found = [&line(&refused_pairs.unit_frame())[..], &record_line].concat();
    assert_eq!(refused_pairs.resume(&found), REFUSED_16);
    // A pair line that is missing.
    let unit = paired();
    let cut = unit.lines()[..8].concat();
    let found = [&lines[0][..], &record_line].concat();
    assert_eq!(oracle::resume(&unit.reference_file(), &cut, &found), REFUSED_16);
    // The unit or the reference refused: the first line is then the 05 line.
    for refused in [several().remove(8), several().remove(9)] {
        let first = refused.listing();
        assert_eq!(refused.resume(&[&first[..], &record_line].concat()), REFUSED_16);
        assert_eq!(refused.resume(&[&lines[0][..], &record_line].concat()), REFUSED_15);
    }
    // A missing unit line.
    assert_eq!(oracle::resume(b"", b"", &[b"0500000e\n", &record_line[..]].concat()), REFUSED_16);
}

#[test]
fn reading_19_a_refused_first_line_is_also_the_last() {
    for refused in [several().remove(8), several().remove(9)] {
        let listing = refused.listing();
        assert_eq!(lines_of(&listing).len(), 1);
        assert_eq!(refused.resume(&listing), listing);
        let doubled = [&listing[..], &listing].concat();
        assert_eq!(refused.resume(&doubled), doubled);
        let other_end = [&listing[..], b"060007\n"].concat();
        assert_eq!(refused.resume(&other_end), other_end);
        assert_eq!(refused.resume(b"05000001\n"), REFUSED_15);
    }
}

#[test]
fn reading_20_passed_over_by_their_newlines_only() {
    let unit = paired();
    let listing = unit.listing();
    let lines = unit.lines();
    let kept: Vec<u8> = lines_of(&listing)[..3].concat();
    // Records 0 and 1 have been listed; now their lines are nonsense of any length, the others as before.
    for nonsense in [b"\n".to_vec(), b"\0ZZ\n".to_vec(), [vec![b'x'; 50_000], vec![b'\n']].concat()] {
        let mut changed = lines.clone();
        changed[9] = nonsense.clone();
        changed[10] = nonsense;
        assert_eq!(oracle::resume(&unit.reference_file(), &changed.concat(), &kept), listing);
    }
    // They run out: before the first, between, and where the second has lost its 0A.
    for cut in [lines[..9].concat(), lines[..10].concat(), [&lines[..10].concat()[..], b"03"].concat()] {
        let expected = [&kept[..], b"0500020e\n"].concat();
        assert_eq!(oracle::resume(&unit.reference_file(), &cut, &kept), expected);
    }
    // The next line is missing, which is the record's own refusal and reads the same.
    let cut = lines[..11].concat();
    assert_eq!(oracle::resume(&unit.reference_file(), &cut, &kept), [&kept[..], b"0500020e\n"].concat());
    // After the last record the lines may run out as well.
    let all = lines_of(&listing)[..4].concat();
    assert_eq!(oracle::resume(&unit.reference_file(), &cut, &all), [&all[..], b"0500030e\n"].concat());
}

/// Decision 46: nothing of what was found is printed before a refusal, however much it is.
#[test]
fn reading_21_a_refused_resume_prints_its_line_alone() {
    let unit = paired();
    let first = line(&unit.unit_frame());
    let mut found = first.clone();
    for _ in 0..10_000 {
        found.extend(b"some line of which nothing is looked at\n");
    }
    assert_eq!(unit.resume(&found), REFUSED_16);
    found.extend(&first);
    assert_eq!(unit.resume(&found), [&found[..], &lines_of(&unit.listing())[1..].concat()].concat());
}
