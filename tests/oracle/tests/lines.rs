//! Lines and files: decisions 1 to 5, 34 and 43, and the limits of lines, unit fields and pair lines.

mod common;
use common::*;
use oracle::hex::read_line;
use oracle::pairing::read_pair_line;
use oracle::reference::read_reference;
use oracle::unit::read_unit;
use oracle::Refusal;
use std::process::Command;

fn number<T>(answer: Result<T, Refusal>) -> u8 {
    answer.map_or_else(Refusal::number, |_| 0)
}

fn unit_number(text: &str) -> u8 {
    number(read_unit(&unhex(text)))
}

fn small() -> Given {
    given(P).with(record(100, &[block_p(3)])).with(record(101, &[block_p(4)]))
}

fn listing_of(file: &[u8]) -> Vec<u8> {
    oracle::listing(&small().reference_file(), file)
}

#[test]
fn reading_1_unit_fields_left_to_right() {
    assert_eq!(unit_number("0109"), 3);
    assert_eq!(unit_number("01"), 2);
    // Kind before everything, a value before the missing rest, left-over bytes last.
    assert_eq!(unit_number("0209"), 2);
    assert_eq!(unit_number("0101"), 2);
    assert_eq!(unit_number("010102"), 3);
    assert_eq!(unit_number("01010003"), 3);
    let whole = hex(&small().unit_frame());
    assert_eq!(unit_number(&whole), 0);
    assert_eq!(unit_number(&format!("{whole}00")), 2);
    let too_many = format!("{}040100", &whole[..36]);
    assert_eq!(unit_number(&too_many), 3);
}

#[test]
fn every_cut_of_a_good_unit_frame_is_short() {
    let frame = small().unit_frame();
    for cut in 0..frame.len() {
        assert_eq!(number(read_unit(&frame[..cut])), 2, "cut at {cut}");
    }
}

#[test]
fn unit_values() {
    let with = |class, alphabet, template_segments| {
        let mut unit = small();
        (unit.class, unit.alphabet, unit.template_segments) = (class, alphabet, template_segments);
        number(read_unit(&unit.unit_frame()))
    };
    for class in 0..=255 {
        let expected = |one: u8| if (1..=6).contains(&class) { one } else { 3 };
        assert_eq!(with(class, 0, 1), expected(if class == HM { 3 } else { 0 }), "class {class}, one segment");
        assert_eq!(with(class, 1, 2), expected(0), "class {class}, two segments");
    }
    for value in 2..=255 {
        assert_eq!(with(P, value, 1), 3);
    }
    for value in 0..=255 {
        assert_eq!(with(M, 0, value), if value == 1 || value == 2 { 0 } else { 3 });
    }
}

#[test]
fn au_end_not_below_start() {
    let with = |au_start, au_end| {
        let mut unit = small();
        (unit.au_start, unit.au_end) = (au_start, au_end);
        number(read_unit(&unit.unit_frame()))
    };
    assert_eq!(with(5, 5), 0);
    assert_eq!(with(5, 4), 3);
    assert_eq!(with(u32::MAX, u32::MAX), 0);
    assert_eq!(with(u32::MAX, u32::MAX - 1), 3);
    assert_eq!(with(0, u32::MAX), 0);
}

#[test]
fn reading_5_record_count() {
    let mut unit = small();
    unit.record_count = Some(1_024);
    assert_eq!(number(read_unit(&unit.unit_frame())), 0);
    unit.record_count = Some(1_025);
    assert_eq!(number(read_unit(&unit.unit_frame())), 3);
    // It stands alone in the listing.
    assert_eq!(unit.listing(), b"05000003\n");
}

#[test]
fn reading_1_pair_lines() {
    let pair = |text: &str, subsequence| number(read_pair_line(&unhex(text), subsequence));
    assert_eq!(pair("02030000", 3), 0);
    assert_eq!(pair("020300010000000a", 3), 0);
    assert_eq!(pair("03030000", 3), 2);
    assert_eq!(pair("02020000", 3), 2);
    assert_eq!(pair("0208ffff", 3), 2);
    assert_eq!(pair("0203", 3), 2);
    assert_eq!(pair("020304", 3), 2);
    // The count before the symbols, of which there are none here.
    assert_eq!(pair("02030401", 3), 4);
    assert_eq!(pair("0203ffff", 3), 4);
    assert_eq!(pair("02030400", 3), 2);
    assert_eq!(pair("0203000100000a", 3), 2);
    assert_eq!(pair("020300010000000a00", 3), 2);
    assert_eq!(number(read_pair_line(&pair_frame(7, &[9; 1_024]), 7)), 0);
    assert_eq!(number(read_pair_line(&pair_frame(7, &[9; 1_025]), 7)), 4);
}

#[test]
fn pair_lines_in_order_and_all_there() {
    let lines = small().lines();
    let mut swapped = lines.clone();
    swapped.swap(3, 4);
    assert_eq!(refusal(&listing_of(&swapped.concat())), Some((0, 2)));
    let mut dropped = lines.clone();
    dropped.remove(8);
    // A record line stands where subsequence 7 is wanted.
    assert_eq!(refusal(&listing_of(&dropped.concat())), Some((0, 2)));
    // The file ends where a pair line is wanted; the unit line stands before the refusal.
    let ended = listing_of(&lines[..8].concat());
    assert_eq!(ended, [&lines[0][..], b"0500000e\n"].concat());
}

#[test]
fn digits() {
    assert_eq!(read_line(b"00ff1a\n"), Ok(vec![0, 255, 26]));
    let refused: [&[u8]; 11] =
        [b"", b"0", b"00", b"0\n", b"000\n", b"0A\n", b"0g\n", b"0 \n", b"00\r\n", b"00\n\n", b"0\0\n"];
    for line in refused {
        assert_eq!(read_line(line), Err(Refusal::Digits), "{line:?}");
    }
    for byte in 0..=255u8 {
        let lower = byte.is_ascii_digit() || (b'a'..=b'f').contains(&byte);
        assert_eq!(read_line(&[b'1', byte, b'\n']).is_ok(), lower, "low digit {byte}");
        assert_eq!(read_line(&[byte, b'1', b'\n']).is_ok(), lower, "high digit {byte}");
    }
}

#[test]
fn reading_2_an_empty_line_has_no_kind() {
    assert_eq!(read_line(b"\n"), Ok(vec![]));
    assert_eq!(read_unit(&[]).unwrap_err(), Refusal::Frame);
    assert_eq!(listing_of(b"\n"), b"05000002\n");
    let mut lines = small().lines();
    lines[10] = b"\n".to_vec();
    assert_eq!(refusal(&listing_of(&lines.concat())), Some((1, 2)));
    assert_eq!(oracle::listing(b"\n", &small().file()), b"05000002\n");
}

#[test]
fn reading_3_ends_of_files() {
    let lines = small().lines();
    let whole = lines.concat();
    // Cut inside a line: 1. Cut behind one: 14. Where the last 0A is missing: 1.
    let mut starts = vec![0];
    for line in &lines {
        starts.push(starts.last().unwrap() + line.len());
    }
    for cut in 0..whole.len() {
        let complete = starts.iter().filter(|start| **start <= cut).count() - 1;
        let expected = if starts.contains(&cut) { 14 } else { 1 };
        let at = complete.saturating_sub(9) as u16;
        assert_eq!(refusal(&listing_of(&whole[..cut])), Some((at, expected)), "cut at {cut}");
    }
    assert_eq!(refusal(&listing_of(&whole)), None);
}

#[test]
fn reading_3_the_longest_input_line() {
    assert!(read_line(&[vec![b'0'; LINE_DIGITS], vec![b'\n']].concat()).is_ok());
    assert_eq!(read_line(&[vec![b'0'; LINE_DIGITS + 2], vec![b'\n']].concat()), Err(Refusal::Digits));
    // In a file: a long line of zeros has no kind of ours (2) up to the limit, and is too long past it (1).
    let with_record = |digits: usize, ended: bool| {
        let mut lines = small().lines();
        lines[10] = vec![b'0'; digits];
        if ended {
            lines[10].push(b'\n');
        }
        refusal(&listing_of(&lines.concat()))
    };
    assert_eq!(with_record(LINE_DIGITS, true), Some((1, 2)));
    assert_eq!(with_record(LINE_DIGITS + 2, true), Some((1, 1)));
    assert_eq!(with_record(LINE_DIGITS, false), Some((1, 1)));
    assert_eq!(with_record(100_000, false), Some((1, 1)));
    // The limit is the same in every kind of line.
    assert_eq!(oracle::listing(&[vec![b'0'; LINE_DIGITS + 2], vec![b'\n']].concat(), b""), b"05000001\n");
    assert_eq!(oracle::listing(&[vec![b'0'; LINE_DIGITS], vec![b'\n']].concat(), b""), b"05000002\n");
}

#[test]
fn reading_4_reference_lines() {
    let lines =
        |lengths: &[usize]| lengths.iter().map(|length| reference_line(&vec![0; *length])).collect::<Vec<_>>().concat();
    let number = |file: &[u8]| number(read_reference(file));
    assert_eq!(read_reference(b""), Ok(vec![]));
    assert_eq!(read_reference(b"070001\n07ff\n"), Ok(vec![0, 1, 255]));
    assert_eq!(number(b"07\n"), 2);
    assert_eq!(number(b"0700\n0800\n"), 2);
    assert_eq!(number(b"0700"), 1);
    assert_eq!(number(b"070\n"), 1);
    assert_eq!(number(&lines(&[1_000])), 0);
    assert_eq!(number(&lines(&[1_001])), 2);
    let mut full = vec![1_000; 32];
    full.push(768);
    assert_eq!(number(&lines(&full)), 0);
    full.push(1);
    assert_eq!(number(&lines(&full)), 2);
    full.truncate(32);
    full.push(769);
    assert_eq!(number(&lines(&full)), 2);
}

#[test]
fn reading_4_any_byte_unless_under_a_match() {
    let mut unit = given(I);
    unit.reference[1] = 5;
    unit.reference[2] = 200;
    unit.reference[3] = 255;
    // 101 to 103 are bad. Substituted, deleted, or not reached they are nobody's concern.
    let edits = [(1, SUBSTITUTION, 0), (2, DELETION, 0), (2, SUBSTITUTION, 4)];
    let skipped = unit.clone().with(record(100, &[block_i(3, [0; 4], &edits)]));
    assert_eq!(skipped.segment().bases, "AAN");
    assert_eq!(unit.clone().with(record(104, &[block_i(3, [0; 4], &[])])).segment().bases, "ACG");
    for pos in 101..=103 {
        assert_eq!(unit.clone().with(record(pos, &[block_i(1, [0; 4], &[])])).refusal(), Some((0, 10)));
    }
    assert_eq!(unit.with(record(100, &[block_i(3, [0; 4], &edits[..1])])).refusal(), Some((0, 10)));
    // Index 5 to 15 are bases in alphabet 1.
    let mut second = given(P).with(record(100, &[block_p(3)]));
    second.alphabet = 1;
    second.reference[..3].copy_from_slice(&[4, 5, 15]);
    assert_eq!(second.segment().bases, "RY-");
    second.reference[2] = 16;
    assert_eq!(second.refusal(), Some((0, 10)));
}

#[test]
fn the_reference_is_read_first() {
    assert_eq!(oracle::listing(b"08\n", b"0109\n"), b"05000002\n");
    assert_eq!(oracle::listing(b"", b"0109\n"), b"05000003\n");
    assert_eq!(oracle::listing(b"", b""), b"0500000e\n");
    assert_eq!(oracle::listing(b"", b"0"), b"05000001\n");
}

#[test]
fn reading_6_nothing_after_the_last_record() {
    for more in [&b"\n"[..], b"0", b"\0", b"03\n"] {
        assert_eq!(refusal(&listing_of(&[&small().file(), more].concat())), Some((2, 14)));
    }
    // The same without any record, and where symbols are left over.
    let none = given(P);
    assert_eq!(none.listing(), [line(&none.unit_frame()), b"060000\n".to_vec()].concat());
    assert_eq!(refusal(&oracle::listing(b"", &[&none.file()[..], b"0"].concat())), Some((0, 14)));
    for subsequence in 0..8 {
        let mut unit = small();
        unit.symbols[subsequence].push(0);
        assert_eq!(unit.refusal(), Some((2, 14)));
    }
}

#[test]
fn missing_records() {
    let mut unit = small();
    unit.record_count = Some(3);
    let listing = unit.listing();
    assert_eq!(refusal(&listing), Some((2, 14)));
    assert_eq!(listed(&listing).len(), 2);
}

/// Decision 34, of the programs: nothing on standard output, something on standard error.
#[test]
fn reading_7_a_file_that_cannot_be_read() {
    for (program, files) in [(env!("CARGO_BIN_EXE_oracle-list"), 2), (env!("CARGO_BIN_EXE_oracle-resume"), 3)] {
        let output = Command::new(program).args(vec!["/nowhere/at/all.hex"; files]).output().unwrap();
        assert!(!output.status.success());
        assert!(output.stdout.is_empty());
        assert!(!output.stderr.is_empty());
    }
}

#[test]
fn the_programs_print_what_the_functions_answer() {
    let folder = std::env::temp_dir().join(format!("oracle-lines-{}", std::process::id()));
    std::fs::create_dir_all(&folder).unwrap();
    let found = [&small().listing()[..60], &[0; 9]].concat();
    let contents =
        [("reference.hex", small().reference_file()), ("unit.hex", small().file()), ("found.hex", found.clone())];
    let paths = contents.map(|(name, bytes)| {
        std::fs::write(folder.join(name), bytes).unwrap();
        folder.join(name)
    });
    let list = Command::new(env!("CARGO_BIN_EXE_oracle-list")).args(&paths[..2]).output().unwrap();
    assert_eq!(list.stdout, small().listing());
    let resume = Command::new(env!("CARGO_BIN_EXE_oracle-resume")).args(&paths).output().unwrap();
    assert_eq!(resume.stdout, small().resume(&found));
    std::fs::remove_dir_all(folder).unwrap();
}
