//! What the generators promise, and what holds of the oracle on everything they make.

use bed::answers::{ending, Ending};
use bed::cases::valid_case;
use bed::model::{BlockModel, UnitModel};
use bed::{listing_case, pair_call, record_call, resume_case, segment_call, Rng};
use oracle::alphabet::Alphabet;
use oracle::limits::{ECIGAR_MAX, LINE_DIGITS_MAX, LISTED_LINE_MAX};

const SEED: u64 = 20_240;

fn lines_of(file: &[u8]) -> Vec<&[u8]> {
    file.split_inclusive(|byte| *byte == b'\n').collect()
}

fn unhex(line: &[u8]) -> Vec<u8> {
    let text = std::str::from_utf8(line).unwrap().trim_end();
    (0..text.len()).step_by(2).map(|at| u8::from_str_radix(&text[at..at + 2], 16).unwrap()).collect()
}

#[test]
fn the_same_seed_makes_the_same_cases() {
    for case in 0..300 {
        assert_eq!(listing_case(SEED, case), listing_case(SEED, case));
        assert_eq!(resume_case(SEED, case), resume_case(SEED, case));
        let call = || format!("{:?}", record_call(&mut Rng::for_case(SEED, case)));
        assert_eq!(call(), call());
        let call = || format!("{:?}", pair_call(&mut Rng::for_case(SEED, case)));
        assert_eq!(call(), call());
        let call = || format!("{:?}", segment_call(&mut Rng::for_case(SEED, case)));
        assert_eq!(call(), call());
    }
    assert_ne!(listing_case(SEED, 0), listing_case(SEED + 1, 0));
    assert_ne!(listing_case(SEED, 0), listing_case(SEED, 1));
}

#[test]
fn units_in_order_are_listed_whole() {
    for case in 0..4_000 {
        let (model, files) = valid_case(SEED, case);
        let listing = files.expected();
        assert_eq!(ending(&listing), Ending::Complete, "case {case}");
        assert_eq!(lines_of(&listing).len(), model.records.len() + 2, "case {case}");
    }
}

/// No input line, listed line or E-CIGAR is longer than document 01 says, and no listed line shorter.
#[test]
fn lengths_keep_their_limits() {
    let (mut longest_input, mut longest_listed) = (0, 0);
    let mut longest_text = [0; 2];
    for case in 0..4_000 {
        let (_, files) = valid_case(SEED, case);
        for line in lines_of(&files.unit) {
            longest_input = longest_input.max(line.len() - 1);
        }
        for line in lines_of(&files.expected()).into_iter().filter(|line| line.starts_with(b"04")) {
            longest_listed = longest_listed.max(line.len());
            for segment in listed(&unhex(line)).segments {
                let longest = &mut longest_text[usize::from(segment.ecigar.iter().any(|byte| b"/%*".contains(byte)))];
                *longest = segment.ecigar.len().max(*longest);
            }
            assert!(line.len() > 2 * 28);
        }
    }
    // Nothing is longer, and the cases come as near to both limits as accepted records do.
    assert!(longest_input <= LINE_DIGITS_MAX && longest_listed <= LISTED_LINE_MAX);
    assert_eq!((longest_input, longest_listed), (20_130, 20_753));
    // Of reads in one piece, and over introns.
    assert!(longest_text[1] <= ECIGAR_MAX);
    assert_eq!(longest_text, [4_012, 4_165]);
}

struct ListedSegment {
    position: u64,
    bases: Vec<u8>,
    ecigar: Vec<u8>,
}

struct Listed {
    indexes: [u16; 8],
    segments: Vec<ListedSegment>,
}

fn listed(bytes: &[u8]) -> Listed {
    let two = |at: usize| u16::from_be_bytes([bytes[at], bytes[at + 1]]);
    let mut segments = Vec::new();
    let mut at = 28;
    for _ in 0..bytes[21] {
        let position = u64::from(two(at)) << 16 | u64::from(two(at + 2));
        let bases = bytes[at + 7..][..usize::from(two(at + 5))].to_vec();
        at += 7 + bases.len();
        let ecigar = bytes[at + 2..][..usize::from(two(at))].to_vec();
        at += 2 + ecigar.len();
        segments.push(ListedSegment { position, bases, ecigar });
    }
    assert_eq!(at, bytes.len());
    Listed { indexes: std::array::from_fn(|k| two(3 + 2 * k)), segments }
}

/// The operations of an E-CIGAR by Table 90, each with its count; a letter has none.
fn operations(text: &[u8]) -> Vec<(Option<usize>, u8)> {
    let mut operations = Vec::new();
    let mut rest = text;
    while let Some(first) = rest.first() {
        if matches!(first, b'(' | b'[') {
            rest = &rest[1..];
        }
        let digits = rest.iter().take_while(|byte| byte.is_ascii_digit()).count();
        let count = (digits > 0).then(|| {
            assert_ne!(rest[0], b'0', "a count has no leading zero and is not 0");
            std::str::from_utf8(&rest[..digits]).unwrap().parse().unwrap()
        });
        operations.push((count, rest[digits]));
        rest = &rest[digits + 1..];
    }
    operations
}

/// Walks an E-CIGAR by Table 90 alone and checks it against bases and reference: another way to the same read.
/// Gives the number of reference positions passed.
fn walk(model: &UnitModel, segment: &ListedSegment) -> u64 {
    let letters = Alphabet::from_number(model.unit.alphabet).unwrap();
    let reference_letter = |position: u64| {
        let place = position.checked_sub(u64::from(model.unit.first)).map(|place| place as usize);
        place.and_then(|place| model.reference.get(place)).map_or(b'N', |index| letters.letter(*index).unwrap())
    };
    let (mut read, mut taken) = (0, 0u64);
    for operation in operations(&segment.ecigar) {
        match operation {
            (None, letter) => {
                assert_eq!(segment.bases[read], letter);
                (read, taken) = (read + 1, taken + 1);
            }
            (Some(count), b'=') => {
                for step in 0..count {
                    assert_eq!(segment.bases[read + step], reference_letter(segment.position + taken + step as u64));
                }
                (read, taken) = (read + count, taken + count as u64);
            }
            (Some(count), b'+' | b')') => read += count,
            (Some(count), b'-' | b'/' | b'%' | b'*') => taken += count as u64,
            (Some(_), b']') => {}
            (Some(_), other) => panic!("no operation: {}", other as char),
        }
    }
    assert_eq!(read, segment.bases.len(), "the E-CIGAR consumes the read");
    taken
}

/// How many splices an E-CIGAR has; all have the sign of this rcomp.
fn splices(ecigar: &[u8], rcomp: u8) -> usize {
    let of = |sign: u8| ecigar.iter().filter(|byte| **byte == sign).count();
    let own = of(b"/%*"[usize::from(rcomp)]);
    assert_eq!(own, of(b'/') + of(b'%') + of(b'*'));
    own
}

#[test]
fn every_ecigar_tells_the_read_it_stands_for() {
    let mut walked = 0;
    for case in 0..4_000 {
        let (model, files) = valid_case(SEED, case);
        let listing = files.expected();
        for (record, line) in model.records.iter().zip(lines_of(&listing).into_iter().skip(1)) {
            let listed = listed(&unhex(line));
            assert_eq!(listed.segments.len(), record.blocks.len());
            for (block, segment) in record.blocks.iter().zip(&listed.segments) {
                match block {
                    BlockModel::Aligned(block) => {
                        assert_eq!(walk(&model, segment), block.reach(), "case {case}");
                        assert_eq!(splices(&segment.ecigar, block.rcomp), block.pieces.len() - 1, "case {case}");
                        assert!(segment.position >= u64::from(model.unit.au_start));
                        assert!(segment.position + block.reach() <= u64::from(model.unit.au_end) + 1);
                        walked += 1;
                    }
                    BlockModel::Unaligned(block) => {
                        assert!(segment.ecigar.is_empty() && segment.position == 0);
                        assert_eq!(segment.bases.len(), usize::from(block.length));
                    }
                }
            }
        }
    }
    assert!(walked > 4_000, "{walked}");
}

/// Of what a listed read takes of the reference, splices apart, a deletion is neither first nor last; also in units that
/// are refused further on.
#[test]
fn no_listed_read_begins_or_ends_with_a_deletion() {
    let mut deletions = 0;
    for case in 0..4_000 {
        let listings = [valid_case(SEED, case).1, listing_case(SEED, case)].map(|files| files.expected());
        for line in listings.iter().flat_map(|listing| lines_of(listing)).filter(|line| line.starts_with(b"04")) {
            for segment in listed(&unhex(line)).segments {
                let mut steps = operations(&segment.ecigar);
                steps.retain(|(count, operation)| count.is_none() || matches!(operation, b'=' | b'-'));
                let is_deletion = |step: Option<&(Option<usize>, u8)>| matches!(step, Some((Some(_), b'-')));
                assert!(!is_deletion(steps.first()) && !is_deletion(steps.last()), "case {case}");
                deletions += steps.iter().filter(|step| is_deletion(Some(step))).count();
            }
        }
    }
    assert!(deletions > 4_000, "{deletions}");
}

/// The indexes of an 04 line are the symbols that the model's author gave to the records so far.
#[test]
fn indexes_count_the_symbols_taken() {
    for case in 0..2_000 {
        let (model, files) = valid_case(SEED, case);
        let listing = files.expected();
        for (number, line) in lines_of(&listing).into_iter().skip(1).take(model.records.len()).enumerate() {
            let counts = model.symbols.each_ref().map(|list| list.len() as u16);
            let after = model.records.get(number + 1).map_or(counts, |next| next.before);
            assert_eq!(listed(&unhex(line)).indexes, after, "case {case}, record {number}");
        }
    }
}

/// One record call after the other gives the listing's lines.
#[test]
fn record_calls_in_a_row_are_the_listing() {
    for case in 0..1_000 {
        let (model, files) = valid_case(SEED, case);
        let counts: Vec<u16> = model.symbols.iter().map(|list| list.len() as u16).collect();
        let unit_lines = lines_of(&files.unit);
        let mut joined = unit_lines[0].to_vec();
        let mut state = vec![0; 9];
        for line in &unit_lines[9..] {
            let answer =
                oracle::record(&model.unit, &model.reference, &model.symbols, &counts, &state, line, LISTED_LINE_MAX);
            let (added, after) = answer.unwrap();
            joined.extend(added);
            state = [&[after.number], &after.indexes[..]].concat();
        }
        joined.extend(format!("06{:04x}\n", model.records.len()).bytes());
        assert_eq!(files.expected(), joined, "case {case}");
    }
}

/// A listing cut anywhere, of a unit in order or not, is resumed to the same listing; also when cut again.
#[test]
fn every_listing_is_resumed_from_every_kind_of_cut() {
    for case in 0..4_000 {
        let files = listing_case(SEED, case);
        let listing = files.expected();
        let mut rng = Rng::for_case(SEED, case);
        for zeros in [0, 1, 512] {
            let first = rng.index(listing.len() + 1);
            let found = [&listing[..first], &vec![0; zeros]].concat();
            let once = oracle::resume(&files.reference, &files.unit, &found);
            assert_eq!(once, listing, "case {case}, cut at {first}");
            let second = rng.index(once.len() + 1);
            let found = [&once[..second], &vec![0; zeros]].concat();
            assert_eq!(oracle::resume(&files.reference, &files.unit, &found), listing, "case {case}, cut at {second}");
        }
    }
}

/// Resuming keeps what it keeps: the answer begins with it, or is one refusal line.
#[test]
fn a_resume_keeps_or_refuses() {
    for case in 0..4_000 {
        let files = resume_case(SEED, case);
        let kept = oracle::kept(files.found.as_ref().unwrap());
        let answer = files.expected();
        assert!(answer.starts_with(kept) || answer.starts_with(b"05ffff"), "case {case}");
    }
}

/// A refused record call is refused for every room, an accepted one exactly when its line fits.
#[test]
fn room_decides_last() {
    for case in 0..4_000 {
        let mut call = record_call(&mut Rng::for_case(SEED, case));
        call.room = usize::MAX;
        let widest = call.expected();
        let length = widest.as_ref().map_or(30, |(line, _)| line.len());
        call.room = length;
        assert_eq!(call.expected(), widest);
        call.room = length - 1;
        assert_eq!(
            call.expected().map_err(oracle::Refusal::number).err(),
            Some(widest.map_or_else(oracle::Refusal::number, |_| 17))
        );
    }
}

/// What a damaged call was given is half the point: about half of the calls are in order.
#[test]
fn half_of_the_calls_are_accepted() {
    let cases = 4_000;
    let part = |accepted: &dyn Fn(&mut Rng) -> bool| {
        (0..cases).filter(|case| accepted(&mut Rng::for_case(SEED, *case))).count()
    };
    let quarter = cases as usize / 4;
    for (name, accepted) in [
        ("record", part(&|rng| record_call(rng).expected().is_ok())),
        ("pair", part(&|rng| pair_call(rng).expected().is_ok())),
        ("segment", part(&|rng| segment_call(rng).expected().is_ok())),
    ] {
        assert!((quarter..cases as usize - quarter / 2).contains(&accepted), "{name}: {accepted} of {cases}");
    }
}
