//! The record call: its Order, Table 60, decisions 7 to 10 and 47.

mod common;
use common::*;
use oracle::{Link, Mate, Refusal, State, Unit, UnitNumbers};

/// A record call with everything it is lent.
#[derive(Clone)]
struct Call {
    unit: UnitNumbers,
    reference: Vec<u8>,
    symbols: Vec<Vec<u32>>,
    counts: Vec<u16>,
    state: Vec<u16>,
    line: Vec<u8>,
    room: usize,
}

impl Call {
    fn answer(&self) -> Result<(Vec<u8>, State), Refusal> {
        oracle::record(&self.unit, &self.reference, &self.symbols, &self.counts, &self.state, &self.line, self.room)
    }

    fn refusal(&self) -> u8 {
        self.answer().map_or_else(Refusal::number, |_| 0)
    }
}

fn numbers(given: &Given) -> UnitNumbers {
    UnitNumbers {
        class: given.class,
        alphabet: given.alphabet,
        template_segments: given.template_segments,
        sequence_id: given.sequence_id,
        first: given.first,
        au_start: given.au_start,
        au_end: given.au_end,
        record_count: given.count(),
    }
}

/// The call for the first record of a unit.
fn call(given: &Given) -> Call {
    Call {
        unit: numbers(given),
        reference: given.reference.clone(),
        symbols: given.symbols.to_vec(),
        counts: given.symbols.iter().map(|list| list.len() as u16).collect(),
        state: vec![0; 9],
        line: line(&given.records[0]),
        room: LISTED_DIGITS + 1,
    }
}

/// The answer to a frame that need not be a whole record.
fn frame_refusal(given: &Given, frame: &[u8]) -> u8 {
    let mut call = call(&given.clone().with(record(100, &[])));
    call.line = line(frame);
    call.refusal()
}

// Table 60.

fn linked(class: u8, symbols: &[(usize, u32)]) -> Result<(Link, State), u8> {
    let mut given = given(class);
    given.template_segments = 2;
    given.record_count = Some(1);
    for (subsequence, value) in symbols {
        given.symbols[*subsequence].push(*value);
    }
    let counts = given.symbols.each_ref().map(|list| list.len() as u16);
    let unit = Unit::from_numbers(&numbers(&given)).unwrap();
    oracle::pair(&unit, &given.symbols, &counts, &State::default()).map_err(Refusal::number)
}

fn link(segments: u8, split_mate: u8, read1_first: u8, mate: Mate) -> Link {
    Link { segments, split_mate, read1_first, mate }
}

fn after(indexes: [u16; 8]) -> State {
    State { number: 0, indexes }
}

#[test]
fn table_60_in_aligned_classes() {
    for class in [P, N, M, I] {
        let elsewhere = |sequence_id, position| Mate::Elsewhere { sequence_id, position };
        let cases = [
            (vec![(0, 0), (1, 6)], link(2, 0, 1, Mate::Behind { delta: 3 }), [1, 1, 0, 0, 0, 0, 0, 0]),
            (vec![(0, 0), (1, 65_535)], link(2, 0, 0, Mate::Behind { delta: 32_767 }), [1, 1, 0, 0, 0, 0, 0, 0]),
            (vec![(0, 1), (2, 9)], link(1, 1, 0, elsewhere(7, 9)), [1, 0, 1, 0, 0, 0, 0, 0]),
            (vec![(0, 2), (3, u32::MAX)], link(1, 1, 1, elsewhere(7, u32::MAX)), [1, 0, 0, 1, 0, 0, 0, 0]),
            (vec![(0, 3), (4, 65_535), (6, 8)], link(1, 1, 0, elsewhere(65_535, 8)), [1, 0, 0, 0, 1, 0, 1, 0]),
            (vec![(0, 4), (5, 3), (7, 70_000)], link(1, 1, 1, elsewhere(3, 70_000)), [1, 0, 0, 0, 0, 1, 0, 1]),
            (vec![(0, 5)], link(1, 2, 1, Mate::None), [1, 0, 0, 0, 0, 0, 0, 0]),
            (vec![(0, 6)], link(1, 2, 0, Mate::None), [1, 0, 0, 0, 0, 0, 0, 0]),
        ];
        for (symbols, link, indexes) in cases {
            assert_eq!(linked(class, &symbols), Ok((link, after(indexes))), "class {class}, {symbols:?}");
        }
    }
}

#[test]
fn table_60_in_class_u() {
    let cases = [
        (vec![(0, 0), (1, 5)], link(2, 0, 1, Mate::None), [1, 0, 0, 0, 0, 0, 0, 0]),
        (vec![(0, 1), (2, 9)], link(1, 1, 0, Mate::None), [1, 0, 1, 0, 0, 0, 0, 0]),
        (vec![(0, 2), (3, 9)], link(1, 1, 1, Mate::None), [1, 0, 0, 1, 0, 0, 0, 0]),
        // 4 and 5 are passed over unchecked.
        (vec![(0, 3), (4, 65_536), (6, 8)], link(1, 1, 0, Mate::None), [1, 0, 0, 0, 1, 0, 1, 0]),
        (vec![(0, 4), (5, u32::MAX), (7, 8)], link(1, 1, 1, Mate::None), [1, 0, 0, 0, 0, 1, 0, 1]),
        (vec![(0, 5)], link(1, 2, 1, Mate::None), [1, 0, 0, 0, 0, 0, 0, 0]),
        (vec![(0, 6)], link(1, 2, 0, Mate::None), [1, 0, 0, 0, 0, 0, 0, 0]),
    ];
    for (symbols, link, indexes) in cases {
        assert_eq!(linked(U, &symbols), Ok((link, after(indexes))), "{symbols:?}");
    }
}

#[test]
fn table_60_in_class_hm() {
    assert_eq!(linked(HM, &[(1, 4)]), Ok((link(2, 0, 1, Mate::None), after([0, 1, 0, 0, 0, 0, 0, 0]))));
    assert_eq!(linked(HM, &[(1, 65_535)]), Ok((link(2, 0, 0, Mate::None), after([0, 1, 0, 0, 0, 0, 0, 0]))));
    assert_eq!(linked(HM, &[(1, 65_536)]), Err(7));
    assert_eq!(linked(HM, &[(0, 0)]), Err(5));
}

#[test]
fn pair_symbols_that_are_refused() {
    for class in [P, N, M, I, U] {
        assert_eq!(linked(class, &[]), Err(5));
        for code in [7, 8, 256, 65_536, u32::MAX] {
            assert_eq!(linked(class, &[(0, code)]), Err(6), "code {code}");
        }
        let aligned = class != U;
        assert_eq!(linked(class, &[(0, 0)]).is_err(), aligned);
        assert_eq!(linked(class, &[(0, 1)]), Err(5));
        assert_eq!(linked(class, &[(0, 1), (3, 1)]), Err(5));
        assert_eq!(linked(class, &[(0, 2), (2, 1)]), Err(5));
        assert_eq!(linked(class, &[(0, 3), (6, 1)]), Err(5));
        assert_eq!(linked(class, &[(0, 3), (4, 1)]), Err(5));
        assert_eq!(linked(class, &[(0, 4), (7, 1)]), Err(5));
        assert_eq!(linked(class, &[(0, 4), (5, 1)]), Err(5));
        // The sequence id is checked as it is taken, before the missing position is wanted.
        let expected = if aligned { 7 } else { 5 };
        assert_eq!(linked(class, &[(0, 3), (4, 65_536)]), Err(expected));
        assert_eq!(linked(class, &[(0, 4), (5, 65_536)]), Err(expected));
    }
    assert_eq!(linked(P, &[(0, 0), (1, 65_536)]), Err(7));
}

#[test]
fn one_template_segment_takes_no_symbol() {
    for class in [P, N, M, I, U] {
        let unit = Unit::from_numbers(&numbers(&given(class))).unwrap();
        let symbols: [Vec<u32>; 8] = std::array::from_fn(|_| vec![3]);
        let state = State { number: 5, indexes: [1, 0, 1, 0, 1, 0, 1, 0] };
        assert_eq!(oracle::pair(&unit, &symbols, &[1; 8], &state), Ok((link(1, 0, 1, Mate::None), state)));
    }
}

#[test]
fn symbols_are_taken_where_the_state_stands() {
    let mut given = given(P);
    given.template_segments = 2;
    given.record_count = Some(9);
    given.symbols = [vec![6, 0, 1], vec![1, 8, 3], vec![50, 60], vec![], vec![], vec![], vec![], vec![]];
    let unit = Unit::from_numbers(&numbers(&given)).unwrap();
    let counts = [3, 3, 2, 0, 0, 0, 0, 0];
    let state = State { number: 4, indexes: [1, 1, 1, 0, 0, 0, 0, 0] };
    let (first, state) = oracle::pair(&unit, &given.symbols, &counts, &state).unwrap();
    assert_eq!(first, link(2, 0, 1, Mate::Behind { delta: 4 }));
    let (second, state) = oracle::pair(&unit, &given.symbols, &counts, &state).unwrap();
    assert_eq!(second, link(1, 1, 0, Mate::Elsewhere { sequence_id: 7, position: 60 }));
    assert_eq!(state, State { number: 4, indexes: [3, 2, 2, 0, 0, 0, 0, 0] });
    assert_eq!(oracle::pair(&unit, &given.symbols, &counts, &state), Err(Refusal::SymbolsUsedUp));
}

#[test]
fn mate_fields_as_listed() {
    let mates = |class: u8, code: u32, symbols: &[(usize, u32)], blocks: &[Vec<u8>]| {
        let mut unit = given(class).symbol(0, code).with(record(if class == U { 0 } else { 500 }, blocks));
        for (subsequence, value) in symbols {
            unit.symbols[*subsequence].push(*value);
        }
        let listed = unit.listed().remove(0);
        (listed.read1_first, listed.split_mate, listed.segments.len(), listed.mate)
    };
    let (one, two) = ([block_p(3)], [block_p(3), block_p(4)]);
    assert_eq!(mates(P, 0, &[(1, 20)], &two), (1, 0, 2, (7, 510)));
    assert_eq!(mates(P, 1, &[(2, 4_000_000_000)], &one), (0, 1, 1, (7, 4_000_000_000)));
    assert_eq!(mates(P, 2, &[(3, 0)], &one), (1, 1, 1, (7, 0)));
    assert_eq!(mates(P, 3, &[(4, 9), (6, 10)], &one), (0, 1, 1, (9, 10)));
    assert_eq!(mates(P, 4, &[(5, 65_535), (7, u32::MAX)], &one), (1, 1, 1, (65_535, u32::MAX)));
    assert_eq!(mates(P, 5, &[], &one), (1, 2, 1, (0, 0)));
    assert_eq!(mates(P, 6, &[], &one), (0, 2, 1, (0, 0)));
    assert_eq!(mates(U, 0, &[], &[block_u(&[0]), block_u(&[1])]), (1, 0, 2, (0, 0)));
    assert_eq!(mates(U, 1, &[(2, 5)], &[block_u(&[0])]), (0, 1, 1, (0, 0)));
    assert_eq!(mates(U, 4, &[(5, 5), (7, 6)], &[block_u(&[0])]), (1, 1, 1, (0, 0)));
    let hm = given(HM).symbol(1, 3).with(record(500, &[block_i(2, [0; 4], &[]), block_u(&[3, 3])])).listed().remove(0);
    assert_eq!((hm.read1_first, hm.split_mate, hm.mate), (0, 0, (0, 0)));
    assert_eq!(hm.segments[0], ListedSegment { position: 500, rcomp: 0, bases: "AC".into(), ecigar: "2=".into() });
    assert_eq!(hm.segments[1], ListedSegment { position: 0, rcomp: 0, bases: "TT".into(), ecigar: "".into() });
}

#[test]
fn indexes_are_those_after_the_record() {
    let unit = given(P).symbol(0, 5).symbol(0, 0).symbol(1, 0).symbol(0, 3).symbol(4, 1).symbol(6, 1);
    let unit = unit
        .with(record(100, &[block_p(1)]))
        .with(record(100, &[block_p(1), block_p(1)]))
        .with(record(100, &[block_p(1)]));
    let indexes: Vec<_> = unit.listed().into_iter().map(|listed| (listed.number, listed.indexes)).collect();
    assert_eq!(indexes[0], (0, vec![1, 0, 0, 0, 0, 0, 0, 0]));
    assert_eq!(indexes[1], (1, vec![2, 1, 0, 0, 0, 0, 0, 0]));
    assert_eq!(indexes[2], (2, vec![3, 1, 0, 0, 1, 0, 1, 0]));
}

// The Order.

/// The faults of a record of class I with two segments, in the Order, each with its number.
const FAULTS: [(&str, u8); 25] = [
    ("unit value", 3),
    ("lent reference", 2),
    ("symbol count", 4),
    ("state", 14),
    ("digits", 1),
    ("kind", 2),
    ("pair code", 6),
    ("pair value", 7),
    ("first read length", 8),
    ("first rcomp", 11),
    ("first soft clips", 9),
    ("first soft base", 10),
    ("first edit count", 11),
    ("edit 1 type", 11),
    ("edit 1 symbol", 10),
    ("edit 1 offset", 12),
    ("edit 2 deletion symbol", 11),
    ("edit 2 offset", 12),
    ("deletion at the front", 12),
    ("first position", 13),
    ("reference byte under a match", 10),
    ("second read length", 8),
    ("second position", 13),
    ("left-over byte", 2),
    ("room", 17),
];

/// The call with these faults and no other. Every fault changes its own field and leaves the layout as it is.
fn faulty(faults: &[usize]) -> Call {
    let has = |name: &str| faults.iter().any(|fault| FAULTS[*fault].0 == name);
    let pick = |name: &str, bad: u32, good: u32| if has(name) { bad } else { good };
    let mut frame = vec![pick("kind", 4, 3) as u8];
    frame.extend(pick("first position", 99, 2_000).to_be_bytes());
    frame.extend((pick("first read length", 1_001, 6) as u16).to_be_bytes());
    frame.push(pick("first rcomp", 3, 1) as u8);
    frame.extend(pieces(&[6]));
    for clip in [2, 7, pick("first soft clips", 4, 1), 9] {
        frame.extend((clip as u16).to_be_bytes());
    }
    frame.extend([0, pick("first soft base", 5, 1) as u8, 2]);
    frame.extend((pick("first edit count", 1_001, 3) as u16).to_be_bytes());
    // A substitution of the first base, or a deletion in front of it.
    frame.extend([0, 0, pick("deletion at the front", 2, 0) as u8, 0]);
    frame.extend((pick("edit 1 offset", 3, 1) as u16).to_be_bytes());
    frame.extend([pick("edit 1 type", 3, 1) as u8, pick("edit 1 symbol", 5, 4) as u8]);
    frame.extend((pick("edit 2 offset", 1, 2) as u16).to_be_bytes());
    frame.extend([2, pick("edit 2 deletion symbol", 1, 0) as u8]);
    frame.extend((pick("second read length", 0, 1) as u16).to_be_bytes());
    frame.push(0);
    frame.extend(pieces(&[1]));
    frame.extend([0; 8]);
    frame.extend([0, 0]);
    if has("left-over byte") {
        frame.push(0);
    }
    let mut given = given(I).with(frame);
    given.template_segments = 2;
    given.symbols[0] = vec![pick("pair code", 7, 0)];
    // An even value; the second segment lies 1,000 behind the first, or past AU end.
    given.symbols[1] = vec![pick("pair value", 65_536, 2 * pick("second position", 1_000, 50))];
    // The first segment takes 2,002 by a match: place 1,902 of the reference.
    given.reference[1_902] = pick("reference byte under a match", 5, 0) as u8;
    if has("lent reference") {
        given.reference.resize(32_769, 0);
    }
    let mut call = call(&given);
    if has("unit value") {
        call.unit.record_count = 1_025;
    }
    if has("symbol count") {
        call.symbols[7] = vec![0; 1_025];
        call.counts[7] = 1_025;
    }
    if has("state") {
        call.state[0] = call.unit.record_count;
    }
    if has("digits") {
        *call.line.iter_mut().rev().nth(1).unwrap() = b'A';
    }
    if has("room") {
        call.room = 1;
    }
    call
}

#[test]
fn order_without_faults_is_accepted() {
    let (line, state) = faulty(&[]).answer().unwrap();
    assert_eq!(state, State { number: 1, indexes: [1, 1, 0, 0, 0, 0, 0, 0] });
    let segments = &listed(&line)[0].segments;
    assert_eq!(segments[0].ecigar, "(2)A1+1-1=(1)");
    assert_eq!(segments[1].position, 2_050);
}

#[test]
fn order_each_fault_alone_and_before_every_later_one() {
    for (first, (name, number)) in FAULTS.into_iter().enumerate() {
        assert_eq!(faulty(&[first]).refusal(), number, "{name}");
        for (second, (other, _)) in FAULTS.into_iter().enumerate().skip(first + 1) {
            assert_eq!(faulty(&[first, second]).refusal(), number, "{name}, then {other}");
        }
        let rest: Vec<_> = (first..FAULTS.len()).collect();
        assert_eq!(faulty(&rest).refusal(), number, "{name} and all behind it");
    }
}

/// A frame cut anywhere is short (2), unless a field that is complete is refused first.
#[test]
fn order_fields_are_checked_when_complete() {
    // Bytes of the frame that have to be there for the fault to be seen. Each block has the lengths of its pieces.
    let more = pieces(&[1]).len();
    let complete = [
        ("pair code", 1),
        ("pair value", 1),
        ("first read length", 7),
        ("first rcomp", 8),
        ("first soft clips", 16 + more),
        ("first soft base", 18 + more),
        ("first edit count", 21 + more),
        ("edit 1 type", 29 + more),
        ("edit 1 symbol", 29 + more),
        ("edit 1 offset", 29 + more),
        ("edit 2 deletion symbol", 33 + more),
        ("edit 2 offset", 33 + more),
        ("deletion at the front", 33 + more),
        ("first position", 33 + more),
        ("reference byte under a match", 33 + more),
        ("second read length", 35 + more),
        ("second position", 46 + 2 * more),
    ];
    let whole_length = 46 + 2 * more;
    for (name, needed) in complete {
        let fault = FAULTS.iter().position(|fault| fault.0 == name).unwrap();
        let whole = faulty(&[fault]);
        for cut in 0..whole_length {
            let mut call = whole.clone();
            call.line = [&whole.line[..2 * cut], b"\n"].concat();
            let expected = if cut < needed { 2 } else { FAULTS[fault].1 };
            assert_eq!(call.refusal(), expected, "{name}, cut at {cut}");
        }
    }
    for cut in 0..whole_length {
        let mut call = faulty(&[]);
        call.line = [&call.line[..2 * cut], b"\n"].concat();
        assert_eq!(call.refusal(), 2, "cut at {cut}");
    }
}

#[test]
fn order_in_an_edit_of_class_m_symbol_then_offset() {
    let given = given(M);
    assert_eq!(frame_refusal(&given, &record(100, &[block_m(3, &[(9, 5)])])), 10);
    assert_eq!(frame_refusal(&given, &record(100, &[block_m(3, &[(9, 4)])])), 12);
    let short = record(100, &[block_m(3, &[(9, 5)])]);
    assert_eq!(frame_refusal(&given, &short[..short.len() - 1]), 2);
}

#[test]
fn order_symbols_are_fields_of_their_own() {
    // Four bases are announced, the second is bad, the last two are missing.
    assert_eq!(frame_refusal(&given(U), &unhex("0300000000000400050000")[..9]), 10);
    assert_eq!(frame_refusal(&given(U), &unhex("0300000000000400040000")[..9]), 2);
}

#[test]
fn order_pos_in_u() {
    // pos before the block, which is missing here; a short pos is short.
    assert_eq!(frame_refusal(&given(U), &unhex("0300000001")), 13);
    assert_eq!(frame_refusal(&given(U), &unhex("03000001")), 2);
    assert_eq!(frame_refusal(&given(U), &unhex("0300000000")), 2);
    // After the pair symbols.
    let mut two = given(U);
    two.template_segments = 2;
    assert_eq!(frame_refusal(&two, &unhex("0300000001")), 5);
}

#[test]
fn order_deletion_symbol_and_types() {
    for alphabet in [0, 1] {
        let mut given = given(I);
        given.alphabet = alphabet;
        for kind in 0..=255 {
            for symbol in [0, 1, 4, 5, 15, 16, 255] {
                let expected = match kind {
                    0 | 1 if symbol < [5, 16][usize::from(alphabet)] => 0,
                    0 | 1 => 10,
                    2 if symbol == 0 => 0,
                    _ => 11,
                };
                let frame = record(100, &[block_i(3, [0; 4], &[(1, kind, symbol)])]);
                assert_eq!(frame_refusal(&given, &frame), expected, "type {kind}, symbol {symbol}");
            }
        }
    }
}

#[test]
fn order_state_and_counts() {
    let mut good = call(&given(P).symbol(0, 5).symbol(2, 1).with(record(100, &[block_p(1)])));
    good.unit.record_count = 3;
    for number in 0..3 {
        good.state[0] = number;
        let (line, state) = good.answer().unwrap();
        assert_eq!((listed(&line)[0].number, state.number), (number, number + 1));
    }
    for number in [3, 4, 1_024, u16::MAX] {
        let mut call = good.clone();
        call.state[0] = number;
        assert_eq!(call.refusal(), 14);
    }
    for subsequence in 0..8 {
        let mut call = good.clone();
        call.state[1 + subsequence] = call.counts[subsequence];
        // An index at its count stands; only subsequence 0 is used up by it.
        assert_eq!(call.refusal(), if subsequence == 0 { 5 } else { 0 });
        call.state[1 + subsequence] += 1;
        assert_eq!(call.refusal(), 14);
        let mut call = good.clone();
        (call.symbols[subsequence], call.counts[subsequence]) = (vec![5; 1_024], 1_024);
        assert_eq!(call.refusal(), 0);
        (call.symbols[subsequence], call.counts[subsequence]) = (vec![5; 1_025], 1_025);
        assert_eq!(call.refusal(), 4);
    }
}

#[test]
fn order_room() {
    let mut call = call(&given(P).with(record(100, &[block_p(1)])));
    let (line, _) = call.answer().unwrap();
    for room in 0..line.len() {
        call.room = room;
        assert_eq!(call.refusal(), 17);
    }
    call.room = line.len();
    assert_eq!(call.answer().unwrap().0, line);
}

#[test]
fn a_line_is_lent_with_its_newline() {
    let good = call(&given(P).with(record(100, &[block_p(1)])));
    let without = Call { line: good.line[..good.line.len() - 1].to_vec(), ..good.clone() };
    assert_eq!(without.refusal(), 1);
    assert_eq!(Call { line: vec![], ..good.clone() }.refusal(), 1);
    assert_eq!(Call { line: [&good.line[..], b"\n"].concat(), ..good.clone() }.refusal(), 1);
    assert_eq!(Call { line: b"\n".to_vec(), ..good }.refusal(), 2);
}

#[test]
fn a_lent_reference_at_its_limit() {
    let mut call = call(&given(P).with(record(100, &[block_p(1)])));
    call.reference = vec![0; 32_768];
    assert_eq!(call.refusal(), 0);
    call.reference.push(0);
    assert_eq!(call.refusal(), 2);
}

#[test]
fn reading_8_pair_symbols_before_pos() {
    let mut two = given(P);
    two.template_segments = 2;
    assert_eq!(frame_refusal(&two, &[3]), 5);
    assert_eq!(frame_refusal(&two, &[4]), 2);
    assert_eq!(frame_refusal(&two, &[]), 2);
    assert_eq!(frame_refusal(&two.clone().symbol(0, 5), &[3]), 2);
    assert_eq!(frame_refusal(&two.symbol(0, 7), &[3]), 6);
}

#[test]
fn reading_9_a_mate_past_the_last_position() {
    let with = |delta: u32, second: Vec<u8>| {
        let mut unit = given(P).symbol(0, 0).symbol(1, 2 * delta).with(record(u32::MAX - 10, &[block_p(1), second]));
        (unit.au_start, unit.au_end) = (0, u32::MAX);
        unit
    };
    assert_eq!(with(10, block_p(1)).listed()[0].mate, (7, u32::MAX));
    // Wrapped, these would lie at 0 and at 32,756, well inside the unit.
    assert_eq!(with(11, block_p(1)).refusal(), Some((0, 13)));
    assert_eq!(with(32_767, block_p(1)).refusal(), Some((0, 13)));
    // Its block is read first.
    assert_eq!(with(11, block_p(0)).refusal(), Some((0, 8)));
    assert_eq!(with(11, vec![0]).refusal(), Some((0, 2)));
}

#[test]
fn reading_10_the_first_segment_is_finished_first() {
    let with = |pos, second: Vec<u8>| given(P).symbol(0, 0).symbol(1, 0).with(record(pos, &[block_p(2), second]));
    assert_eq!(with(2_099, block_p(0)).refusal(), Some((0, 13)));
    let mut bad = with(100, block_p(0));
    bad.reference[1] = 5;
    assert_eq!(bad.refusal(), Some((0, 10)));
    bad.reference[1] = 4;
    assert_eq!(bad.refusal(), Some((0, 8)));
    // 13 comes before 10 of the same segment.
    let mut both = given(P).with(record(2_098, &[block_p(3)]));
    both.reference[1_998] = 5;
    assert_eq!(both.refusal(), Some((0, 13)));
}

#[test]
fn reading_11_the_last_position_of_all() {
    let with = |pos, length, first| {
        let mut unit = given(P).with(record(pos, &[block_p(length)]));
        (unit.au_start, unit.au_end, unit.first) = (u32::MAX - 9, u32::MAX, first);
        unit.reference = vec![1; 2_000];
        unit
    };
    assert_eq!(with(u32::MAX, 1, 5).segment().bases, "N");
    assert_eq!(with(u32::MAX - 9, 10, u32::MAX - 4).segment().bases, "NNNNNCCCCC");
    assert_eq!(with(u32::MAX - 9, 10, u32::MAX).segment().bases, "NNNNNNNNNC");
    assert_eq!(with(u32::MAX - 9, 10, u32::MAX - 2_004).segment().bases, "CCCCCNNNNN");
    assert_eq!(with(u32::MAX, 2, u32::MAX).refusal(), Some((0, 13)));
    assert_eq!(with(u32::MAX - 9, 11, u32::MAX).refusal(), Some((0, 13)));
    assert_eq!(with(u32::MAX - 10, 1, u32::MAX).refusal(), Some((0, 13)));
}

#[test]
fn reading_12_slices_of_another_shape() {
    let good = call(&given(P).with(record(100, &[block_p(1)])));
    assert_eq!(good.refusal(), 0);
    for length in [0, 1, 8, 10] {
        assert_eq!(Call { state: vec![0; length], ..good.clone() }.refusal(), 14, "state of {length}");
    }
    for length in [0, 7, 9] {
        assert_eq!(Call { counts: vec![0; length], ..good.clone() }.refusal(), 4, "{length} counts");
        assert_eq!(Call { symbols: vec![vec![]; length], ..good.clone() }.refusal(), 4, "{length} lists");
    }
    let mut uneven = good.clone();
    uneven.counts[3] = 1;
    assert_eq!(uneven.refusal(), 4);
    uneven.symbols[3] = vec![0, 0];
    assert_eq!(uneven.refusal(), 4);
    uneven.symbols[3] = vec![0];
    assert_eq!(uneven.refusal(), 0);
    // In their places of the Order.
    let shapes = Call { state: vec![], counts: vec![], line: vec![], ..good };
    assert_eq!(shapes.refusal(), 4);
    assert_eq!(Call { counts: vec![0; 8], ..shapes.clone() }.refusal(), 14);
    assert_eq!(Call { reference: vec![0; 32_769], ..shapes }.refusal(), 2);
}

#[test]
fn the_listing_and_the_record_calls_agree() {
    let given = given(P).symbol(0, 5).symbol(0, 0).symbol(1, 7);
    let given = given.with(record(100, &[block_p(4)])).with(record(200, &[block_p(1), block_p(2)]));
    let mut listing = line(&given.unit_frame());
    let mut call = call(&given);
    for record in &given.records {
        call.line = line(record);
        let (added, state) = call.answer().unwrap();
        listing.extend(added);
        call.state = [&[state.number], &state.indexes[..]].concat();
    }
    listing.extend(b"060002\n");
    assert_eq!(given.listing(), listing);
}
