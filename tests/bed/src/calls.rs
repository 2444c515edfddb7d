//! Single calls: a record, the pair symbols of a record, a block of a segment. For comparing functions with
//! functions, without files and processes.

use crate::damage::{cut_frame, damage_frame, damage_line, damage_record, damage_unit, own_symbol};
use crate::frames::{block_frame, record_frame};
use crate::model::{BlockModel, UnitModel};
use crate::rng::Rng;
use crate::valid::unit_model_of;
use oracle::limits::*;
use oracle::{Class, Link, Reference, Refusal, Segment, State, Symbols, Taker, Unit, UnitNumbers};

/// Everything that is lent to a record call.
#[derive(Clone, Debug)]
pub struct RecordCall {
    pub unit: UnitNumbers,
    pub reference: Vec<u8>,
    /// Eight lists, each as long as its count.
    pub symbols: Vec<Vec<u32>>,
    pub counts: Vec<u16>,
    /// The record number and eight indexes.
    pub state: Vec<u16>,
    pub line: Vec<u8>,
    /// Length of the lent output.
    pub room: usize,
}

impl RecordCall {
    pub fn expected(&self) -> Result<(Vec<u8>, State), Refusal> {
        oracle::record(&self.unit, &self.reference, &self.symbols, &self.counts, &self.state, &self.line, self.room)
    }
}

/// The pair symbols of one record. The unit is in its values and no index is above its count.
#[derive(Clone, Debug)]
pub struct PairCall {
    pub unit: UnitNumbers,
    pub symbols: Symbols,
    pub counts: [u16; SUBSEQUENCES],
    pub state: State,
}

impl PairCall {
    pub fn expected(&self) -> Result<(Link, State), Refusal> {
        oracle::pair(&checked(&self.unit), &self.symbols, &self.counts, &self.state)
    }
}

/// One block, which begins at `offset` of a frame. The unit is in its values; class U only where the block is
/// not aligned.
#[derive(Clone, Debug)]
pub struct SegmentCall {
    pub unit: UnitNumbers,
    pub aligned: bool,
    pub reference: Vec<u8>,
    /// May lie past the last u32, as a mate's position can. Of no meaning to an unaligned block.
    pub position: i64,
    /// What the splices of an aligned block are taken from; no index is above its count.
    pub symbols: Symbols,
    pub counts: [u16; SUBSEQUENCES],
    pub state: State,
    pub frame: Vec<u8>,
    pub offset: usize,
}

impl SegmentCall {
    /// The segment, the state after its symbols and where the next block begins, or the refusal.
    pub fn expected(&self) -> Result<(Segment, State, usize), Refusal> {
        let unit = checked(&self.unit);
        let mut taker = Taker::new(&self.symbols, &self.counts, &self.state);
        let (segment, end) = if self.aligned {
            let reference = Reference::new(unit.first, &self.reference);
            oracle::aligned_segment(&unit, reference, self.position, &mut taker, &self.frame, self.offset)?
        } else {
            oracle::unaligned_segment(unit.alphabet, &self.frame, self.offset)?
        };
        Ok((segment, taker.state, end))
    }
}

fn checked(unit: &UnitNumbers) -> Unit {
    Unit::from_numbers(unit).expect("the generators of these calls keep the unit in its values")
}

/// A unit with few records, and one of them.
fn some_record(rng: &mut Rng) -> (UnitModel, usize) {
    let records = rng.between(1, 4) as u16;
    let model = unit_model_of(rng, records);
    let record = rng.index(usize::from(records));
    (model, record)
}

/// A record call, damaged in half of the cases; the lent output is now and then too short.
pub fn record_call(rng: &mut Rng) -> RecordCall {
    let (mut model, record) = some_record(rng);
    let damages = if rng.percent(50) { rng.between(1, 3) } else { 0 };
    let mut places: Vec<u64> = (0..damages).map(|_| rng.below(10)).collect();
    if damages > 0 && model.class().has_splices() && rng.percent(80) {
        // Records that may have splices and deletions have more that can be wrong than others.
        places = vec![0];
    }
    let times = |from: u64, to: u64| places.iter().filter(|place| (from..to).contains(place)).count();
    for _ in 0..times(0, 5) {
        damage_record(rng, &mut model, record);
    }
    let mut frame = record_frame(model.class(), &model.records[record]);
    for _ in 0..times(5, 7) {
        damage_frame(rng, &model.unit, &mut frame);
    }
    if times(0, 5) > 0 && rng.percent(20) {
        cut_frame(rng, &mut frame);
    }
    let mut line = frame.line();
    for _ in 0..times(7, 8) {
        damage_line(rng, &mut line);
    }
    let state = model.state_before(record);
    let mut call = RecordCall {
        counts: model.symbols.iter().map(|list| list.len() as u16).collect(),
        symbols: model.symbols.to_vec(),
        state: [&[state.number], &state.indexes[..]].concat(),
        unit: model.unit,
        reference: model.reference,
        line,
        room: LISTED_LINE_MAX,
    };
    // A state's index can lie above a count that damage has lowered: that is refused, as it should be.
    for _ in 0..times(8, 10) {
        damage_call(rng, &mut call);
    }
    call.room = room(rng, &call);
    call
}

fn damage_call(rng: &mut Rng, call: &mut RecordCall) {
    let subsequence = rng.index(SUBSEQUENCES);
    match rng.below(12) {
        0..=3 => damage_unit(rng, &mut call.unit),
        4 => call.reference.resize(REFERENCE_MAX + rng.index(2), 0),
        5 | 6 => {
            let count = *rng.pick(&[SYMBOLS_MAX, SYMBOLS_MAX + 1, SYMBOLS_MAX + 1, 2 * SYMBOLS_MAX]);
            call.symbols[subsequence].resize(usize::from(count), 0);
            call.counts[subsequence] = count;
        }
        7 | 8 => {
            let count = call.unit.record_count;
            call.state[0] = *rng.pick(&[0, count.wrapping_sub(1), count, count.wrapping_add(1), u16::MAX]);
        }
        _ => {
            let count = call.counts[subsequence];
            call.state[1 + subsequence] =
                *rng.pick(&[0, count, count.wrapping_add(1), count.wrapping_add(1), u16::MAX]);
        }
    }
}

/// Room for every line, for just this one, for one byte less, or for a part of it.
fn room(rng: &mut Rng, call: &RecordCall) -> usize {
    let length = call.expected().map_or(LISTED_LINE_MAX, |(line, _)| line.len());
    match rng.below(10) {
        0 => length,
        1 => length - 1,
        2 => rng.index(length),
        _ => LISTED_LINE_MAX,
    }
}

/// The pair symbols of one record, half of the calls with symbols or indexes that are likely to be refused.
pub fn pair_call(rng: &mut Rng) -> PairCall {
    let (mut model, record) = some_record(rng);
    let mut state = model.state_before(record);
    if rng.percent(50) {
        spoil_symbols(rng, &mut model, record, &mut state);
    }
    let counts = counts_of(&model.symbols, &mut state);
    PairCall { unit: model.unit, symbols: model.symbols, counts, state }
}

/// The counts of these lists. Damage may have left an index above its count: it is drawn back.
fn counts_of(symbols: &Symbols, state: &mut State) -> [u16; SUBSEQUENCES] {
    let counts = symbols.each_ref().map(|list| list.len() as u16);
    for (index, count) in state.indexes.iter_mut().zip(counts) {
        *index = (*index).min(count);
    }
    counts
}

/// Another value, or none, where the record takes a symbol.
fn spoil_symbols(rng: &mut Rng, model: &mut UnitModel, record: usize, state: &mut State) {
    let taken: Vec<usize> = (0..SUBSEQUENCES).filter(|at| own_symbol(model, record, *at).is_some()).collect();
    if taken.is_empty() {
        return;
    }
    let subsequence = *rng.pick(&taken);
    let list = &mut model.symbols[subsequence];
    let index = usize::from(state.indexes[subsequence]);
    match rng.below(6) {
        0 => list.truncate(index),
        1 => state.indexes[subsequence] = list.len() as u16,
        2 | 3 => list[index] = *rng.pick(&[0xffff, 0x1_0000, 0x1_0001, 0x2_0000, u32::MAX]),
        _ => list[index] = *rng.pick(&[0, 1, 2, 3, 4, 5, 6, 7, 8, 0x100]),
    }
}

/// A block of a record, half of them damaged, somewhere in a frame.
pub fn segment_call(rng: &mut Rng) -> SegmentCall {
    let (mut model, record) = some_record(rng);
    let number = rng.index(model.records[record].blocks.len());
    let mut position = i64::from(model.records[record].pos) + delta(&model, record, number);
    let unit = model.unit.clone();
    let damaged = rng.percent(50);
    if damaged && rng.percent(60) {
        damage_record(rng, &mut model, record);
        // What was done to the unit's end or to the block's number is not for this call.
        model.unit = unit;
    }
    let blocks = &model.records[record].blocks;
    let block = blocks.get(number).or(blocks.last()).cloned();
    let aligned = matches!(block, Some(BlockModel::Aligned(_)));
    let mut frame = block.as_ref().map_or_else(Default::default, |block| block_frame(model.class(), block));
    if damaged && rng.percent(50) {
        damage_frame(rng, &model.unit, &mut frame);
    }
    if damaged && rng.percent(30) {
        position = edge_position(rng, &model.unit, position);
    }
    let mut state = model.state_before(record);
    if let Some(BlockModel::Aligned(block)) = &block {
        // The block's own symbols stand behind those of the pair and of the block before.
        for place in block.splices.iter().rev() {
            state.indexes[place.subsequence] = place.index as u16;
        }
    }
    let counts = counts_of(&model.symbols, &mut state);
    let before: Vec<u8> = (0..rng.below(9)).map(|_| rng.byte()).collect();
    let behind: Vec<u8> = if rng.percent(50) { (0..rng.below(9)).map(|_| rng.byte()).collect() } else { Vec::new() };
    SegmentCall {
        unit: model.unit,
        aligned,
        reference: model.reference,
        position,
        symbols: model.symbols,
        counts,
        state,
        offset: before.len(),
        frame: [before, frame.bytes, behind].concat(),
    }
}

/// How far behind pos the second block of an aligned class lies.
fn delta(model: &UnitModel, record: usize, number: usize) -> i64 {
    let aligned = !matches!(model.class(), Class::U | Class::HM);
    if number == 0 || !aligned {
        return 0;
    }
    let index = usize::from(model.records[record].before[1]);
    i64::from(model.symbols[1][index] / 2)
}

fn edge_position(rng: &mut Rng, unit: &UnitNumbers, position: i64) -> i64 {
    let (start, end) = (i64::from(unit.au_start), i64::from(unit.au_end));
    let past_all = i64::from(u32::MAX) + 1 + rng.below(u64::from(u16::MAX / 2)) as i64;
    *rng.pick(&[(start - 1).max(0), start, end, end + 1, (position - 1).max(0), position + 1, past_all])
}
