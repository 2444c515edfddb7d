//! Random units that are in order: every class, alphabet, pair code, clip and edit, at ordinary places and at
//! the edges.

use crate::model::*;
use crate::rng::Rng;
use oracle::alphabet::Alphabet;
use oracle::limits::{
    EDITS_MAX, PIECES_MAX, RCOMP_MAX, READ_LENGTH_MAX, RECORDS_MAX, REFERENCE_MAX, SPLICED_RCOMP_MAX, SUBSEQUENCES,
    SYMBOLS_MAX,
};
use oracle::{Class, Symbols, UnitNumbers};

const LAST_POSITION: u64 = u32::MAX as u64;
/// The greatest distance of a mate in the same record: 65,535 halved.
pub const DELTA_MAX: u64 = (u16::MAX / 2) as u64;

/// A valid unit with a few records, now and then with none or very many.
pub fn unit_model(rng: &mut Rng) -> UnitModel {
    let records = record_count(rng);
    unit_model_of(rng, records)
}

pub fn unit_model_of(rng: &mut Rng, records: u16) -> UnitModel {
    let mut unit = unit_numbers(rng, records);
    let reference = reference(rng, &mut unit);
    let class = Class::from_number(unit.class).expect("made from the list of classes");
    let longest = if records <= 12 { longest(rng) } else { None };
    if let (true, Some(Longest::Ecigar)) = (class.has_splices(), longest) {
        // The longest splices need all positions.
        (unit.au_start, unit.au_end) = (0, u32::MAX);
    }
    let mut builder = Builder {
        class,
        letters: alphabet_size(unit.alphabet),
        reference_length: reference.len() as u64,
        short: records > 60,
        longest,
        splices_left: usize::from(SYMBOLS_MAX - records),
        unit,
        symbols: Symbols::default(),
    };
    let records = (0..records).map(|_| builder.record(rng)).collect();
    UnitModel { unit: builder.unit, symbols: builder.symbols, records, reference }
}

fn alphabet_size(number: u8) -> u8 {
    Alphabet::from_number(number).map_or(1, Alphabet::size)
}

fn record_count(rng: &mut Rng) -> u16 {
    let count = match rng.below(1_000) {
        0..=39 => 0,
        40..=399 => 1,
        400..=799 => rng.between(2, 4),
        800..=979 => rng.between(5, 12),
        980..=990 => rng.between(13, 60),
        991..=994 => rng.between(61, u64::from(RECORDS_MAX) - 1),
        _ => u64::from(RECORDS_MAX),
    };
    count as u16
}

fn unit_numbers(rng: &mut Rng, record_count: u16) -> UnitNumbers {
    let mut class = 1 + rng.below(Class::ALL.len() as u64) as u8;
    // Where there can be splices and deletions there is more to try.
    if Class::I.has_splices() && rng.percent(48) {
        class = *rng.pick(&[4, 4, 5]);
    }
    let paired = Class::from_number(class) == Some(Class::HM) || rng.percent(70);
    let (au_start, au_end) = region(rng);
    UnitNumbers {
        class,
        alphabet: rng.below(2) as u8,
        template_segments: if paired { 2 } else { 1 },
        sequence_id: u16_edge(rng),
        first: au_start,
        au_start,
        au_end,
        record_count,
    }
}

fn u16_edge(rng: &mut Rng) -> u16 {
    match rng.below(4) {
        0 => 0,
        1 => u16::MAX,
        _ => rng.number() as u16,
    }
}

fn u32_edge(rng: &mut Rng) -> u32 {
    match rng.below(6) {
        0 => 0,
        1 => u32::MAX,
        2 => rng.below(1_000) as u32,
        _ => rng.number() as u32,
    }
}

/// AU start and end: at 0, at the last position, over all positions, or anywhere; long or of few positions.
fn region(rng: &mut Rng) -> (u32, u32) {
    let length = match rng.below(10) {
        0 => 1,
        1 => rng.between(2, 20),
        2 => rng.between(21, 500),
        3 => rng.between(5_000, 80_000),
        _ => rng.between(501, 5_000),
    };
    let start = match rng.below(8) {
        0 | 1 => 0,
        2 | 3 => LAST_POSITION + 1 - length,
        4 => return (0, u32::MAX),
        _ => rng.below(LAST_POSITION + 2 - length),
    };
    (start as u32, (start + length - 1) as u32)
}

/// A reference that covers the unit, starts late, ends early, lies elsewhere or is empty. Its first position goes
/// into the unit.
fn reference(rng: &mut Rng, unit: &mut UnitNumbers) -> Vec<u8> {
    let region = u64::from(unit.au_end) - u64::from(unit.au_start) + 1;
    let usual = region.min(rng.between(1, 4_000));
    let start = u64::from(unit.au_start);
    let (first, length) = match rng.below(20) {
        0 => (u64::from(u32_edge(rng)), 0),
        1..=3 => (start + rng.below(region.min(300)), usual),
        4..=6 => (start, 1 + rng.below(usual)),
        7..=9 => (start.saturating_sub(rng.below(300)), usual + rng.below(600)),
        10 => (u64::from(u32_edge(rng)), rng.between(1, 500)),
        // In the midst of a unit, or running past the last position of all.
        11 => (start + rng.below(region), rng.between(1, 500)),
        12 if rng.percent(20) => (start, REFERENCE_MAX as u64),
        _ => (start, usual),
    };
    unit.first = first.min(LAST_POSITION) as u32;
    let letters = alphabet_size(unit.alphabet);
    // Mostly of the four bases, as references are; else any letter.
    let plain = rng.percent(50);
    (0..length).map(|_| rng.below(if plain { 4 } else { u64::from(letters) }) as u8).collect()
}

/// Makes the records of one unit, one after the other.
pub struct Builder {
    unit: UnitNumbers,
    class: Class,
    letters: u8,
    reference_length: u64,
    /// In units of many records the reads are short.
    short: bool,
    longest: Option<Longest>,
    /// How many splices the unit may still have: each record may want a symbol of every subsequence for itself.
    splices_left: usize,
    symbols: Symbols,
}

impl Builder {
    fn record(&mut self, rng: &mut Rng) -> RecordModel {
        let before = self.symbols.each_ref().map(|list| list.len() as u16);
        match self.class {
            Class::U => self.unaligned_record(rng, before),
            Class::HM => self.half_mapped_record(rng, before),
            _ => self.aligned_record(rng, before),
        }
    }

    fn unaligned_record(&mut self, rng: &mut Rng, before: [u16; SUBSEQUENCES]) -> RecordModel {
        let code = self.code(rng);
        // Class U passes over these symbols, so any value will do, also one that is no sequence id.
        match code {
            Some(1 | 2) => self.push(code_list(code), u32_edge(rng)),
            Some(3 | 4) => {
                self.push(code_list(code), u32_edge(rng));
                self.push(code_list(code) + 2, u32_edge(rng));
            }
            _ => {}
        }
        let segments = if code == Some(0) { 2 } else { 1 };
        let blocks = (0..segments).map(|_| self.unaligned(rng)).collect();
        RecordModel { pos: 0, blocks, before }
    }

    fn half_mapped_record(&mut self, rng: &mut Rng, before: [u16; SUBSEQUENCES]) -> RecordModel {
        let value = u32::from(u16_edge(rng));
        self.push(1, value);
        let mut block = self.aligned(rng, self.region());
        let pos = self.position(rng, &block);
        self.place(rng, u64::from(pos), &mut block);
        RecordModel { pos, blocks: vec![BlockModel::Aligned(block), self.unaligned(rng)], before }
    }

    fn aligned_record(&mut self, rng: &mut Rng, before: [u16; SUBSEQUENCES]) -> RecordModel {
        let code = self.code(rng);
        let mut block = self.aligned(rng, self.region());
        let pos = self.position(rng, &block);
        let mut second = None;
        match code {
            Some(0) => {
                let (mate, delta) = self.mate(rng, u64::from(pos));
                self.push(1, (2 * delta + rng.below(2)) as u32);
                second = Some((mate, delta));
            }
            Some(1 | 2) => self.push(code_list(code), u32_edge(rng)),
            Some(3 | 4) => {
                self.push(code_list(code), u32::from(u16_edge(rng)));
                self.push(code_list(code) + 2, u32_edge(rng));
            }
            _ => {}
        }
        // The symbols of the blocks stand behind those of the pair, the first block's before the second's.
        self.place(rng, u64::from(pos), &mut block);
        let mut blocks = vec![BlockModel::Aligned(block)];
        if let Some((mut mate, delta)) = second {
            self.place(rng, u64::from(pos) + delta, &mut mate);
            blocks.push(BlockModel::Aligned(mate));
        }
        RecordModel { pos, blocks, before }
    }

    /// Takes down where the pieces of a read lie: by their distance where that can be said, or by their position.
    fn place(&mut self, rng: &mut Rng, position: u64, block: &mut AlignedModel) {
        for number in 1..block.pieces.len() {
            let start = block.starts[number];
            let end = block.starts[number - 1] + u64::from(block.pieces[number - 1]);
            let distance = start.abs_diff(end);
            let symbols = if distance <= DELTA_MAX && rng.percent(65) {
                // No distance has either sign.
                let minus = start < end || start == end && rng.percent(50);
                [(0, 0), (1, (2 * distance + u64::from(minus)) as u32)]
            } else {
                [(0, 2), (3, (position + start) as u32)]
            };
            for (subsequence, value) in symbols {
                block.splices.push(SymbolPlace { subsequence, index: self.symbols[subsequence].len() });
                self.push(subsequence, value);
            }
        }
        self.splices_left -= block.pieces.len() - 1;
    }

    /// A pair code where the unit has any, taken down in subsequence 0.
    fn code(&mut self, rng: &mut Rng) -> Option<u32> {
        if self.unit.template_segments == 1 {
            return None;
        }
        let code = if rng.percent(30) { 0 } else { rng.below(7) as u32 };
        self.push(0, code);
        Some(code)
    }

    fn push(&mut self, subsequence: usize, value: u32) {
        self.symbols[subsequence].push(value);
    }

    /// A second segment that lies in the unit behind the first, and how far behind.
    fn mate(&self, rng: &mut Rng, pos: u64) -> (AlignedModel, u64) {
        let room = u64::from(self.unit.au_end) + 1 - pos;
        let mate = self.aligned(rng, room);
        let last = (room - mate.room()).min(DELTA_MAX);
        let delta = match rng.below(5) {
            0 => 0,
            1 => last,
            2 => rng.below(last.min(20) + 1),
            _ => rng.below(last + 1),
        };
        (mate, delta)
    }

    fn region(&self) -> u64 {
        u64::from(self.unit.au_end) - u64::from(self.unit.au_start) + 1
    }

    /// Where a segment can lie: at either edge of the unit, about the edges of the
    /// reference, or anywhere.
    fn position(&self, rng: &mut Rng, block: &AlignedModel) -> u32 {
        let low = u64::from(self.unit.au_start);
        let high = u64::from(self.unit.au_end) + 1 - block.room();
        let first = u64::from(self.unit.first);
        let near = rng.below(2 * block.reach() + 8);
        // Behind the last position of all a mate's position would begin at 0 again, were it not kept wider.
        if self.region() > LAST_POSITION && rng.percent(30) {
            return high.saturating_sub(rng.below(40)).max(low) as u32;
        }
        let wanted = match rng.below(10) {
            0 => low,
            1 => high,
            2 => first.saturating_sub(near),
            3 => (first + self.reference_length).saturating_sub(near),
            4..=7 => first + rng.below(self.reference_length + 1),
            _ => rng.between(low, high),
        };
        wanted.clamp(low, high) as u32
    }

    fn letter(&self, rng: &mut Rng) -> u8 {
        rng.below(u64::from(self.letters)) as u8
    }

    fn read_length(&self, rng: &mut Rng) -> u16 {
        let longest = u64::from(READ_LENGTH_MAX);
        let length = match rng.below(100) {
            0..=9 => 1,
            _ if self.short => rng.between(1, 4),
            10..=54 => rng.between(2, 8),
            55..=86 => rng.between(9, 60),
            87..=94 => rng.between(61, 300),
            95 => rng.between(301, longest),
            _ => longest,
        };
        length as u16
    }

    fn unaligned(&self, rng: &mut Rng) -> BlockModel {
        let length = self.read_length(rng);
        let bases = (0..length).map(|_| self.letter(rng)).collect();
        BlockModel::Unaligned(UnalignedModel { length, bases })
    }

    /// An aligned block that reaches over at most `room` positions. One match always fits.
    fn aligned(&self, rng: &mut Rng, room: u64) -> AlignedModel {
        for _ in 0..4 {
            let mut block = match self.longest {
                Some(longest) if self.class.has_clips() => self.longest_block(rng, longest),
                _ => {
                    let length = self.read_length(rng);
                    self.aligned_of(rng, length)
                }
            };
            if spread(rng, &mut block, room) {
                return block;
            }
        }
        let clips = self.clips(rng, &[1]);
        let rcomp = self.rcomp(rng);
        aligned_model(rcomp, vec![1], clips, Vec::new(), Vec::new())
    }

    fn aligned_of(&self, rng: &mut Rng, length: u16) -> AlignedModel {
        let pieces = self.pieces(rng, length);
        let clips = self.clips(rng, &pieces);
        let soft = (0..clips[0] + clips[2]).map(|_| self.letter(rng)).collect();
        let mapped = length - clips[0] - clips[2];
        let edits = self.edits(rng, mapped, &borders(&pieces, clips[0]));
        let rcomp = self.rcomp(rng);
        aligned_model(rcomp, pieces, clips, soft, edits)
    }

    fn rcomp(&self, rng: &mut Rng) -> u8 {
        let greatest = if self.class.has_splices() { SPLICED_RCOMP_MAX } else { RCOMP_MAX };
        rng.below(u64::from(greatest) + 1) as u8
    }

    /// The lengths of the pieces of a read: few mostly, now and then as many as there may be.
    fn pieces(&self, rng: &mut Rng, length: u16) -> Vec<u16> {
        // The record's other block may want as many.
        let most = (1 + self.splices_left / 2).min(usize::from(length)).min(usize::from(PIECES_MAX)) as u64;
        if !self.class.has_splices() || most == 1 || rng.percent(25) {
            return vec![length];
        }
        let number = match rng.below(10) {
            0 => most,
            1 => rng.between(2, most),
            _ => rng.between(2, most.min(4)),
        };
        let mut cuts: Vec<u16> = Vec::new();
        while cuts.len() + 1 < number as usize {
            let cut = rng.between(1, u64::from(length) - 1) as u16;
            if !cuts.contains(&cut) {
                cuts.push(cut);
            }
        }
        cuts.sort();
        cuts.push(length);
        let mut before = 0;
        cuts.into_iter().map(|cut| cut - std::mem::replace(&mut before, cut)).collect()
    }

    /// Soft clips that leave each piece at least one base, hard clips of any size.
    fn clips(&self, rng: &mut Rng, pieces: &[u16]) -> [u16; 4] {
        if !self.class.has_clips() || rng.percent(30) {
            return [0; 4];
        }
        let spare = |piece: Option<&u16>| piece.map_or(0, |length| u64::from(*length) - 1);
        let left_spare = spare(pieces.first());
        let left = if rng.percent(50) { rng.below(left_spare + 1) } else { 0 };
        let right_spare = if pieces.len() == 1 { left_spare - left } else { spare(pieces.last()) };
        let right = match rng.below(3) {
            0 => rng.below(right_spare + 1),
            1 if rng.percent(30) => right_spare,
            _ => 0,
        };
        let mut hard = || if rng.percent(50) { 0 } else { u16_edge(rng) };
        [left as u16, hard(), right as u16, hard()]
    }

    /// The edits of so many mapped bases; at the borders given a piece other than the first begins.
    fn edits(&self, rng: &mut Rng, mapped: u16, borders: &[u16]) -> Vec<EditModel> {
        match (self.class, rng.below(24)) {
            (Class::P, _) | (_, 0..=3) => Vec::new(),
            (Class::I | Class::HM, 20..) => self.about_the_ends(rng, mapped, borders),
            // Few, with gaps; many, hardly any gap; as many as there may be.
            (_, 4..=13 | 20..) => {
                let most = rng.between(1, 5) as u16;
                let gap = u64::from(mapped) / 2 + 1;
                self.walk(rng, mapped, most, gap)
            }
            (_, 14..=18) => {
                let gap = rng.between(1, 3);
                self.walk(rng, mapped, mapped.saturating_mul(2).min(EDITS_MAX), gap)
            }
            _ => self.walk(rng, mapped, EDITS_MAX, 1),
        }
    }

    /// Edits at growing offsets, each less than `gap` bases behind the place the last one left. Deletions have a base
    /// before them and one behind.
    fn walk(&self, rng: &mut Rng, mapped: u16, most: u16, gap: u64) -> Vec<EditModel> {
        let favourite = *rng.pick(&[SUBSTITUTION, INSERTION, DELETION]);
        let mut edits = Vec::new();
        let (mut place, mut inserted) = (0, 0);
        while edits.len() < usize::from(most) {
            place += rng.below(gap);
            let kind = match self.class {
                Class::N | Class::M => SUBSTITUTION,
                _ if rng.percent(50) => favourite,
                _ => rng.below(3) as u8,
            };
            if kind == DELETION && inserted == place {
                // The first base that is not inserted is left in front of it.
                place += 1;
            }
            if place >= u64::from(mapped) {
                break;
            }
            edits.push(self.edit(rng, place as u16, kind));
            inserted += u64::from(kind == INSERTION);
            if kind != DELETION {
                place += 1;
            }
        }
        keep_deletions_between_bases(&mut edits, u64::from(mapped));
        edits
    }

    fn edit(&self, rng: &mut Rng, offset: u16, kind: u8) -> EditModel {
        let symbol = if kind == DELETION { 0 } else { self.letter(rng) };
        EditModel { offset, kind, symbol }
    }

    /// Deletions as near to the ends as they may stand: behind the first base that is not inserted and in front of the
    /// last, with insertions beside them or without.
    fn about_the_ends(&self, rng: &mut Rng, mapped: u16, borders: &[u16]) -> Vec<EditModel> {
        let front = inserted_end(rng, borders.first().copied());
        let back = inserted_end(rng, borders.last().map(|border| mapped - border));
        let few = |rng: &mut Rng| if rng.percent(60) { 0 } else { rng.between(1, 2) as u16 };
        let (behind, before) = (few(rng), few(rng));
        let Some(rest) = mapped.checked_sub(front + 1 + behind + before + 1 + back) else {
            return self.walk(rng, mapped, EDITS_MAX, 2);
        };
        let mut base = || if rng.percent(50) { Some(SUBSTITUTION) } else { None };
        let (first, last) = (base(), base());
        let deletions = [rng.between(1, 3) as u16, rng.below(3) as u16];
        let steps = [
            (Some(INSERTION), front),
            (first, 1),
            (Some(INSERTION), behind),
            (Some(DELETION), deletions[0]),
            (None, rest),
            (Some(DELETION), deletions[1]),
            (Some(INSERTION), before),
            (last, 1),
            (Some(INSERTION), back),
        ];
        self.steps(rng, &steps)
    }

    /// A read step by step: edits of a type, or matches, so many each. Edits too many at its back are left out, and
    /// matches are in their place.
    fn steps(&self, rng: &mut Rng, steps: &[(Option<u8>, u16)]) -> Vec<EditModel> {
        let mut edits = Vec::new();
        let mut offset = 0;
        for (kind, count) in steps {
            for _ in 0..*count {
                edits.extend(kind.map(|kind| self.edit(rng, offset, kind)));
                offset += u16::from(*kind != Some(DELETION));
            }
        }
        edits.truncate(usize::from(EDITS_MAX));
        edits
    }
}

/// How many bases at an end are inserted: none mostly, few, or all or all but one of the piece at that end.
fn inserted_end(rng: &mut Rng, piece: Option<u16>) -> u16 {
    match (rng.below(6), piece) {
        (0, Some(bases)) => bases,
        (1, Some(bases)) => bases - 1,
        (2, _) => rng.between(1, 3) as u16,
        _ => 0,
    }
}

/// The offsets at which a piece other than the first begins.
fn borders(pieces: &[u16], left_soft: u16) -> Vec<u16> {
    let mut end = 0;
    let ends = pieces[..pieces.len() - 1].iter().map(|length| {
        end += length;
        end - left_soft
    });
    ends.collect()
}

/// Now and then a unit has the longest lines there can be.
#[derive(Clone, Copy)]
enum Longest {
    /// Soft clips about one base a piece, about two where there is one piece, and deletions between these bases: the
    /// longest input line that is accepted.
    Input,
    /// A deletion between any two bases, hard clips of five digits: the longest E-CIGAR that is accepted, and so the
    /// longest listed line.
    Ecigar,
}

fn longest(rng: &mut Rng) -> Option<Longest> {
    match rng.below(50) {
        0 => Some(Longest::Input),
        1 => Some(Longest::Ecigar),
        _ => None,
    }
}

impl Builder {
    fn longest_block(&self, rng: &mut Rng, longest: Longest) -> AlignedModel {
        let length = READ_LENGTH_MAX;
        let pieces = self.longest_pieces(rng, longest);
        let (clips, edits) = match (longest, &pieces[..]) {
            (Longest::Input, [first, .., last]) => {
                let (left, right) = (first - 1, last - 1);
                let at = rng.between(1, u64::from(length - left - right) - 1) as u16;
                ([left, 0, right, 1], self.deletions_between(rng, at))
            }
            (Longest::Input, _) => {
                let left = rng.below(u64::from(length) - 1) as u16;
                ([left, 0, length - 2 - left, 1], self.deletions_between(rng, 1))
            }
            (Longest::Ecigar, _) => ([0, u16::MAX, 0, u16::MAX], deletions_everywhere(rng, length)),
        };
        let soft = (0..clips[0] + clips[2]).map(|_| rng.below(4) as u8).collect();
        let rcomp = self.rcomp(rng);
        aligned_model(rcomp, pieces, clips, soft, edits)
    }

    /// As many edits as there may be: deletions between two bases, and now and then these are substituted.
    fn deletions_between(&self, rng: &mut Rng, at: u16) -> Vec<EditModel> {
        let mut edits = vec![deletion(at); usize::from(EDITS_MAX)];
        if rng.percent(30) {
            edits[0] = self.edit(rng, at - 1, SUBSTITUTION);
        }
        if rng.percent(30) {
            edits[usize::from(EDITS_MAX) - 1] = self.edit(rng, at, SUBSTITUTION);
        }
        edits
    }

    /// As many pieces as there may be: of one base but for the clipped ones, or of any lengths.
    fn longest_pieces(&self, rng: &mut Rng, longest: Longest) -> Vec<u16> {
        let length = READ_LENGTH_MAX;
        let most = u16::from(PIECES_MAX);
        if !self.class.has_splices() || self.splices_left / 2 < usize::from(most) || rng.percent(30) {
            return vec![length];
        }
        let mut pieces = match longest {
            Longest::Input => vec![1; usize::from(most)],
            Longest::Ecigar => vec![length / most; usize::from(most)],
        };
        let spare = length - pieces.iter().sum::<u16>();
        let first = rng.below(u64::from(spare) + 1) as u16;
        pieces[0] += first;
        pieces[usize::from(most) - 1] += spare - first;
        pieces
    }
}

fn deletion(offset: u16) -> EditModel {
    EditModel { offset, kind: DELETION, symbol: 0 }
}

/// A deletion between any two bases, and one of them twice for as many edits as there may be: no text is longer for it.
fn deletions_everywhere(rng: &mut Rng, bases: u16) -> Vec<EditModel> {
    let twice = rng.between(1, u64::from(bases) - 1) as u16;
    let mut offsets: Vec<u16> = (1..bases).chain([twice]).collect();
    offsets.sort();
    offsets.into_iter().map(deletion).collect()
}

fn aligned_model(rcomp: u8, pieces: Vec<u16>, clips: [u16; 4], soft: Vec<u8>, edits: Vec<EditModel>) -> AlignedModel {
    AlignedModel {
        length: pieces.iter().sum(),
        rcomp,
        piece_count: pieces.len() as u8,
        pieces,
        starts: vec![0],
        splices: Vec::new(),
        clips,
        soft,
        edit_count: edits.len() as u16,
        edits,
    }
}

/// Digits of which the longest splices have as many as can be: three more of ten than all fifteen of nine.
const LONG_SPLICES: [u64; 15] = {
    let mut counts = [100_000_000; 15];
    (counts[0], counts[7], counts[14]) = (1_000_000_000, 1_000_000_000, 1_000_000_000);
    counts
};

/// Lays the pieces of a read out, each behind the one before; false where they do not fit.
fn spread(rng: &mut Rng, block: &mut AlignedModel, room: u64) -> bool {
    let taken = block.taken_by_pieces();
    let splices = taken.len() as u64 - 1;
    let least: u64 = taken[..taken.len() - 1].iter().sum::<u64>() + splices + taken[taken.len() - 1].max(1);
    if least > room {
        return false;
    }
    let mut spare = room - least;
    let longest = splices == 15 && LONG_SPLICES.iter().sum::<u64>() <= spare && rng.percent(50);
    for number in 1..taken.len() {
        let more = if longest { LONG_SPLICES[number - 1] } else { longer(rng, block, &taken, number, spare) };
        spare = spare.saturating_sub(more);
        block.starts.push(block.starts[number - 1] + taken[number - 1] + 1 + more);
    }
    true
}

/// How much longer than 1 the splice in front of a piece is: nothing, few, many, what the greatest distance says, or
/// all that there may be.
fn longer(rng: &mut Rng, block: &AlignedModel, taken: &[u64], number: usize, spare: u64) -> u64 {
    let greatest = (u64::from(block.pieces[number - 1]) + DELTA_MAX).checked_sub(taken[number - 1] + 1);
    match rng.below(10) {
        0..=2 => 0,
        3..=5 => rng.below(spare.min(20) + 1),
        6..=7 => rng.below(spare.min(500) + 1),
        8 => greatest.map_or(0, |more| (more + rng.below(2)).min(spare)),
        _ => rng.below(spare + 1),
    }
}

/// The subsequence from which codes 1 to 4 take their first symbol: 2 to 5.
fn code_list(code: Option<u32>) -> usize {
    code.map_or(0, |code| code as usize + 1)
}
