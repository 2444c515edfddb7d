//! A unit as its author means it, before it is written down.

use oracle::limits::SUBSEQUENCES;
use oracle::{Class, State, Symbols, UnitNumbers};

#[derive(Clone, Debug)]
pub struct UnitModel {
    pub unit: UnitNumbers,
    pub symbols: Symbols,
    pub records: Vec<RecordModel>,
    pub reference: Vec<u8>,
}

#[derive(Clone, Debug)]
pub struct RecordModel {
    pub pos: u32,
    pub blocks: Vec<BlockModel>,
    /// Symbols taken by the records before this one.
    pub before: [u16; SUBSEQUENCES],
}

#[derive(Clone, Debug)]
pub enum BlockModel {
    Aligned(AlignedModel),
    Unaligned(UnalignedModel),
}

/// The read length stands beside the bases, so that damage can make them disagree.
#[derive(Clone, Debug)]
pub struct UnalignedModel {
    pub length: u16,
    pub bases: Vec<u8>,
}

#[derive(Clone, Debug)]
pub struct AlignedModel {
    pub length: u16,
    pub rcomp: u8,
    /// How many pieces the frame says there are, and their lengths; written where the class may have splices only.
    pub piece_count: u8,
    pub pieces: Vec<u16>,
    /// Where each piece starts, counted from the first one's position.
    pub starts: Vec<u64>,
    /// The symbols that say so, in the order in which they are taken.
    pub splices: Vec<SymbolPlace>,
    /// Left soft, left hard, right soft, right hard; written in classes I and HM only.
    pub clips: [u16; 4],
    pub soft: Vec<u8>,
    /// How many edits the frame says there are.
    pub edit_count: u16,
    pub edits: Vec<EditModel>,
}

/// A symbol of one of the subsequences.
#[derive(Clone, Copy, Debug, PartialEq, Eq)]
pub struct SymbolPlace {
    pub subsequence: usize,
    pub index: usize,
}

#[derive(Clone, Copy, Debug)]
pub struct EditModel {
    pub offset: u16,
    pub kind: u8,
    pub symbol: u8,
}

pub const SUBSTITUTION: u8 = 0;
pub const INSERTION: u8 = 1;
pub const DELETION: u8 = 2;

/// How many of the mapped bases are inserted at the front of a read in order, and how many at its back, before and
/// behind all that are not; all of them, twice, where no base is left.
pub fn inserted_at_the_ends(edits: &[EditModel], mapped: u64) -> (u64, u64) {
    let inserted = || edits.iter().filter(|edit| edit.kind == INSERTION).map(|edit| u64::from(edit.offset));
    let front = (0..mapped).zip(inserted()).take_while(|(base, offset)| base == offset).count();
    let last: Vec<u64> = inserted().collect();
    let back = (0..mapped).rev().zip(last.into_iter().rev()).take_while(|(base, offset)| base == offset).count();
    (front as u64, back as u64)
}

/// Leaves out the deletions that have no match or substitution before them, or none behind them.
pub fn keep_deletions_between_bases(edits: &mut Vec<EditModel>, mapped: u64) {
    let (front, back) = inserted_at_the_ends(edits, mapped);
    let between = |offset: u64| front < offset && offset + back < mapped;
    edits.retain(|edit| edit.kind != DELETION || between(u64::from(edit.offset)));
}

impl AlignedModel {
    /// Reference positions taken, by the rule of the model's author: one a mapped base, less the insertions,
    /// and one a deletion.
    pub fn taken(&self) -> u64 {
        self.taken_by_pieces().iter().sum()
    }

    pub fn mapped(&self) -> u64 {
        u64::from(self.length) - u64::from(self.clips[0]) - u64::from(self.clips[2])
    }

    /// The offsets of the first and the last mapped base that is a match or a substitution, where there is one.
    pub fn aligned_ends(&self) -> Option<(u64, u64)> {
        let (front, back) = inserted_at_the_ends(&self.edits, self.mapped());
        (front < self.mapped()).then(|| (front, self.mapped() - 1 - back))
    }

    /// The offset behind the last mapped base of each piece. Where a block has been damaged it may be anything, but for
    /// one piece it is what the read length says.
    fn ends(&self) -> Vec<i64> {
        let last = self.pieces.len().saturating_sub(1);
        let mut end = -i64::from(self.clips[0]);
        let lengths = self.pieces.iter().enumerate();
        lengths
            .map(|(number, length)| {
                end += i64::from(if last == 0 { self.length } else { *length });
                end - if number == last { i64::from(self.clips[2]) } else { 0 }
            })
            .collect()
    }

    /// Reference positions taken by each piece. An edit is counted where its base lies, a deletion that damage has put
    /// behind the last base with the last piece.
    pub fn taken_by_pieces(&self) -> Vec<u64> {
        let ends = self.ends();
        let mut taken = ends.clone();
        for number in (1..taken.len()).rev() {
            taken[number] -= ends[number - 1];
        }
        for edit in &self.edits {
            let piece = ends.iter().position(|end| i64::from(edit.offset) < *end).unwrap_or(ends.len().max(1) - 1);
            let Some(taken) = taken.get_mut(piece) else { break };
            match edit.kind {
                DELETION => *taken += 1,
                INSERTION => *taken -= 1,
                _ => {}
            }
        }
        taken.into_iter().map(|count| count.max(0) as u64).collect()
    }

    /// The offsets at which a piece other than the first begins.
    pub fn borders(&self) -> Vec<u64> {
        let ends = self.ends();
        ends[..ends.len().saturating_sub(1)].iter().map(|end| (*end).max(0) as u64).collect()
    }

    /// Positions from the first one taken to behind the last.
    pub fn reach(&self) -> u64 {
        let start = self.starts.last().copied().unwrap_or(0);
        start + self.taken_by_pieces().last().copied().unwrap_or(0)
    }

    /// The same, with at least one position for the last piece: it has to start in the unit.
    pub fn room(&self) -> u64 {
        let start = self.starts.last().copied().unwrap_or(0);
        self.reach().max(start + 1)
    }

    pub fn is_spliced(&self) -> bool {
        self.pieces.len() > 1
    }
}

impl UnitModel {
    pub fn class(&self) -> Class {
        Class::from_number(self.unit.class).expect("a model's class is one of the six until it is damaged")
    }

    pub fn state_before(&self, record: usize) -> State {
        State { number: record as u16, indexes: self.records[record].before }
    }
}
