//! The refusal numbers of document 01, in the order of its table. They are named here and nowhere else.

use crate::deletions::Bare;
use crate::splices::Fault;

#[derive(Clone, Copy, Debug, PartialEq, Eq, PartialOrd, Ord, Hash)]
pub enum Refusal {
    /// Other digits, odd count, too long a line, or a last line without 0A.
    Digits,
    /// Wrong kind or subsequence number, a frame cut short or too long, reference counts exceeded.
    Frame,
    /// A unit field outside its values.
    UnitValue,
    /// A symbol count above its limit.
    SymbolCount,
    /// A pair symbol is wanted and its subsequence is used up.
    SymbolsUsedUp,
    /// A pair code that Table 60 or Table 62 does not have.
    PairCode,
    /// A value from subsequence 1, 4 or 5 that is no u16.
    PairValue,
    /// Read length outside its values, or pieces that do not make it up.
    ReadLength,
    /// Soft clips reach the read length, or leave a piece no base.
    SoftClips,
    /// A symbol outside the alphabet, or such a reference byte under a match.
    Symbol,
    /// Rcomp, edit type, edit count or deletion symbol outside its values.
    BlockValue,
    /// Offset out of order or outside the read.
    Offset,
    /// A position outside the unit, pos not 0 in U, or a splice that is none.
    Position,
    /// Lines missing, bytes or symbols left over, or a state that cannot be.
    Lines,
    /// First kept line is not the listing's first line.
    FirstLine,
    /// Last kept line cannot be continued.
    LastLine,
    /// Lent output shorter than the line with its 0A.
    Room,
    /// One of those above, of the splices of a read: they say more, so that a run can tell what it has reached.
    Splices(Fault),
    /// The number of `Offset`, of a deletion that has no base before it, or none behind it; what is wrong, and whether
    /// the read has splices.
    Deletion { bare: Bare, spliced: bool },
}

impl Refusal {
    pub fn number(self) -> u8 {
        match self {
            Refusal::Digits => 1,
            Refusal::Frame => 2,
            Refusal::UnitValue => 3,
            Refusal::SymbolCount => 4,
            Refusal::SymbolsUsedUp => 5,
            Refusal::PairCode => 6,
            Refusal::PairValue => 7,
            Refusal::ReadLength => 8,
            Refusal::SoftClips => 9,
            Refusal::Symbol => 10,
            Refusal::BlockValue => 11,
            Refusal::Offset => 12,
            Refusal::Position => 13,
            Refusal::Lines => 14,
            Refusal::FirstLine => 15,
            Refusal::LastLine => 16,
            Refusal::Room => 17,
            Refusal::Splices(fault) => fault.refusal().number(),
            Refusal::Deletion { .. } => Refusal::Offset.number(),
        }
    }
}
