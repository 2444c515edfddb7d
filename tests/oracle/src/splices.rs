//! Reads over introns: the pieces of a read, and where they lie (Table 62).

use crate::frame::Frame;
use crate::limits::PIECES_MAX;
use crate::pairing::Taker;
use crate::refusal::Refusal;

/// A part of a read that lies in one stretch on the reference; a read without splices is one piece.
#[derive(Clone, Copy, Debug)]
pub(crate) struct Piece {
    /// May lie below 0 or past every u32: it is not wrapped, and refused when the piece is looked at (decision 74).
    pub(crate) position: i64,
    /// Read bases, soft-clipped ones among them.
    pub(crate) length: u16,
    /// Read bases without those that are soft-clipped.
    pub(crate) mapped_length: usize,
}

impl Piece {
    fn new(position: i64, length: u16) -> Piece {
        Piece { position, length, mapped_length: usize::from(length) }
    }
}

/// What can be wrong with the splices of a read, each under the number of one refusal. They are told apart for the sake
/// of those who count what a run has reached.
#[derive(Clone, Copy, Debug, PartialEq, Eq, PartialOrd, Ord, Hash)]
pub enum Fault {
    /// An rcomp that has no sign.
    Rcomp,
    NoPiece,
    TooManyPieces,
    EmptyPiece,
    /// The lengths add up to less than the read, or to more.
    LengthsBelow,
    LengthsAbove,
    /// Subsequence 0, 1 or 3 is used up.
    NoCode,
    NoDistance,
    NoPosition,
    /// A code that Table 62 reserves.
    Code(u32),
    Distance,
    /// The left soft clip reaches the first piece's length, or the right one the last's.
    LeftClip,
    RightClip,
    /// A piece behind the first starts below 0, past every position, before the unit, behind it, or ends behind it.
    BelowZero,
    PastAll,
    BeforeUnit,
    BehindUnit,
    EndsBehindUnit,
    /// The splice in front of a piece counts 0, or less.
    NoSplice,
    NegativeSplice,
    /// A reference byte outside the alphabet under a match of a piece behind the first.
    Reference,
}

impl Fault {
    pub fn refusal(self) -> Refusal {
        match self {
            Fault::Rcomp => Refusal::BlockValue,
            Fault::NoPiece | Fault::TooManyPieces | Fault::EmptyPiece | Fault::LengthsBelow | Fault::LengthsAbove => {
                Refusal::ReadLength
            }
            Fault::NoCode | Fault::NoDistance | Fault::NoPosition => Refusal::SymbolsUsedUp,
            Fault::Code(_) => Refusal::PairCode,
            Fault::Distance => Refusal::PairValue,
            Fault::LeftClip | Fault::RightClip => Refusal::SoftClips,
            Fault::BelowZero
            | Fault::PastAll
            | Fault::BeforeUnit
            | Fault::BehindUnit
            | Fault::EndsBehindUnit
            | Fault::NoSplice
            | Fault::NegativeSplice => Refusal::Position,
            Fault::Reference => Refusal::Symbol,
        }
    }
}

impl From<Fault> for Refusal {
    fn from(fault: Fault) -> Refusal {
        Refusal::Splices(fault)
    }
}

/// A read in one piece.
pub(crate) fn one_piece(position: i64, length: u16) -> Vec<Piece> {
    vec![Piece::new(position, length)]
}

/// The pieces of a read of this length whose first one lies at `position`: their number and lengths from the frame,
/// then, once these are whole, the symbols that say where the others lie (decision 74).
pub(crate) fn pieces(frame: &mut Frame, length: u16, position: i64, taker: &mut Taker) -> Result<Vec<Piece>, Refusal> {
    let mut pieces = lengths(frame, length, position)?;
    place(&mut pieces, taker)?;
    Ok(pieces)
}

/// The number and each length are checked when complete, the sum once all are read (decision 72).
fn lengths(frame: &mut Frame, read_length: u16, position: i64) -> Result<Vec<Piece>, Refusal> {
    let number = frame.u8()?;
    if number == 0 {
        return Err(Fault::NoPiece.into());
    }
    if number > PIECES_MAX {
        return Err(Fault::TooManyPieces.into());
    }
    let mut pieces = Vec::with_capacity(usize::from(number));
    for _ in 0..number {
        let length = frame.u16()?;
        if length == 0 {
            return Err(Fault::EmptyPiece.into());
        }
        pieces.push(Piece::new(position, length));
    }
    let sum: u32 = pieces.iter().map(|piece| u32::from(piece.length)).sum();
    match sum.cmp(&u32::from(read_length)) {
        std::cmp::Ordering::Less => Err(Fault::LengthsBelow.into()),
        std::cmp::Ordering::Equal => Ok(pieces),
        std::cmp::Ordering::Greater => Err(Fault::LengthsAbove.into()),
    }
}

/// Table 62. The distance counts from the end that the piece before would have if it took the reference base by base:
/// its soft clips and insertions count, its deletions do not (decision 75).
fn place(pieces: &mut [Piece], taker: &mut Taker) -> Result<(), Fault> {
    for number in 1..pieces.len() {
        let before = pieces[number - 1];
        pieces[number].position = match taker.take(0).map_err(|_| Fault::NoCode)? {
            0 => before.position + i64::from(before.length) + distance(taker)?,
            2 => i64::from(taker.take(3).map_err(|_| Fault::NoPosition)?),
            code => return Err(Fault::Code(code)),
        };
    }
    Ok(())
}

/// The low bit is the sign, the rest the distance.
fn distance(taker: &mut Taker) -> Result<i64, Fault> {
    let value = taker.take(1).map_err(|_| Fault::NoDistance)?;
    let value = u16::try_from(value).map_err(|_| Fault::Distance)?;
    let distance = i64::from(value >> 1);
    Ok(if value & 1 == 1 { -distance } else { distance })
}

/// The soft clips leave every piece a base: of one piece together, else each those of its own side (decision 77).
pub(crate) fn clip(pieces: &mut [Piece], left_soft: u16, right_soft: u16) -> Result<(), Refusal> {
    match pieces {
        [only] => {
            let clipped = usize::from(left_soft) + usize::from(right_soft);
            if clipped >= only.mapped_length {
                return Err(Refusal::SoftClips);
            }
            only.mapped_length -= clipped;
        }
        [first, .., last] => {
            if left_soft >= first.length {
                return Err(Fault::LeftClip.into());
            }
            if right_soft >= last.length {
                return Err(Fault::RightClip.into());
            }
            first.mapped_length -= usize::from(left_soft);
            last.mapped_length -= usize::from(right_soft);
        }
        [] => {}
    }
    Ok(())
}
