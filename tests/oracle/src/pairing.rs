//! The pair lines (kind 02) and Table 60.

use crate::frame::Frame;
use crate::kind;
use crate::limits::{SUBSEQUENCES, SYMBOLS_MAX};
use crate::refusal::Refusal;
use crate::unit::{Class, Unit};

/// The symbols of the eight subsequences.
pub type Symbols = [Vec<u32>; SUBSEQUENCES];

/// What is carried from record to record: the next record number and the symbols taken so far.
#[derive(Clone, Debug, PartialEq, Eq, Default)]
pub struct State {
    pub number: u16,
    pub indexes: [u16; SUBSEQUENCES],
}

/// What the pair symbols say about a record.
#[derive(Clone, Debug, PartialEq, Eq)]
pub struct Link {
    pub segments: u8,
    pub split_mate: u8,
    pub read1_first: u8,
    pub mate: Mate,
}

#[derive(Clone, Debug, PartialEq, Eq)]
pub enum Mate {
    /// No aligned mate: class U, class HM, unpaired, or one template segment.
    None,
    /// In this record, so much behind pos, on the unit's sequence id.
    Behind { delta: u16 },
    /// In another record.
    Elsewhere { sequence_id: u16, position: u32 },
}

/// Reads a pair frame that has to carry this subsequence number: the number before the count, the count (4)
/// before the symbols (decision 1).
pub fn read_pair_line(bytes: &[u8], subsequence: usize) -> Result<Vec<u32>, Refusal> {
    let mut frame = Frame::new(bytes);
    frame.kind(kind::PAIR)?;
    if usize::from(frame.u8()?) != subsequence {
        return Err(Refusal::Frame);
    }
    let count = frame.u16()?;
    symbol_count_fits(count)?;
    let mut symbols = Vec::with_capacity(usize::from(count));
    for _ in 0..count {
        symbols.push(frame.u32()?);
    }
    frame.end()?;
    Ok(symbols)
}

pub fn symbol_count_fits(count: u16) -> Result<(), Refusal> {
    if count > SYMBOLS_MAX {
        return Err(Refusal::SymbolCount);
    }
    Ok(())
}

pub fn counts_of(symbols: &Symbols) -> [u16; SUBSEQUENCES] {
    symbols.each_ref().map(|list| list.len() as u16)
}

/// Takes one record's pair symbols (Table 60). The state that comes back has the indexes moved on and the
/// number as it was; a refusal leaves the caller with the state it had.
pub fn pair(
    unit: &Unit,
    symbols: &Symbols,
    counts: &[u16; SUBSEQUENCES],
    state: &State,
) -> Result<(Link, State), Refusal> {
    let mut taker = Taker::new(symbols, counts, state);
    let link = link(unit, &mut taker)?;
    Ok((link, taker.state))
}

pub(crate) fn link(unit: &Unit, taker: &mut Taker) -> Result<Link, Refusal> {
    if unit.template_segments == 1 {
        Ok(Link { segments: 1, split_mate: 0, read1_first: 1, mate: Mate::None })
    } else if unit.class == Class::HM {
        let value = taker.take_u16(1)?;
        Ok(Link { segments: 2, split_mate: 0, read1_first: read1_first(value), mate: Mate::None })
    } else {
        coded(unit, taker)
    }
}

/// Every class but HM: one code from subsequence 0 says what else is taken.
fn coded(unit: &Unit, taker: &mut Taker) -> Result<Link, Refusal> {
    let aligned = unit.class != Class::U;
    let code = taker.take(0)?;
    match code {
        0 if aligned => {
            let value = taker.take_u16(1)?;
            Ok(Link {
                segments: 2,
                split_mate: 0,
                read1_first: read1_first(value),
                mate: Mate::Behind { delta: value >> 1 },
            })
        }
        // In class U subsequence 1 is not touched.
        0 => Ok(Link { segments: 2, split_mate: 0, read1_first: 1, mate: Mate::None }),
        1 | 2 => {
            let position = taker.take(code as usize + 1)?;
            let mate = Mate::Elsewhere { sequence_id: unit.sequence_id, position };
            Ok(split(u8::from(code == 2), aligned, mate))
        }
        3 | 4 => {
            let sequence_id = taker.take(code as usize + 1)?;
            // Class U passes over the symbol and does not look at its value.
            let sequence_id = if aligned { as_u16(sequence_id)? } else { 0 };
            let position = taker.take(code as usize + 3)?;
            Ok(split(u8::from(code == 4), aligned, Mate::Elsewhere { sequence_id, position }))
        }
        5 | 6 => Ok(Link { segments: 1, split_mate: 2, read1_first: u8::from(code == 5), mate: Mate::None }),
        _ => Err(Refusal::PairCode),
    }
}

fn split(read1_first: u8, aligned: bool, mate: Mate) -> Link {
    let mate = if aligned { mate } else { Mate::None };
    Link { segments: 1, split_mate: 1, read1_first, mate }
}

fn read1_first(value: u16) -> u8 {
    if value & 1 == 1 {
        0
    } else {
        1
    }
}

fn as_u16(value: u32) -> Result<u16, Refusal> {
    u16::try_from(value).map_err(|_| Refusal::PairValue)
}

/// The symbols with the state that taking them moves on.
pub struct Taker<'a> {
    symbols: &'a Symbols,
    counts: &'a [u16; SUBSEQUENCES],
    pub state: State,
}

impl<'a> Taker<'a> {
    pub fn new(symbols: &'a Symbols, counts: &'a [u16; SUBSEQUENCES], state: &State) -> Self {
        Taker { symbols, counts, state: state.clone() }
    }

    pub(crate) fn take(&mut self, subsequence: usize) -> Result<u32, Refusal> {
        let index = self.state.indexes[subsequence];
        if index >= self.counts[subsequence] {
            return Err(Refusal::SymbolsUsedUp);
        }
        let symbol = self.symbols[subsequence].get(usize::from(index)).copied().ok_or(Refusal::SymbolsUsedUp)?;
        self.state.indexes[subsequence] = index + 1;
        Ok(symbol)
    }

    /// A value is checked as it is taken, before the next symbol is wanted (document 01, Order).
    fn take_u16(&mut self, subsequence: usize) -> Result<u16, Refusal> {
        as_u16(self.take(subsequence)?)
    }
}
