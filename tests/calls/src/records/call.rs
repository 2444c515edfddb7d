//! A record call with everything that is lent to it, and the call itself through the C boundary.

use bed::{RecordCall, Rng};
use calls::Lent;
use oracle::limits::{SUBSEQUENCES, SYMBOLS_MAX};

/// Symbols of one subsequence in the flat table.
const ROW: usize = SYMBOLS_MAX as usize;

/// What an output is filled with before the call, so that a byte written too far shows.
const BLANK: u8 = 0x5a;

#[derive(Clone, Debug)]
pub struct Call {
    /// As the second decoder is handed it.
    pub lent: RecordCall,
    /// How many numbers of the unit are lent: eight, or the call is refused.
    pub unit_length: usize,
}

/// What a call hands back, and what stands in the memory that it may write to.
#[derive(Clone, Debug, PartialEq, Eq)]
pub struct Outcome {
    pub answer: i64,
    pub state: Vec<u32>,
    pub out: Vec<u8>,
}

extern "C" {
    fn lampbuckle_record(
        unit: *const u32,
        unit_length: usize,
        reference: *const u8,
        reference_length: usize,
        symbols: *const u32,
        symbols_length: usize,
        counts: *const u32,
        counts_length: usize,
        state: *mut u32,
        state_length: usize,
        line: *const u8,
        line_length: usize,
        out: *mut u8,
        out_length: usize,
    ) -> i64;
}

/// A call of the test bed, now and then with a slice of another shape than the call wants.
pub fn random(seed: u64, case: u64) -> Call {
    let mut rng = Rng::for_case(seed, case);
    let mut lent = bed::record_call(&mut rng);
    let mut unit_length = 8;
    if rng.percent(10) {
        match rng.below(4) {
            0 => unit_length = *rng.pick(&[0, 7]),
            1 => lent.counts.truncate(*rng.pick(&[0, SUBSEQUENCES - 1])),
            2 => lent.symbols.truncate(*rng.pick(&[0, SUBSEQUENCES - 1])),
            _ => lent.state.truncate(*rng.pick(&[0, 1, SUBSEQUENCES])),
        }
    }
    Call { lent, unit_length }
}

impl Call {
    /// The unit's values in the order of the unit line.
    fn unit(&self) -> Vec<u32> {
        let unit = &self.lent.unit;
        let numbers = [
            unit.class.into(),
            unit.alphabet.into(),
            unit.template_segments.into(),
            unit.sequence_id.into(),
            unit.first,
            unit.au_start,
            unit.au_end,
            unit.record_count.into(),
        ];
        numbers[..self.unit_length].to_vec()
    }

    /// Row s, symbol k at s * 1,024 + k. What a row has behind its symbols is never looked at, so it is filled with a
    /// number that no symbol may be taken from.
    fn table(&self) -> Vec<u32> {
        let mut table = vec![u32::MAX; ROW * self.lent.symbols.len()];
        for (row, list) in table.chunks_mut(ROW).zip(&self.lent.symbols) {
            for (place, &symbol) in row.iter_mut().zip(list) {
                *place = symbol;
            }
        }
        table
    }

    /// The state's numbers as C lends them.
    pub fn state(&self) -> Vec<u32> {
        self.lent.state.iter().map(|&number| number.into()).collect()
    }

    /// The output before the call.
    pub fn blank(&self) -> Vec<u8> {
        vec![BLANK; self.lent.room]
    }

    /// The call itself, with margins around all that is lent.
    pub fn through_c(&self) -> Result<Outcome, &'static str> {
        let (table, state, blank) = (self.table(), self.state(), self.blank());
        let counts: Vec<u32> = self.lent.counts.iter().map(|&count| count.into()).collect();
        let mut lent = Memory {
            unit: Lent::new(&self.unit()),
            reference: Lent::new(&self.lent.reference),
            symbols: Lent::new(&table),
            counts: Lent::new(&counts),
            state: Lent::new(&state),
            line: Lent::new(&self.lent.line),
            out: Lent::new(&blank),
        };
        let answer = lent.call();
        for (what, untouched) in [
            ("the unit, or memory beside it", lent.unit.unchanged(&self.unit())),
            ("the reference, or memory beside it", lent.reference.unchanged(&self.lent.reference)),
            ("the symbols, or memory beside them", lent.symbols.unchanged(&table)),
            ("the counts, or memory beside them", lent.counts.unchanged(&counts)),
            ("the line, or memory beside it", lent.line.unchanged(&self.lent.line)),
        ] {
            if !untouched {
                return Err(what);
            }
        }
        let state = lent.state.back().ok_or("memory beside the state")?;
        let out = lent.out.back().ok_or("memory beside the output")?;
        Ok(Outcome { answer, state, out })
    }
}

/// All that is lent to one call.
struct Memory {
    unit: Lent<u32>,
    reference: Lent<u8>,
    symbols: Lent<u32>,
    counts: Lent<u32>,
    state: Lent<u32>,
    line: Lent<u8>,
    out: Lent<u8>,
}

impl Memory {
    fn call(&mut self) -> i64 {
        // Sound: each pointer is that of a live vector with as many items as the length says, and no two overlap.
        unsafe {
            lampbuckle_record(
                self.unit.start(),
                self.unit.length(),
                self.reference.start(),
                self.reference.length(),
                self.symbols.start(),
                self.symbols.length(),
                self.counts.start(),
                self.counts.length(),
                self.state.start(),
                self.state.length(),
                self.line.start(),
                self.line.length(),
                self.out.start(),
                self.out.length(),
            )
        }
    }
}
