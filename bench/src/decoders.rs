//! Those that are compared: the proved record call, that of an earlier commit where scripts/bench is given one, the second
//! decoder, and the floor.

use crate::work::{Case, Work};
use oracle::limits::LISTED_LINE_MAX;
use std::hint::black_box;

#[derive(Clone, Copy)]
pub struct Decoder {
    pub name: &'static str,
    /// All records of the work, one after the other; how many bytes were written.
    pub run: fn(&Work, &mut [u8]) -> usize,
    /// Whether its frames of class I have pieces, so that it can read one of several.
    pub pieces: bool,
}

impl Decoder {
    pub fn reads(&self, case: &Case) -> bool {
        self.pieces || case.pieces == 1
    }
}

pub const PROVED: Decoder = Decoder { name: "proved", run: proved, pieces: true };

/// The proved one first: the others are what it is compared with.
pub const DECODERS: &[Decoder] = &[
    PROVED,
    #[cfg(before)]
    Decoder { name: "before", run: before, pieces: !cfg!(without_pieces) },
    Decoder { name: "second", run: second, pieces: true },
    Decoder { name: "floor", run: floor, pieces: true },
];

/// `$run` calls `$record`, the record call of an archive as C sees it, on the lines in the form that it reads. A macro, so that
/// the signature is written once for the two archives, and each is called directly.
macro_rules! archive {
    ($run:ident, $record:ident, $lines:ident) => {
        fn $run(work: &Work, out: &mut [u8]) -> usize {
            extern "C" {
                fn $record(
                    unit: *const u32,
                    unit_length: usize,
                    reference: *const u8,
                    reference_length: usize,
                    symbols: *const u32,
                    symbols_length: usize,
                    counts: *const u32,
                    counts_length: usize,
                    state: *mut u32,
                    state_length: usize,
                    line: *const u8,
                    line_length: usize,
                    out: *mut u8,
                    out_length: usize,
                ) -> i64;
            }
            let mut state = [0u32; 9];
            let mut written = 0;
            for line in &work.$lines {
                // Sound: each pointer is that of live memory with as many items as the length says, and no two overlap.
                let answer = unsafe {
                    $record(
                        work.numbers.as_ptr(),
                        work.numbers.len(),
                        work.reference.as_ptr(),
                        work.reference.len(),
                        work.table.as_ptr(),
                        work.table.len(),
                        work.counts.as_ptr(),
                        work.counts.len(),
                        state.as_mut_ptr(),
                        state.len(),
                        line.as_ptr(),
                        line.len(),
                        out.as_mut_ptr(),
                        out.len(),
                    )
                };
                written += usize::try_from(answer).expect("the record is accepted");
            }
            black_box(&out);
            written
        }
    };
}

archive!(proved, lampbuckle_record, lines);
#[cfg(all(before, not(without_pieces)))]
archive!(before, before_record, lines);
#[cfg(all(before, without_pieces))]
archive!(before, before_record, lines_without_pieces);

fn second(work: &Work, _: &mut [u8]) -> usize {
    let mut state = vec![0u16; 9];
    let mut written = 0;
    for line in &work.lines {
        let answer = oracle::record(
            &work.unit,
            &work.reference,
            &work.lists,
            &work.narrow_counts,
            &state,
            line,
            LISTED_LINE_MAX,
        );
        let (listed, next) = answer.expect("the record is accepted");
        written += listed.len();
        state[0] = next.number;
        state[1..].copy_from_slice(&next.indexes);
        black_box(&listed);
    }
    written
}

extern "C" {
    fn floor_record(line: *const u8, line_length: usize, out: *mut u8, out_length: usize) -> usize;
}

/// As many digits as the proved call writes for a record of this work.
fn floor(work: &Work, out: &mut [u8]) -> usize {
    let mut written = 0;
    for line in &work.lines {
        // Sound: both pointers are those of live memory with as many bytes as the lengths say.
        written += unsafe { floor_record(line.as_ptr(), line.len(), out.as_mut_ptr(), work.listed) };
    }
    black_box(&out);
    written
}
