//! The work that is timed: a unit of equal records, made from a few numbers.

use oracle::limits::{LISTED_LINE_MAX, SUBSEQUENCES, SYMBOLS_MAX};
use oracle::UnitNumbers;

const ROW: usize = SYMBOLS_MAX as usize;
/// Where the first record stands, and how far the next one is from it.
const START: u32 = 1_000;
const STEP: u32 = 16;
/// How far a mate is behind the first segment.
const DELTA: u32 = 200;
/// How far a piece is behind the end of the one before it.
const GAP: u32 = 100;
const BASES: usize = 32_768;

#[derive(Clone, Copy)]
pub struct Case {
    pub class: char,
    pub alphabet: u8,
    pub segments: u8,
    pub bases: u16,
    pub edits: u16,
    /// Of each read; more than one in class I alone.
    pub pieces: u8,
}

/// Everything that the record calls of a unit are lent, for both decoders.
pub struct Work {
    pub unit: UnitNumbers,
    pub numbers: [u32; 8],
    pub reference: Vec<u8>,
    pub table: Vec<u32>,
    pub lists: Vec<Vec<u32>>,
    pub counts: Vec<u32>,
    pub narrow_counts: Vec<u16>,
    pub lines: Vec<Vec<u8>>,
    /// The same lines as they were before reads over introns, for the archive of a commit that reads no others.
    #[cfg(without_pieces)]
    pub lines_without_pieces: Vec<Vec<u8>>,
    /// Bytes of each listed line, which the second decoder says.
    pub listed: usize,
}

impl Work {
    fn first_listed(&self) -> usize {
        let fresh = [0; 1 + SUBSEQUENCES];
        let counts = &self.narrow_counts;
        let answer =
            oracle::record(&self.unit, &self.reference, &self.lists, counts, &fresh, &self.lines[0], LISTED_LINE_MAX);
        answer.expect("the record is accepted").0.len()
    }
}

impl Case {
    pub fn name(&self) -> String {
        let alphabet = if self.alphabet == 0 { "" } else { ", alphabet 1" };
        let pieces = if self.pieces == 1 { String::new() } else { format!(", {} pieces", self.pieces) };
        format!("{}{alphabet}, {} x {} bases, {} edits{pieces}", self.class, self.segments, self.bases, self.edits)
    }

    pub fn work(&self, records: u16) -> Work {
        let class = 1 + "PNMI".find(self.class).expect("a class with aligned segments") as u8;
        let unit = UnitNumbers {
            class,
            alphabet: self.alphabet,
            template_segments: self.segments,
            sequence_id: 7,
            first: START,
            au_start: START,
            au_end: START + BASES as u32 - 1,
            record_count: records,
        };
        let numbers = [
            class.into(),
            self.alphabet.into(),
            self.segments.into(),
            7,
            unit.first,
            unit.au_start,
            unit.au_end,
            records.into(),
        ];
        let lists = self.symbols(records);
        let mut table = vec![0; SUBSEQUENCES * ROW];
        for (row, list) in table.chunks_mut(ROW).zip(&lists) {
            row[..list.len()].copy_from_slice(list);
        }
        let mut work = Work {
            unit,
            numbers,
            reference: (0..BASES).map(|i| (i * i / 7 % 4) as u8).collect(),
            table,
            counts: lists.iter().map(|list| list.len() as u32).collect(),
            narrow_counts: lists.iter().map(|list| list.len() as u16).collect(),
            lists,
            lines: self.lines(records, true),
            #[cfg(without_pieces)]
            lines_without_pieces: self.lines(records, false),
            listed: 0,
        };
        work.listed = work.first_listed();
        work
    }

    /// Pairs in one record: code 0 and twice the delta for each. A template of one segment takes nothing. Then of each segment
    /// code 0 and twice the gap for each piece behind its first.
    fn symbols(&self, records: u16) -> Vec<Vec<u32>> {
        let mut lists = vec![Vec::new(); SUBSEQUENCES];
        let splices = usize::from(self.segments) * usize::from(self.pieces - 1);
        for _ in 0..records {
            if self.segments == 2 {
                lists[0].push(0);
                lists[1].push(2 * DELTA);
            }
            lists[0].extend(vec![0; splices]);
            lists[1].extend(vec![2 * GAP; splices]);
        }
        lists
    }

    fn lines(&self, records: u16, pieces: bool) -> Vec<Vec<u8>> {
        (0..u32::from(records)).map(|record| self.line(START + record * STEP, pieces)).collect()
    }

    fn line(&self, pos: u32, pieces: bool) -> Vec<u8> {
        let mut frame = vec![3];
        frame.extend(pos.to_be_bytes());
        for _ in 0..self.segments {
            self.block(&mut frame, pieces);
        }
        let mut line: Vec<u8> = frame.iter().flat_map(|byte| format!("{byte:02x}").into_bytes()).collect();
        line.push(b'\n');
        line
    }

    /// The number of pieces and their lengths: equal ones, and what is left over in the last.
    fn pieces(&self, frame: &mut Vec<u8>) {
        let each = self.bases / u16::from(self.pieces);
        frame.push(self.pieces);
        for _ in 1..self.pieces {
            frame.extend(each.to_be_bytes());
        }
        frame.extend((self.bases - each * u16::from(self.pieces - 1)).to_be_bytes());
    }

    /// Edits spread evenly over the read; in class I every second one is an insertion or a deletion.
    fn block(&self, frame: &mut Vec<u8>, pieces: bool) {
        frame.extend(self.bases.to_be_bytes());
        frame.push(0);
        if self.class == 'I' {
            if pieces {
                self.pieces(frame);
            }
            frame.extend([0; 8]);
        }
        if self.class == 'P' {
            return;
        }
        frame.extend(self.edits.to_be_bytes());
        for edit in 0..self.edits {
            let offset = (u32::from(edit) * u32::from(self.bases) / u32::from(self.edits)) as u16;
            frame.extend(offset.to_be_bytes());
            match (self.class, edit % 4) {
                ('I', 1) => frame.extend([1, 2]),
                ('I', 3) => frame.extend([2, 0]),
                ('I', _) => frame.extend([0, 3]),
                ('M', _) => frame.push(1),
                _ => {}
            }
        }
    }
}
