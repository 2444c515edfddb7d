//! Builds small units by hand and takes listings apart, without the help of the decoder's own code.
#![allow(dead_code)]

/// Digits of the longest input line, and of the longest listed line (document 01; decisions 71 and 72).
pub const LINE_DIGITS: usize = 20_190;
pub const LISTED_DIGITS: usize = 20_808;

pub const P: u8 = 1;
pub const N: u8 = 2;
pub const M: u8 = 3;
pub const I: u8 = 4;
pub const HM: u8 = 5;
pub const U: u8 = 6;

/// Edit types.
pub const SUBSTITUTION: u8 = 0;
pub const INSERTION: u8 = 1;
pub const DELETION: u8 = 2;

pub fn hex(bytes: &[u8]) -> String {
    bytes.iter().map(|byte| format!("{byte:02x}")).collect()
}

pub fn line(bytes: &[u8]) -> Vec<u8> {
    format!("{}\n", hex(bytes)).into_bytes()
}

pub fn unhex(text: &str) -> Vec<u8> {
    (0..text.len()).step_by(2).map(|at| u8::from_str_radix(&text[at..at + 2], 16).unwrap()).collect()
}

/// A unit with everything that belongs to it. The record count follows the records unless it is given.
#[derive(Clone)]
pub struct Given {
    pub class: u8,
    pub alphabet: u8,
    pub template_segments: u8,
    pub sequence_id: u16,
    pub first: u32,
    pub au_start: u32,
    pub au_end: u32,
    pub record_count: Option<u16>,
    pub symbols: [Vec<u32>; 8],
    pub records: Vec<Vec<u8>>,
    pub reference: Vec<u8>,
}

/// One template segment; AU 100 to 2,099; a reference of 2,000 letters ACGTACGT... from 100 on.
pub fn given(class: u8) -> Given {
    Given {
        class,
        alphabet: 0,
        template_segments: if class == HM { 2 } else { 1 },
        sequence_id: 7,
        first: 100,
        au_start: 100,
        au_end: 2_099,
        record_count: None,
        symbols: Default::default(),
        records: Vec::new(),
        reference: (0..2_000).map(|place| (place % 4) as u8).collect(),
    }
}

impl Given {
    pub fn with(mut self, record: Vec<u8>) -> Given {
        self.records.push(record);
        self
    }

    /// Two template segments, and this symbol at the end of that subsequence.
    pub fn symbol(mut self, subsequence: usize, value: u32) -> Given {
        self.template_segments = 2;
        self.symbols[subsequence].push(value);
        self
    }

    pub fn count(&self) -> u16 {
        self.record_count.unwrap_or(self.records.len() as u16)
    }

    pub fn unit_frame(&self) -> Vec<u8> {
        let mut bytes = vec![1, self.class, self.alphabet, self.template_segments];
        bytes.extend(self.sequence_id.to_be_bytes());
        bytes.extend(self.first.to_be_bytes());
        bytes.extend(self.au_start.to_be_bytes());
        bytes.extend(self.au_end.to_be_bytes());
        bytes.extend(self.count().to_be_bytes());
        bytes
    }

    pub fn lines(&self) -> Vec<Vec<u8>> {
        let mut lines = vec![line(&self.unit_frame())];
        for (number, symbols) in self.symbols.iter().enumerate() {
            lines.push(line(&pair_frame(number as u8, symbols)));
        }
        lines.extend(self.records.iter().map(|record| line(record)));
        lines
    }

    pub fn file(&self) -> Vec<u8> {
        self.lines().concat()
    }

    pub fn reference_file(&self) -> Vec<u8> {
        self.reference.chunks(1_000).map(reference_line).collect::<Vec<_>>().concat()
    }

    pub fn listing(&self) -> Vec<u8> {
        oracle::listing(&self.reference_file(), &self.file())
    }

    pub fn resume(&self, found: &[u8]) -> Vec<u8> {
        oracle::resume(&self.reference_file(), &self.file(), found)
    }

    /// The answer to the unit as a whole: the refusal number and the record it stands at, or none.
    pub fn refusal(&self) -> Option<(u16, u8)> {
        refusal(&self.listing())
    }

    /// The records listed; the unit has to be accepted.
    pub fn listed(&self) -> Vec<Listed> {
        let listing = self.listing();
        assert_eq!(refusal(&listing), None);
        listed(&listing)
    }

    /// The only record's only segment.
    pub fn segment(&self) -> ListedSegment {
        let listed = self.listed();
        assert_eq!((listed.len(), listed[0].segments.len()), (1, 1));
        listed[0].segments[0].clone()
    }
}

pub fn pair_frame(subsequence: u8, symbols: &[u32]) -> Vec<u8> {
    let mut bytes = vec![2, subsequence];
    bytes.extend((symbols.len() as u16).to_be_bytes());
    bytes.extend(symbols.iter().flat_map(|symbol| symbol.to_be_bytes()));
    bytes
}

pub fn reference_line(indexes: &[u8]) -> Vec<u8> {
    line(&[&[7], indexes].concat())
}

pub fn record(pos: u32, blocks: &[Vec<u8>]) -> Vec<u8> {
    [&[3], &pos.to_be_bytes()[..], &blocks.concat()].concat()
}

pub fn block_p(length: u16) -> Vec<u8> {
    [&length.to_be_bytes()[..], &[0]].concat()
}

pub fn block_n(length: u16, offsets: &[u16]) -> Vec<u8> {
    let mut bytes = block_p(length);
    bytes.extend((offsets.len() as u16).to_be_bytes());
    bytes.extend(offsets.iter().flat_map(|offset| offset.to_be_bytes()));
    bytes
}

pub fn block_m(length: u16, edits: &[(u16, u8)]) -> Vec<u8> {
    let mut bytes = block_p(length);
    bytes.extend((edits.len() as u16).to_be_bytes());
    for (offset, symbol) in edits {
        bytes.extend(offset.to_be_bytes());
        bytes.push(*symbol);
    }
    bytes
}

/// What a block of classes I and HM has behind rcomp: the number of pieces and their lengths.
pub fn pieces(lengths: &[u16]) -> Vec<u8> {
    let mut bytes = vec![lengths.len() as u8];
    bytes.extend(lengths.iter().flat_map(|length| length.to_be_bytes()));
    bytes
}

/// Clips: left soft, left hard, right soft, right hard. The soft-clipped bases are all T; of each side at most
/// 1,000 are written, as more are refused by their number and would make the line too long.
pub fn block_i(length: u16, clips: [u16; 4], edits: &[(u16, u8, u8)]) -> Vec<u8> {
    block_pieces(length, 0, &[length], clips, edits)
}

/// The same of any rcomp and pieces.
pub fn block_pieces(length: u16, rcomp: u8, lengths: &[u16], clips: [u16; 4], edits: &[(u16, u8, u8)]) -> Vec<u8> {
    let mut bytes = [&length.to_be_bytes()[..], &[rcomp], &pieces(lengths)].concat();
    bytes.extend(clips.iter().flat_map(|clip| clip.to_be_bytes()));
    let soft = usize::from(clips[0].min(1_000)) + usize::from(clips[2].min(1_000));
    bytes.resize(bytes.len() + soft, 3);
    bytes.extend((edits.len() as u16).to_be_bytes());
    for (offset, kind, symbol) in edits {
        bytes.extend(offset.to_be_bytes());
        bytes.extend([*kind, *symbol]);
    }
    bytes
}

pub fn block_u(indexes: &[u8]) -> Vec<u8> {
    [&(indexes.len() as u16).to_be_bytes()[..], indexes].concat()
}

#[derive(Clone, Debug, PartialEq)]
pub struct ListedSegment {
    pub position: u32,
    pub rcomp: u8,
    pub bases: String,
    pub ecigar: String,
}

#[derive(Clone, Debug, PartialEq)]
pub struct Listed {
    pub number: u16,
    pub indexes: Vec<u16>,
    pub read1_first: u8,
    pub split_mate: u8,
    pub mate: (u16, u32),
    pub segments: Vec<ListedSegment>,
}

/// Takes the 04 lines of a listing apart.
pub fn listed(listing: &[u8]) -> Vec<Listed> {
    let text = std::str::from_utf8(listing).unwrap();
    text.lines().filter(|line| line.starts_with("04")).map(|line| listed_frame(&unhex(line))).collect()
}

fn listed_frame(bytes: &[u8]) -> Listed {
    let u16_at = |at: usize| u16::from_be_bytes([bytes[at], bytes[at + 1]]);
    let u32_at = |at: usize| u32::from_be_bytes([bytes[at], bytes[at + 1], bytes[at + 2], bytes[at + 3]]);
    let text = |from: usize, length: u16| String::from_utf8(bytes[from..from + usize::from(length)].to_vec()).unwrap();
    let mut segments = Vec::new();
    let mut at = 28;
    for _ in 0..bytes[21] {
        let length = u16_at(at + 5);
        let behind = at + 7 + usize::from(length);
        let ecigar_length = u16_at(behind);
        segments.push(ListedSegment {
            position: u32_at(at),
            rcomp: bytes[at + 4],
            bases: text(at + 7, length),
            ecigar: text(behind + 2, ecigar_length),
        });
        at = behind + 2 + usize::from(ecigar_length);
    }
    assert_eq!(at, bytes.len());
    Listed {
        number: u16_at(1),
        indexes: (0..8).map(|k| u16_at(3 + 2 * k)).collect(),
        read1_first: bytes[19],
        split_mate: bytes[20],
        mate: (u16_at(22), u32_at(24)),
        segments,
    }
}

/// Number of the record and number of the refusal in a listing's last line; none where 06 ends it.
pub fn refusal(listing: &[u8]) -> Option<(u16, u8)> {
    let text = std::str::from_utf8(listing).unwrap();
    let last = unhex(text.lines().last().unwrap());
    match (last[0], last.len()) {
        (5, 4) => Some((u16::from_be_bytes([last[1], last[2]]), last[3])),
        (6, 3) => None,
        _ => panic!("no listing ends in {last:02x?}"),
    }
}
