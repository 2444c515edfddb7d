//! Document 01's small examples, run: each a record call, and what the document prints of its answer.

use crate::call::Call;
use bed::RecordCall;
use oracle::limits::{LISTED_FRAME_LEAST, LISTED_LINE_MAX, SUBSEQUENCES};
use oracle::{Class, UnitNumbers};

/// The digits of a record line that are its first block's read length, and where those of its rcomp end.
const READ_LENGTH: std::ops::Range<usize> = 10..14;
const RCOMP_END: usize = 16;

/// What the document says of an answer.
enum Says {
    /// The only segment's E-CIGAR ends the line.
    Ecigar(&'static str),
    /// The bytes from read1First to the mate's position.
    Link(&'static str),
    /// The line is accepted.
    Accepted,
    Refused(i64),
}

struct Vector {
    number: u32,
    class: Class,
    alphabet: u8,
    segments: u8,
    line: &'static str,
    says: Says,
}

const fn one(number: u32, class: Class, line: &'static str, says: Says) -> Vector {
    Vector { number, class, alphabet: 0, segments: 1, line, says }
}

/// The unit reaches from 100 to 1,109. Subsequence 0 has the code 0, subsequence 1 the value 5.
const VECTORS: [Vector; 16] = [
    one(1, Class::P, "0300000064000500", Says::Ecigar("5=")),
    one(2, Class::N, "0300000064000400000200000003", Says::Ecigar("N2=N")),
    one(3, Class::M, "03000000660008000002000100000401", Says::Ecigar("1=A2=C3=")),
    one(4, Class::I, "03000000640006000002000000000003000000020001010000020100", Says::Ecigar("(2)1=2+1=[3]")),
    one(5, Class::I, "0300000064000300000000000000000000020001020000010200", Says::Ecigar("1=2-2=")),
    one(6, Class::I, "0300000064000300000000000000000000020001020000010002", Says::Ecigar("1=1-G1=")),
    one(7, Class::I, "0300000064000400000000000000000000020001010000030100", Says::Ecigar("1=1+1=1+")),
    one(8, Class::I, "03000000640003000001000200000000000000", Says::Ecigar("(1)2=")),
    Vector { alphabet: 1, ..one(9, Class::M, "0300000064000300000100010f", Says::Ecigar("1=-1=")) },
    Vector { segments: 2, ..one(10, Class::P, "03000003e8000100000100", Says::Link("0000020002000003ea")) },
    Vector { segments: 2, ..one(11, Class::U, "0300000000000100000103", Says::Link("010002000000000000")) },
    one(12, Class::I, "0300000064000300000000000000000000020001000200010200", Says::Refused(12)),
    one(13, Class::P, "030000006403e800", Says::Accepted),
    one(13, Class::P, "030000006403e900", Says::Refused(8)),
    one(13, Class::P, "0300000451000500", Says::Accepted),
    one(13, Class::P, "0300000452000500", Says::Refused(13)),
];

impl Vector {
    /// The line as the format has it: where a read may have splices, the number of its pieces, 1, and the read length
    /// once more stand behind rcomp.
    fn line(&self) -> String {
        if !self.class.has_splices() {
            return format!("{}\n", self.line);
        }
        let (head, rest) = self.line.split_at(RCOMP_END);
        format!("{head}01{}{rest}\n", &self.line[READ_LENGTH])
    }

    fn call(&self) -> Call {
        let class = 1 + Class::ALL.iter().position(|class| *class == self.class).expect("a class") as u8;
        let mut symbols = vec![Vec::new(); SUBSEQUENCES];
        (symbols[0], symbols[1]) = (vec![0], vec![5]);
        let unit = UnitNumbers {
            class,
            alphabet: self.alphabet,
            template_segments: self.segments,
            sequence_id: 2,
            first: 100,
            au_start: 100,
            au_end: 1_109,
            record_count: 1,
        };
        let lent = RecordCall {
            unit,
            reference: vec![0, 1, 2, 3, 0, 1, 2, 3],
            counts: symbols.iter().map(|list| list.len() as u16).collect(),
            symbols,
            state: vec![0; 1 + SUBSEQUENCES],
            line: self.line().into_bytes(),
            room: LISTED_LINE_MAX,
        };
        Call { lent, unit_length: 8 }
    }

    fn holds(&self) -> bool {
        let Ok(outcome) = self.call().through_c() else { return false };
        let written = usize::try_from(outcome.answer).map_or(&[][..], |bytes| &outcome.out[..bytes]);
        match self.says {
            Says::Refused(number) => outcome.answer == -number,
            Says::Accepted => outcome.answer > 0,
            Says::Ecigar(text) => {
                let digits: String = text.bytes().map(|letter| format!("{letter:02x}")).collect();
                written.ends_with(format!("{:04x}{digits}\n", text.len()).as_bytes())
            }
            Says::Link(digits) => {
                written.get(2 * LISTED_FRAME_LEAST - digits.len()..2 * LISTED_FRAME_LEAST) == Some(digits.as_bytes())
            }
        }
    }
}

/// The first example that is not as the document has it.
pub fn first_wrong() -> Option<u32> {
    VECTORS.iter().find(|vector| !vector.holds()).map(|vector| vector.number)
}
