//! Table 35: the letters of the two alphabets.

use crate::refusal::Refusal;

/// S0 and S1, each in the order of its indexes.
const LETTERS: [&[u8]; 2] = [b"ACGTN", b"ACGTRYSWKMBDHVN-"];

/// What an unknown or padded base is called in either alphabet (10.2.2, decision 14).
pub const UNKNOWN: u8 = b'N';

#[derive(Clone, Copy, Debug, PartialEq, Eq)]
pub struct Alphabet(&'static [u8]);

impl Alphabet {
    pub fn from_number(number: u8) -> Option<Alphabet> {
        LETTERS.get(number as usize).map(|letters| Alphabet(letters))
    }

    pub fn size(self) -> u8 {
        self.0.len() as u8
    }

    pub fn letter(self, index: u8) -> Result<u8, Refusal> {
        self.0.get(index as usize).copied().ok_or(Refusal::Symbol)
    }
}
