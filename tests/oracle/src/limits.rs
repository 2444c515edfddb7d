//! Every limit of document 01 and of the wishes taken in, each written once and only here.

/// Bases of one read.
pub const READ_LENGTH_MAX: u16 = 1_000;
/// Pieces of one read, the parts between its splices.
pub const PIECES_MAX: u8 = 16;
/// The greatest rcomp of a read that has no splices, and of one that may have them (decision 73).
pub const RCOMP_MAX: u8 = 1;
pub const SPLICED_RCOMP_MAX: u8 = 2;
/// Edits of one segment.
pub const EDITS_MAX: u16 = 1_000;
/// Records of one unit.
pub const RECORDS_MAX: u16 = 1_024;
/// Pair subsequences, each with a 02 line of its own.
pub const SUBSEQUENCES: usize = 8;
/// Symbols of one subsequence.
pub const SYMBOLS_MAX: u16 = 1_024;
/// Digits of one input line, its 0A not counted. Each of two blocks may have the number of its pieces and their lengths.
pub const LINE_DIGITS_MAX: usize = 20_058 + 2 * 2 * (1 + 2 * PIECES_MAX as usize);
/// Symbol indexes of one reference line.
pub const REFERENCE_LINE_MAX: usize = 1_000;
/// Bases of the whole reference.
pub const REFERENCE_MAX: usize = 32_768;
/// Bytes of the longest listed line, its 0A counted: what the programs lend. Each of two E-CIGARs may have splices. No
/// wish lowers it, even where one makes E-CIGARs shorter (decision 71).
pub const LISTED_LINE_MAX: usize = 20_149 + 2 * 2 * SPLICES_TEXT_MAX;
/// Bytes of an 04 frame before its first segment, the least such a frame can have.
pub const LISTED_FRAME_LEAST: usize = 28;
/// Bytes of an 05 frame.
pub const REFUSED_FRAME: usize = 4;
/// Bytes of an 06 frame.
pub const END_FRAME: usize = 3;
/// No E-CIGAR has more characters; the longest has 4,165, as fifteen counts of ten digits do not fit into 2^32 positions.
/// Deletions stand between bases only, so there is one run less of them than bases.
pub const ECIGAR_MAX: usize = 4_012 + SPLICES_TEXT_MAX;
/// Characters of all splices of an E-CIGAR, a count of at most ten digits and a sign each.
const SPLICES_TEXT_MAX: usize = (PIECES_MAX as usize - 1) * "4294967295*".len();
