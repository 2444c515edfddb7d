//! The largest units there are.

use crate::cases::Files;
use oracle::Class;

/// Records of two segments, each of 1,000 bases and as many edits: no record is longer, and no unit has more than 1,024.
pub fn unit_of(records: usize) -> Files {
    let mut unit = format!("010400020001000003e8000003e8000007cf{records:04x}\n");
    for subsequence in 0..2 {
        unit += &format!("02{subsequence:02x}{records:04x}{}\n", "00000000".repeat(records));
    }
    for subsequence in 2..8 {
        unit += &format!("02{subsequence:02x}0000\n");
    }
    let edits: String = (0..1_000).map(|offset| format!("{offset:04x}00{:02x}", offset % 4)).collect();
    let pieces = if Class::I.has_splices() { "0103e8" } else { "" };
    let block = format!("03e800{pieces}{}03e8{edits}", "0".repeat(16));
    unit += &format!("03000003e8{block}{block}\n").repeat(records);
    let reference = format!("07{}\n", "00010203".repeat(250));
    Files { reference: reference.into_bytes(), unit: unit.into_bytes(), found: None }
}

pub fn largest_unit() -> Files {
    unit_of(1_024)
}
