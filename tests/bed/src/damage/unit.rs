//! Damage to the numbers of a unit.

use crate::rng::Rng;
use oracle::limits::RECORDS_MAX;
use oracle::{Class, UnitNumbers};

/// One unit value at or past its range.
pub fn damage_unit(rng: &mut Rng, unit: &mut UnitNumbers) {
    match rng.below(8) {
        0 => unit.class = *rng.pick(&[0, 7, u8::MAX]),
        1 => unit.alphabet = *rng.pick(&[2, u8::MAX]),
        2 => unit.template_segments = *rng.pick(&[0, 3, u8::MAX]),
        3 => unit.record_count = *rng.pick(&[0, 1, RECORDS_MAX, RECORDS_MAX + 1, u16::MAX]),
        4 => (unit.au_start, unit.au_end) = (unit.au_end, unit.au_start),
        5 => unit.template_segments ^= 3,
        6 => unit.alphabet ^= 1,
        _ => unit.class = 1 + rng.below(Class::ALL.len() as u64) as u8,
    }
}
