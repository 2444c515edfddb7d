//! A listing cut at every byte.

use crate::run::{printed, small_units, Programs};
use bed::cases::Files;

const UNITS: usize = 6;
const LONGEST: usize = 500;
const ZEROS: [usize; 3] = [0, 1, 512];

/// Cut at every byte, with no, one and many zero bytes behind it; what resuming prints is cut somewhere and resumed again.
pub fn every_byte(programs: &Programs) -> Result<String, String> {
    let mut rng = programs.rng(1);
    let mut resumes = 0;
    for files in small_units(programs.seed, UNITS, LONGEST).into_iter().chain([spliced()]) {
        let paths = programs.write_unit(&files);
        let listing = files.expected();
        for (cut, zeros) in (0..=listing.len()).flat_map(|cut| ZEROS.map(|zeros| (cut, zeros))) {
            let what = || format!("a listing of {} bytes cut at {cut}, {zeros} zeros", listing.len());
            let resumed = programs.resume(&paths, &torn(&listing, cut, zeros));
            printed(&resumed, &listing, what)?;
            let again = rng.index(listing.len() + 1);
            let twice = programs.resume(&paths, &torn(&resumed.stdout, again, zeros));
            printed(&twice, &listing, || format!("{}, and again at {again}", what()))?;
            resumes += 2;
        }
    }
    Ok(format!("{resumes} resumes"))
}

/// The reads over introns of docs/FORMAT.md, with each of the three signs.
fn spliced() -> Files {
    let reference = include_bytes!("../../../../../docs/format/reference.hex").to_vec();
    let unit = include_bytes!("../../../../../docs/format/spliced-unit.hex").to_vec();
    Files { reference, unit, found: None }
}

pub fn torn(listing: &[u8], cut: usize, zeros: usize) -> Vec<u8> {
    [&listing[..cut], &vec![0; zeros]].concat()
}
