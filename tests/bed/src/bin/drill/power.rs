//! The power fails while `list` writes to a file; and a found file that is larger than a listing can be.

use crate::run::{printed, Programs};
use bed::largest::largest_unit;
use std::fs::{File, OpenOptions};
use std::io::{Seek, SeekFrom, Write};
use std::process::{Command, Stdio};
use std::time::{Duration, Instant};

const FAILURES: usize = 20;
/// A failure may take whole blocks of the disk with it.
const BLOCK: u64 = 4_096;
const LARGE: usize = 50_000_000;

/// `list` is killed at a random moment, the tail of its file overwritten with zeros, and the rest resumed.
pub fn failures(programs: &Programs) -> Result<String, String> {
    let mut rng = programs.rng(2);
    let files = largest_unit();
    let listing = files.expected();
    let paths = programs.write_unit(&files);
    let whole = Instant::now();
    printed(&programs.list(&paths), &listing, || "list, not killed".into())?;
    let whole = whole.elapsed();
    let path = programs.folder.join("killed.hex");
    let mut killed = 0;
    for failure in 0..FAILURES {
        let out = File::create(&path).expect("the folder takes a file");
        let mut list = Command::new(&programs.list)
            .args(&paths)
            .stdout(out)
            .stdin(Stdio::null())
            .spawn()
            .expect("the program runs");
        std::thread::sleep(Duration::from_nanos(rng.below(whole.as_nanos() as u64 + 1)));
        killed += usize::from(list.try_wait().expect("a child can be waited for").is_none());
        list.kill().and_then(|()| list.wait()).expect("a child can be killed");
        zero_the_tail(&path, rng.below(3 * BLOCK), rng.below(2 * BLOCK));
        let found = std::fs::read(&path).expect("the file is there");
        let resumed = programs.resume(&paths, &found);
        printed(&resumed, &listing, || format!("failure {failure}, {} bytes found", found.len()))?;
    }
    if killed < FAILURES / 4 {
        return Err(format!("only {killed} of {FAILURES} were killed while they wrote"));
    }
    Ok(format!("{killed} of {FAILURES} killed before they had ended, all resumed"))
}

/// The last bytes become zeros, and more zeros follow them.
fn zero_the_tail(path: &std::path::Path, lost: u64, added: u64) {
    let mut file = OpenOptions::new().write(true).open(path).expect("the file is there");
    let length = file.metadata().expect("the file has a length").len();
    file.seek(SeekFrom::Start(length.saturating_sub(lost))).expect("a file can be moved in");
    let zeros = vec![0; (lost.min(length) + added) as usize];
    file.write_all(&zeros).expect("the folder takes what is written");
}

/// Many whole lines between the first and the last: none of them is looked at, and all are kept.
pub fn large_found(programs: &Programs) -> Result<String, String> {
    let files = largest_unit();
    let listing = files.expected();
    let paths = programs.write_unit(&files);
    let lines: Vec<&[u8]> = listing.split_inclusive(|byte| *byte == b'\n').collect();
    let mut found = lines[0].to_vec();
    while found.len() < LARGE {
        found.extend(lines[7]);
    }
    // The last kept line is that of record 1,000.
    found.extend(lines[1_001]);
    let expected = [&found, &lines[1_002..].concat()[..]].concat();
    found.extend(&lines[1_002][..100]);
    let start = Instant::now();
    let resumed = programs.resume(&paths, &found);
    printed(&resumed, &expected, || format!("{} bytes found", found.len()))?;
    Ok(format!("{} bytes found, {} ms", found.len(), start.elapsed().as_millis()))
}
