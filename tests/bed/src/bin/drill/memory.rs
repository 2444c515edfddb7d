//! Peak memory: a large unit takes no more than a small one.

use crate::run::Programs;
use bed::largest::unit_of;
use bed::Files;
use std::io::Read;
use std::process::{Command, Stdio};

/// Kilobytes that the largest unit may take more than a small one. The system counts pages in batches, so that the same program
/// shows now some, now others; a unit that was held whole would take 16,000 more.
const MORE: u64 = 512;

pub fn constant(programs: &Programs) -> Result<String, String> {
    let small = peak(programs, &unit_of(16))?;
    let large = peak(programs, &unit_of(1_024))?;
    if large > small + MORE {
        return Err(format!("{small} kB for 16 records, {large} kB for 1,024"));
    }
    Ok(format!("{small} kB for 16 records, {large} kB for 1,024"))
}

/// The most resident memory of `list`, asked for while it waits for its output to be read.
fn peak(programs: &Programs, files: &Files) -> Result<u64, String> {
    let paths = programs.write_unit(files);
    let list = Command::new(&programs.list).args(&paths).stdout(Stdio::piped()).spawn();
    let mut list = list.map_err(|error| error.to_string())?;
    let status = format!("/proc/{}/status", list.id());
    let mut out = list.stdout.take().ok_or("the output is piped")?;
    let (mut piece, mut printed, mut most) = ([0; 4_096], Vec::<u8>::new(), 0);
    loop {
        most = most.max(peak_of(&std::fs::read_to_string(&status).unwrap_or_default()));
        match out.read(&mut piece).map_err(|error| error.to_string())? {
            0 => break,
            n => printed.extend(&piece[..n]),
        }
    }
    list.wait().map_err(|error| error.to_string())?;
    if printed != files.expected() || most == 0 {
        return Err(format!("{} bytes printed, at most {most} kB", printed.len()));
    }
    Ok(most)
}

/// The system's line is `VmHWM: 1234 kB`.
fn peak_of(status: &str) -> u64 {
    let line = status.lines().find_map(|line| line.strip_prefix("VmHWM:"));
    line.and_then(|rest| rest.trim().strip_suffix(" kB")?.parse().ok()).unwrap_or(0)
}
