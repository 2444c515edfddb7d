//! Running the product's programs on the files of a case and comparing what they print with the oracle.

use crate::cases::Files;
use crate::shrink::{records, shrink};
use std::fs;
use std::io;
use std::path::{Path, PathBuf};
use std::process::{Command, Stdio};
use std::sync::atomic::{AtomicBool, AtomicU64, Ordering};
use std::sync::Mutex;

/// The two programs under test.
#[derive(Clone, Debug)]
pub struct Programs {
    pub list: PathBuf,
    pub resume: PathBuf,
}

/// A case whose output was not the oracle's.
#[derive(Clone, Debug)]
pub struct Difference {
    pub files: Files,
    pub expected: Vec<u8>,
    pub answer: Answer,
}

/// What a program did: what it wrote, and how it ended where that was not by itself.
#[derive(Clone, Debug, PartialEq, Eq)]
pub struct Answer {
    pub output: Vec<u8>,
    pub errors: Vec<u8>,
    pub killed: bool,
}

impl Programs {
    /// None where the program prints what the oracle does. Only standard output counts, and that the program
    /// was not ended by a signal; document 01 says nothing of exit codes.
    pub fn difference(&self, files: &Files, folder: &Path) -> io::Result<Option<Difference>> {
        let expected = files.expected();
        let answer = self.run(files, folder)?;
        if answer.output == expected && !answer.killed {
            return Ok(None);
        }
        Ok(Some(Difference { files: files.clone(), expected, answer }))
    }

    fn run(&self, files: &Files, folder: &Path) -> io::Result<Answer> {
        let paths = write_files(files, folder)?;
        let program = if files.found.is_some() { &self.resume } else { &self.list };
        let output = Command::new(program).args(paths).stdin(Stdio::null()).output()?;
        Ok(Answer { output: output.stdout, errors: output.stderr, killed: output.status.code().is_none() })
    }
}

/// Writes reference.hex, unit.hex and, for resuming, found.hex.
pub fn write_files(files: &Files, folder: &Path) -> io::Result<Vec<PathBuf>> {
    let mut paths = vec![folder.join("reference.hex"), folder.join("unit.hex")];
    write_anew(&paths[0], &files.reference)?;
    write_anew(&paths[1], &files.unit)?;
    if let Some(found) = &files.found {
        paths.push(folder.join("found.hex"));
        write_anew(&paths[2], found)?;
    }
    Ok(paths)
}

/// Writes a file in the place of the one before. That one is removed first: a file that is cut to nothing and written
/// again is sent to the disk at once by some systems (ext4), and a run of thousands of cases then waits for the disk.
pub fn write_anew(path: &Path, bytes: &[u8]) -> io::Result<()> {
    match fs::remove_file(path) {
        Err(error) if error.kind() != io::ErrorKind::NotFound => Err(error),
        _ => fs::write(path, bytes),
    }
}

/// Runs the cases from 0 to `count` on `workers` threads. Gives the number and the difference of a case that
/// differs, the first one noticed.
pub fn first_difference(
    programs: &Programs,
    folder: &Path,
    workers: usize,
    count: u64,
    case: impl Fn(u64) -> Files + Sync,
) -> io::Result<Option<(u64, Difference)>> {
    let next = AtomicU64::new(0);
    let stop = AtomicBool::new(false);
    let noticed = Mutex::new(Ok(None));
    std::thread::scope(|scope| {
        for worker in 0..workers {
            let (next, stop, noticed, case) = (&next, &stop, &noticed, &case);
            scope.spawn(move || {
                let ended = work(programs, &folder.join(format!("worker-{worker}")), next, stop, count, case);
                let nothing = matches!(ended, Ok(None));
                if let (false, Ok(mut noticed)) = (nothing, noticed.lock()) {
                    stop.store(true, Ordering::Relaxed);
                    if matches!(*noticed, Ok(None)) {
                        *noticed = ended;
                    }
                }
            });
        }
    });
    noticed.into_inner().unwrap_or(Ok(None))
}

/// One thread's share: takes the next case until there is none left or somebody has found a difference.
fn work(
    programs: &Programs,
    folder: &Path,
    next: &AtomicU64,
    stop: &AtomicBool,
    count: u64,
    case: &(impl Fn(u64) -> Files + Sync),
) -> io::Result<Option<(u64, Difference)>> {
    fs::create_dir_all(folder)?;
    while !stop.load(Ordering::Relaxed) {
        let number = next.fetch_add(1, Ordering::Relaxed);
        if number >= count {
            break;
        }
        if let Some(difference) = programs.difference(&case(number), folder)? {
            return Ok(Some((number, difference)));
        }
    }
    Ok(None)
}

/// Writes a difference down: as it was met, and shrunk to few records. Gives the smaller one.
pub fn keep(programs: &Programs, difference: &Difference, folder: &Path) -> io::Result<Difference> {
    keep_one(difference, &folder.join("as-met"))?;
    let work = folder.join("work");
    fs::create_dir_all(&work)?;
    let still_differs = |files: &Files| matches!(programs.difference(files, &work), Ok(Some(_)));
    let small = shrink(difference.files.clone(), still_differs);
    // A program that answers now one way, now another may agree at last; then the case as met is all there is.
    let small = programs.difference(&small, &work)?.unwrap_or_else(|| difference.clone());
    fs::remove_dir_all(&work)?;
    keep_one(&small, &folder.join("shrunk"))?;
    Ok(small)
}

fn keep_one(difference: &Difference, folder: &Path) -> io::Result<()> {
    fs::create_dir_all(folder)?;
    write_files(&difference.files, folder)?;
    fs::write(folder.join("expected.hex"), &difference.expected)?;
    fs::write(folder.join("printed.hex"), &difference.answer.output)?;
    fs::write(folder.join("errors.txt"), &difference.answer.errors)
}

/// Where two outputs part: the line, counted from 0, and the byte in the whole output.
pub fn describe(difference: &Difference) -> String {
    let (expected, printed) = (&difference.expected, &difference.answer.output);
    let same = expected.iter().zip(printed).take_while(|(one, other)| one == other).count();
    let line = expected[..same].iter().filter(|byte| **byte == b'\n').count();
    let ended = if difference.answer.killed { "; the program was ended by a signal" } else { "" };
    format!(
        "{} records; outputs part in line {line} at byte {same} (expected {} bytes, printed {}){ended}",
        records(&difference.files.unit),
        expected.len(),
        printed.len(),
    )
}
