//! Running the two programs on files in a folder of this run.

use bed::cases::valid_case;
use bed::compare::write_anew;
use bed::{listing_case, Files, Rng};
use std::path::PathBuf;
use std::process::{Command, Output, Stdio};

pub struct Programs {
    pub list: PathBuf,
    pub resume: PathBuf,
    pub seed: u64,
    pub folder: PathBuf,
}

impl Programs {
    pub fn from_arguments() -> Option<Programs> {
        let mut arguments = std::env::args().skip(1);
        let (list, resume) = (arguments.next()?.into(), arguments.next()?.into());
        let seed = match arguments.next().as_deref() {
            None => 1,
            Some("--seed") => arguments.next()?.parse().ok()?,
            Some(_) => return None,
        };
        let folder = std::env::temp_dir().join(format!("drill-{}", std::process::id()));
        std::fs::create_dir_all(&folder).ok()?;
        Some(Programs { list, resume, seed, folder })
    }

    pub fn clear(&self) {
        // What is left of a run harms nobody: the folder's name is this run's own.
        let _ = std::fs::remove_dir_all(&self.folder);
    }

    pub fn rng(&self, drill: u64) -> Rng {
        Rng::for_case(self.seed, drill)
    }

    pub fn write(&self, name: &str, bytes: &[u8]) -> PathBuf {
        let path = self.folder.join(name);
        write_anew(&path, bytes).expect("the folder for temporary files takes what is written");
        path
    }

    /// The reference and unit files, written down.
    pub fn write_unit(&self, files: &Files) -> [PathBuf; 2] {
        [self.write("reference.hex", &files.reference), self.write("unit.hex", &files.unit)]
    }

    /// `list` on two files.
    pub fn list(&self, paths: &[PathBuf; 2]) -> Output {
        output(Command::new(&self.list).args(paths))
    }

    /// `resume` on two files and what was found.
    pub fn resume(&self, paths: &[PathBuf; 2], found: &[u8]) -> Output {
        let found = self.write("found.hex", found);
        output(Command::new(&self.resume).args(paths).arg(found))
    }
}

pub fn output(command: &mut Command) -> Output {
    command.stdin(Stdio::null()).output().expect("the program runs")
}

/// Units whose listing is short, in order and damaged by turns.
pub fn small_units(seed: u64, count: usize, longest: usize) -> Vec<Files> {
    let unit = |case: u64| if case % 2 == 0 { valid_case(seed, case).1 } else { listing_case(seed, case) };
    let short = |files: &Files| (60..longest).contains(&files.expected().len());
    (0..).map(unit).filter(short).take(count).collect()
}

/// An error where a program did not print this.
pub fn printed(output: &Output, expected: &[u8], what: impl Fn() -> String) -> Result<(), String> {
    if output.stdout == expected && output.status.success() {
        return Ok(());
    }
    let same = output.stdout.iter().zip(expected).take_while(|(one, other)| one == other).count();
    Err(format!(
        "{}: {} bytes printed for {}, which part at byte {same}; {}; {}",
        what(),
        output.stdout.len(),
        expected.len(),
        output.status,
        String::from_utf8_lossy(&output.stderr).trim_end(),
    ))
}
