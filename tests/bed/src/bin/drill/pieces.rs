//! Files that do not come at once: pipes, written to in pieces.

use crate::run::{output, printed, small_units, Programs};
use bed::Files;
use std::fs::OpenOptions;
use std::io::Write;
use std::path::{Path, PathBuf};
use std::process::{Command, Output};
use std::time::Duration;

const UNITS: usize = 12;
const LONGEST: usize = 400;

/// Both files, one byte at a time.
pub fn single_bytes(programs: &Programs) -> Result<String, String> {
    let units = small_units(programs.seed + 1, UNITS, LONGEST);
    for files in &units {
        let bytes = |file: &[u8]| file.iter().map(|byte| vec![*byte]).collect();
        let pause = Duration::ZERO;
        let listed = piped(programs, files, bytes(&files.reference), bytes(&files.unit), pause);
        printed(&listed, &files.expected(), || "one byte at a time".into())?;
    }
    Ok(format!("{} units", units.len()))
}

/// The unit file in two pieces, the second a moment after the first.
pub fn every_cut(programs: &Programs) -> Result<String, String> {
    let units = small_units(programs.seed + 2, 2, LONGEST);
    let mut cuts = 0;
    for files in &units {
        for cut in 0..=files.unit.len() {
            let pieces = [&files.unit[..cut], &files.unit[cut..]].map(<[u8]>::to_vec).to_vec();
            let listed = piped(programs, files, vec![files.reference.clone()], pieces, Duration::from_millis(1));
            printed(&listed, &files.expected(), || format!("cut at {cut}"))?;
            cuts += 1;
        }
    }
    Ok(format!("{cuts} cuts"))
}

fn piped(programs: &Programs, files: &Files, reference: Vec<Vec<u8>>, unit: Vec<Vec<u8>>, pause: Duration) -> Output {
    let paths = ["reference.pipe", "unit.pipe"].map(|name| pipe(programs, name));
    // A program that does not read a file to its end leaves its writer behind: that is no failure.
    let writers = [(paths[0].clone(), reference), (paths[1].clone(), unit)]
        .map(|(path, pieces)| std::thread::spawn(move || feed(&path, &pieces, pause)));
    let listed = programs.list(&paths);
    for (path, writer) in paths.iter().zip(writers) {
        // Where the program never opened the pipe its writer still waits for a reader.
        let unread = OpenOptions::new().read(true).write(true).open(path);
        let _ = writer.join();
        drop(unread);
    }
    let _ = files;
    listed
}

fn feed(path: &Path, pieces: &[Vec<u8>], pause: Duration) {
    let Ok(mut pipe) = OpenOptions::new().write(true).open(path) else { return };
    for piece in pieces {
        if pipe.write_all(piece).is_err() {
            return;
        }
        std::thread::sleep(pause);
    }
}

fn pipe(programs: &Programs, name: &str) -> PathBuf {
    let path = programs.folder.join(name);
    let _ = std::fs::remove_file(&path);
    let made = output(Command::new("mkfifo").arg(&path));
    assert!(made.status.success(), "mkfifo: {}", String::from_utf8_lossy(&made.stderr));
    path
}
