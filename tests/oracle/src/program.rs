//! What the two programs share: reading the named files and writing the answer.

use std::io::Write;
use std::process::ExitCode;

/// Reads the files named by the arguments, as many as `names` has, and writes what `answer` makes of them.
/// A file that cannot be read is no line of anybody's: standard output stays empty (decision 34).
pub fn run(names: &[&str], answer: impl Fn(&[Vec<u8>]) -> Vec<u8>) -> ExitCode {
    let paths: Vec<_> = std::env::args_os().skip(1).collect();
    if paths.len() != names.len() {
        eprintln!("usage: {}", names.join(" "));
        return ExitCode::from(2);
    }
    let mut files = Vec::new();
    for path in paths {
        match std::fs::read(&path) {
            Ok(bytes) => files.push(bytes),
            Err(error) => {
                eprintln!("{}: {error}", path.to_string_lossy());
                return ExitCode::FAILURE;
            }
        }
    }
    match std::io::stdout().write_all(&answer(&files)) {
        Ok(()) => ExitCode::SUCCESS,
        Err(error) => {
            eprintln!("standard output: {error}");
            ExitCode::FAILURE
        }
    }
}
