//! bench-programs LIST RESUME ORACLE_LIST ORACLE_RESUME: the programs end to end, as processes on files, beside the second
//! decoder's: units of the longest records, listed, and resumed behind their last record. Each figure is a median with its quartiles.

use bed::largest::unit_of;
use std::path::{Path, PathBuf};
use std::process::{Command, Stdio};
use std::time::Instant;

const ROUNDS: usize = 21;

/// Milliseconds of each round.
fn rounds(program: &str, paths: &[PathBuf]) -> Vec<f64> {
    let round = |_| {
        let start = Instant::now();
        let ended = Command::new(program).args(paths).stdin(Stdio::null()).stdout(Stdio::null()).status();
        assert!(ended.is_ok_and(|status| status.success()), "{program} runs");
        start.elapsed().as_secs_f64() * 1e3
    };
    let mut times: Vec<f64> = (0..ROUNDS).map(round).collect();
    times.sort_by(f64::total_cmp);
    times
}

fn show(times: &[f64]) -> String {
    let [low, median, high] = [1, 2, 3].map(|quarter| times[times.len() * quarter / 4]);
    format!("{median:.2} ({low:.2} to {high:.2})")
}

fn write(folder: &Path, name: &str, bytes: &[u8]) -> PathBuf {
    let path = folder.join(name);
    std::fs::write(&path, bytes).expect("the folder for temporary files takes what is written");
    path
}

fn main() {
    let words: Vec<String> = std::env::args().skip(1).collect();
    let [list, resume, oracle_list, oracle_resume] = &words[..] else {
        eprintln!("usage: bench-programs LIST RESUME ORACLE_LIST ORACLE_RESUME");
        return;
    };
    let folder = std::env::temp_dir().join(format!("bench-programs-{}", std::process::id()));
    std::fs::create_dir_all(&folder).expect("a folder for temporary files");
    println!("| work | ms | MB/s of input | second decoder, ms |\n|---|---|---|---|");
    for records in [1, 16, 256, 1_024] {
        let files = unit_of(records);
        let listing = files.expected();
        let mut paths =
            vec![write(&folder, "reference.hex", &files.reference), write(&folder, "unit.hex", &files.unit)];
        let ours = rounds(list, &paths);
        let rate = files.unit.len() as f64 / 1e3 / ours[ROUNDS / 2];
        println!("| list, {records} records | {} | {rate:.0} | {} |", show(&ours), show(&rounds(oracle_list, &paths)));
        // Cut in the last line: every record is kept.
        let found = write(&folder, "found.hex", &listing[..listing.len() - 3]);
        paths.push(found.clone());
        let ours = rounds(resume, &paths);
        let rate = (files.unit.len() + listing.len()) as f64 / 1e3 / ours[ROUNDS / 2];
        println!("| resume, {records} kept | {} | {rate:.0} | {} |", show(&ours), show(&rounds(oracle_resume, &paths)));
        println!("| cat of the same three files | {} | | |", show(&rounds("cat", &paths)));
    }
    // What is left of a run harms nobody: the folder's name is this run's own.
    let _ = std::fs::remove_dir_all(&folder);
}
