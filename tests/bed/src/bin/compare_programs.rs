//! compare-programs LIST_BIN RESUME_BIN [--units N] [--resumes N] [--seed S] [--keep FOLDER]: runs the product's
//! programs on random files and compares what they print with the oracle, byte for byte.

use bed::compare::{describe, first_difference, keep, Difference, Programs};
use bed::{listing_case, resume_case, Files};
use std::io;
use std::path::{Path, PathBuf};
use std::process::ExitCode;
use std::time::Instant;

const WORKERS: usize = 2;

struct Options {
    programs: Programs,
    units: u64,
    resumes: u64,
    seed: u64,
    keep: PathBuf,
}

fn main() -> ExitCode {
    let Some(options) = options() else {
        eprintln!("usage: compare-programs LIST_BIN RESUME_BIN [--units N] [--resumes N] [--seed S] [--keep FOLDER]");
        return ExitCode::from(2);
    };
    let folder = std::env::temp_dir().join(format!("compare-programs-{}", std::process::id()));
    let ended = compare(&options, &folder);
    // Of the folder only the working files of this run are left.
    let removed = std::fs::remove_dir_all(&folder);
    match ended.and_then(|same| removed.map(|()| same)) {
        Ok(true) => ExitCode::SUCCESS,
        Ok(false) => ExitCode::FAILURE,
        Err(error) => {
            eprintln!("{error}");
            ExitCode::from(2)
        }
    }
}

fn options() -> Option<Options> {
    let mut arguments = std::env::args_os().skip(1);
    let programs = Programs { list: arguments.next()?.into(), resume: arguments.next()?.into() };
    let mut options = Options { programs, units: 20_000, resumes: 20_000, seed: 1, keep: "differences".into() };
    while let Some(name) = arguments.next() {
        let value = arguments.next()?;
        let number = || value.to_str()?.parse().ok();
        match name.to_str()? {
            "--units" => options.units = number()?,
            "--resumes" => options.resumes = number()?,
            "--seed" => options.seed = number()?,
            "--keep" => options.keep = value.into(),
            _ => return None,
        }
    }
    Some(options)
}

/// True where all outputs were the same.
fn compare(options: &Options, folder: &Path) -> io::Result<bool> {
    let seed = options.seed;
    let listings = part(options, folder, "listing", options.units, |case| listing_case(seed, case))?;
    Ok(listings && part(options, folder, "resume", options.resumes, |case| resume_case(seed, case))?)
}

fn part(
    options: &Options,
    folder: &Path,
    name: &str,
    count: u64,
    case: impl Fn(u64) -> Files + Sync,
) -> io::Result<bool> {
    let start = Instant::now();
    match first_difference(&options.programs, folder, WORKERS, count, case)? {
        None => {
            println!(
                "{name}: {count} cases of seed {} are the same ({:.1} s)",
                options.seed,
                start.elapsed().as_secs_f64()
            );
            Ok(true)
        }
        Some((number, difference)) => {
            report(options, name, number, &difference)?;
            Ok(false)
        }
    }
}

fn report(options: &Options, name: &str, number: u64, difference: &Difference) -> io::Result<()> {
    let folder = options.keep.join(format!("{name}-seed-{}-case-{number}", options.seed));
    println!("{name}: case {number} of seed {} differs", options.seed);
    println!("  as met: {}", describe(difference));
    let small = keep(&options.programs, difference, &folder)?;
    println!("  shrunk: {}", describe(&small));
    println!("  files: {}", folder.display());
    Ok(())
}
