//! The two programs of the bed: coverage reaches what it has to, and compare-programs finds what differs.

use bed::cases::{valid_case, Files};
use bed::shrink::{records, shrink};
use std::fs;
use std::os::unix::fs::PermissionsExt;
use std::path::{Path, PathBuf};
use std::process::{Command, Output};

const COVERAGE: &str = env!("CARGO_BIN_EXE_coverage");
const COMPARE: &str = env!("CARGO_BIN_EXE_compare-programs");

/// A program of the oracle, which a build or test of the whole workspace puts beside this one.
fn oracle(name: &str) -> PathBuf {
    let path = Path::new(COMPARE).with_file_name(name);
    assert!(path.exists(), "{} is missing: build the whole workspace", path.display());
    path
}

fn folder(name: &str) -> PathBuf {
    let folder = std::env::temp_dir().join(format!("bed-{name}-{}", std::process::id()));
    fs::create_dir_all(&folder).unwrap();
    folder
}

/// A program that is wrong on purpose.
fn script(folder: &Path, text: &str) -> PathBuf {
    let path = folder.join("program.sh");
    fs::write(&path, format!("#!/bin/sh\n{text}\n")).unwrap();
    fs::set_permissions(&path, fs::Permissions::from_mode(0o755)).unwrap();
    path
}

fn compare(list: &Path, resume: &Path, folder: &Path) -> Output {
    let arguments = ["--units", "150", "--resumes", "150", "--seed", "5", "--keep"];
    Command::new(COMPARE).arg(list).arg(resume).args(arguments).arg(folder.join("kept")).output().unwrap()
}

fn said(output: &Output) -> String {
    String::from_utf8_lossy(&output.stdout).into_owned()
}

#[test]
fn coverage_reaches_every_number_and_feature() {
    let output = Command::new(COVERAGE).output().unwrap();
    assert!(output.status.success(), "{}", said(&output));
}

/// Too few cases cannot reach everything, and coverage says so.
#[test]
fn coverage_fails_on_too_few_cases() {
    let few = ["--units", "40", "--resumes", "40", "--calls", "40"];
    let output = Command::new(COVERAGE).args(few).output().unwrap();
    assert_eq!(output.status.code(), Some(1));
    assert!(said(&output).contains("too seldom: listing, number 9"), "{}", said(&output));
}

#[test]
fn the_oracle_agrees_with_itself() {
    let folder = folder("same");
    let output = compare(&oracle("oracle-list"), &oracle("oracle-resume"), &folder);
    assert!(output.status.success(), "{}", said(&output));
    assert!(!folder.join("kept").exists());
    fs::remove_dir_all(folder).unwrap();
}

#[test]
fn a_program_that_prints_nothing_is_found() {
    let folder = folder("nothing");
    let nothing = script(&folder, "exit 0");
    let output = compare(&nothing, &oracle("oracle-resume"), &folder);
    assert_eq!(output.status.code(), Some(1));
    // No record is needed to show it.
    assert!(said(&output).contains("shrunk: 0 records"), "{}", said(&output));
    fs::remove_dir_all(folder).unwrap();
}

#[test]
fn a_program_ended_by_a_signal_is_found() {
    let folder = folder("signal");
    // Right in what it prints, but it does not end well.
    let killed = script(&folder, &format!("{} \"$1\" \"$2\"; kill -9 $$", oracle("oracle-list").display()));
    let output = compare(&killed, &oracle("oracle-resume"), &folder);
    assert_eq!(output.status.code(), Some(1));
    assert!(said(&output).contains("ended by a signal"), "{}", said(&output));
    fs::remove_dir_all(folder).unwrap();
}

#[test]
fn a_resume_that_starts_afresh_is_found_and_kept() {
    let folder = folder("afresh");
    let output = compare(&oracle("oracle-list"), &oracle("oracle-list"), &folder);
    assert_eq!(output.status.code(), Some(1), "{}", said(&output));
    fs::remove_dir_all(&folder).unwrap();
    // oracle-list takes no third file. One that leaves it out prints the right listing unless something is refused
    // or believed.
    fs::create_dir_all(&folder).unwrap();
    let afresh = script(&folder, &format!("{} \"$1\" \"$2\"", oracle("oracle-list").display()));
    let output = compare(&oracle("oracle-list"), &afresh, &folder);
    assert_eq!(output.status.code(), Some(1), "{}", said(&output));
    let kept = fs::read_dir(folder.join("kept")).unwrap().next().unwrap().unwrap().path();
    let read = |name: &str| fs::read(kept.join("shrunk").join(name)).unwrap();
    let files = Files { reference: read("reference.hex"), unit: read("unit.hex"), found: Some(read("found.hex")) };
    assert_eq!(files.expected(), read("expected.hex"));
    assert_eq!(oracle::listing(&files.reference, &files.unit), read("printed.hex"));
    assert_ne!(read("expected.hex"), read("printed.hex"));
    fs::remove_dir_all(folder).unwrap();
}

/// A difference that one record brings about is shrunk to that record, with its symbols.
#[test]
fn shrinking_leaves_what_is_needed() {
    let (model, files) = (0..)
        .map(|case| valid_case(8, case))
        .find(|(model, _)| model.unit.class == 1 && model.records.len() > 20)
        .unwrap();
    let wanted = format!("{:08x}", model.records[7].pos);
    // "Differs" while some 04 line has a segment at that position and the unit is still in order.
    let differs = |files: &Files| {
        let listing = String::from_utf8(files.expected()).unwrap();
        listing.contains("\n06")
            && listing.lines().any(|line| line.starts_with("04") && line.get(56..64) == Some(&wanted))
    };
    assert!(differs(&files));
    let small = shrink(files, differs);
    assert_eq!(records(&small.unit), 1);
    assert!(small.reference.is_empty());
}

/// Where the last kept line matters, shrinking moves it along with the records that go.
#[test]
fn shrinking_a_resume_keeps_its_last_line() {
    let (model, mut files) = (0..)
        .map(|case| valid_case(9, case))
        .find(|(model, _)| model.unit.class == 1 && model.records.len() > 20)
        .unwrap();
    let listing = files.expected();
    let lines: Vec<&[u8]> = listing.split_inclusive(|byte| *byte == b'\n').collect();
    files.found = Some(lines[..12].concat());
    // "Differs" while resuming goes on from an 04 line to the end.
    let differs = |files: &Files| {
        let found = oracle::kept(files.found.as_ref().unwrap()).to_vec();
        let answer = files.expected();
        let last = found.split_inclusive(|byte| *byte == b'\n').next_back().unwrap_or_default();
        last.starts_with(b"04") && answer.len() > found.len() && answer.windows(3).any(|window| window == b"\n06")
    };
    assert!(differs(&files), "{}", model.records.len());
    let small = shrink(files, differs);
    assert_eq!(records(&small.unit), 1);
}
