//! What the world outside does: files that are not there, a disk that is full, arguments that make no sense.

use crate::run::{output, small_units, Programs};
use bed::largest::largest_unit;
use std::fs::OpenOptions;
use std::process::{Command, Output};

pub fn world(programs: &Programs) -> Result<String, String> {
    let files = &small_units(programs.seed, 1, 400)[0];
    let [reference, unit] = programs.write_unit(files);
    let found = programs.write("found.hex", b"");
    let absent = programs.folder.join("absent.hex");
    for (program, paths) in [
        (&programs.list, vec![&absent, &unit]),
        (&programs.list, vec![&reference, &absent]),
        (&programs.resume, vec![&absent, &unit, &found]),
        (&programs.resume, vec![&reference, &absent, &found]),
        (&programs.resume, vec![&reference, &unit, &absent]),
    ] {
        said(&output(Command::new(program).args(paths)), "absent.hex")?;
    }
    said(&output(Command::new(&programs.list).args([&reference, &unit, &found])), "")?;
    said(&output(Command::new(&programs.resume).args([&reference, &unit, &found, &found])), "")?;
    for program in [&programs.list, &programs.resume] {
        let help = output(Command::new(program).arg("--help"));
        if !help.status.success() || help.stdout.is_empty() {
            return Err("--help says nothing".into());
        }
    }
    full_disk(programs)?;
    Ok("said on standard error, nothing on standard output".into())
}

/// Something on standard error that has the name in it, and nothing on standard output. A Rattle program has no exit status to give.
fn said(output: &Output, name: &str) -> Result<(), String> {
    let errors = String::from_utf8_lossy(&output.stderr);
    if !output.stdout.is_empty() || errors.is_empty() || !errors.contains(name) {
        return Err(format!("{}; on standard error: {errors:?}; {} bytes printed", output.status, output.stdout.len()));
    }
    Ok(())
}

fn full_disk(programs: &Programs) -> Result<(), String> {
    let paths = programs.write_unit(&largest_unit());
    let full = OpenOptions::new().write(true).open("/dev/full").map_err(|error| error.to_string())?;
    let ended = Command::new(&programs.list)
        .args(&paths)
        .stdout(full)
        .stderr(std::process::Stdio::piped())
        .spawn()
        .and_then(|list| list.wait_with_output());
    let ended = ended.map_err(|error| error.to_string())?;
    if ended.stderr.is_empty() {
        return Err("a full disk was passed over in silence".into());
    }
    Ok(())
}
