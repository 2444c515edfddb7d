//! oracle-resume REFERENCE UNIT FOUND: writes the kept lines, then the missing ones.

use std::process::ExitCode;

fn main() -> ExitCode {
    oracle::program::run(&["REFERENCE", "UNIT", "FOUND"], |files| oracle::resume(&files[0], &files[1], &files[2]))
}
