//! oracle-list REFERENCE UNIT: writes the listing to standard output.

use std::process::ExitCode;

fn main() -> ExitCode {
    oracle::program::run(&["REFERENCE", "UNIT"], |files| oracle::listing(&files[0], &files[1]))
}
