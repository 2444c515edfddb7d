//! drill LIST_BIN RESUME_BIN [--seed S]: the programs where things go wrong: listings cut at every byte, a list killed while it
//! writes, files that come in pieces, files that are too large to hold, disks that are full.

mod cuts;
mod memory;
mod outside;
mod pieces;
mod power;
mod run;

use run::Programs;
use std::process::ExitCode;

type Drill = (&'static str, fn(&Programs) -> Result<String, String>);

const DRILLS: [Drill; 7] = [
    ("listings cut at every byte, resumed, cut again, resumed", cuts::every_byte),
    ("list killed while it writes, the tail overwritten with zeros", power::failures),
    ("a found file of 50 MB", power::large_found),
    ("files that come one byte at a time", pieces::single_bytes),
    ("files that come in two pieces, cut at every place", pieces::every_cut),
    ("memory of the largest unit and of a small one", memory::constant),
    ("files that cannot be opened, a full disk, wrong arguments", outside::world),
];

fn main() -> ExitCode {
    let Some(programs) = Programs::from_arguments() else {
        eprintln!("usage: drill LIST_BIN RESUME_BIN [--seed S]");
        return ExitCode::from(2);
    };
    let mut failed = 0;
    for (name, drill) in DRILLS {
        match drill(&programs) {
            Ok(done) => println!("  {name}: {done}"),
            Err(what) => {
                println!("  {name}: FAILED, {what}");
                failed += 1;
            }
        }
    }
    programs.clear();
    ExitCode::from(u8::from(failed > 0))
}
