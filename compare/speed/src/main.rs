//! Times the old server (the held Rust) and the new one (our archive, linked
//! into this program) on the same frames, in turn, row by row. It prints a
//! table of it and writes a page. compare/speed/run starts it.
//!
//! On a machine for which the archive is not, it times nothing: count.c, under
//! an emulator, makes the calls that it prints, and it shows what was counted.
//!
//! It exits with 0, with 1 where the two answer a frame differently, and with 2
//! where nothing could be run.

#[cfg(archive)]
mod archive;
#[cfg(archive)]
mod both;
#[cfg(archive)]
mod new;
mod run;

use std::process::ExitCode;

use run::Trouble;

fn main() -> ExitCode {
    let words: Vec<String> = std::env::args().skip(1).collect();
    match run::run(&words) {
        Ok(()) => ExitCode::SUCCESS,
        #[cfg(archive)]
        Err(Trouble::Differs(what)) => {
            eprintln!("speed: old and new differ: {what}");
            ExitCode::from(1)
        }
        Err(Trouble::NotRun(why)) => {
            eprintln!("speed: {why}");
            ExitCode::from(2)
        }
    }
}
