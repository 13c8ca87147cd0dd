//! Runs the old server (the held Rust) and the new one (our archive) on the
//! same frames: those of a file (compare/FRAMES.md has its form), or random
//! ones. It prints how they compare, command by command, and writes
//! results/results.md and results/results.html. compare/run starts it.
//!
//! It exits with 0 where nothing differs but as listed, with 1 where something
//! does, and with 2 where nothing could be run.

mod arguments;
mod commands;
mod counted;
mod counter;
mod difference;
mod frame;
mod listed;
mod page;
mod progress;
mod results;
mod run;
mod sides;
mod traffic;
mod verdict;

use std::process::ExitCode;

use arguments::Arguments;

fn main() -> ExitCode {
    let words: Vec<String> = std::env::args().skip(1).collect();
    match Arguments::parsed(&words).and_then(|arguments| run::run(&arguments)) {
        Ok(0) => ExitCode::SUCCESS,
        Ok(_) => ExitCode::from(1),
        Err(trouble) => {
            eprintln!("compare: {trouble}");
            ExitCode::from(2)
        }
    }
}
