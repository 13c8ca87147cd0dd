//! The whole run.

use std::env::set_current_dir;
use std::fs;

use crate::arguments::{Arguments, From};
use crate::counted::Counted;
use crate::counter::counters;
use crate::frame::{Frame, random};
use crate::listed::{buffers, listed};
use crate::page;
use crate::progress::Progress;
use crate::results::Results;
use crate::sides::Sides;
use crate::traffic::Traffic;

/// So many frames at a time, since the new one is called over a pipe.
const BATCH: usize = 1000;

/// How many frames are to be run, and the frames.
type Frames = (usize, Box<dyn Iterator<Item = Frame>>);

/// How much differs otherwise than listed.
pub fn run(arguments: &Arguments) -> Result<usize, String> {
    // a file is named from where the user is, all else from the repository
    let (many, frames) = frames(&arguments.from)?;
    set_current_dir(&arguments.root)
        .map_err(|trouble| format!("{}: {trouble}", arguments.root.display()))?;
    page::clear()?;
    let mut sides = Sides::start()?;
    let results = Results {
        counted: counted(&mut sides, many, frames)?,
        command: arguments.command(),
        counters: counters(&mut sides)?,
        listed: listed(&mut sides)?,
        buffers: buffers(&mut sides)?,
    };
    print!("{}", results.table());
    let troubles = results.troubles();
    for trouble in &troubles {
        print!("\na difference that is not listed: {trouble}");
    }
    let unshown = results.counted.all().unlisted - results.counted.shown.len();
    if unshown > 0 {
        println!("\nand {unshown} more differences that are not listed");
    }
    page::write(&results)?;
    Ok(troubles.len())
}

fn frames(from: &From) -> Result<Frames, String> {
    match from {
        From::File(name) => {
            let named = |trouble: String| {
                let lines: Vec<String> = trouble
                    .lines()
                    .map(|line| format!("{name}: {line}"))
                    .collect();
                format!("nothing was run\n{}", lines.join("\n"))
            };
            let file = fs::read(name).map_err(|trouble| named(trouble.to_string()))?;
            let traffic = Traffic::parsed(&file).map_err(named)?;
            Ok((traffic.requests(), Box::new(traffic.frames())))
        }
        &From::Random { many, seed } => Ok((many, Box::new(random(many, seed)))),
    }
}

/// Runs them all. An error where another number of frames was run than there
/// are.
fn counted(
    sides: &mut Sides,
    many: usize,
    mut frames: impl Iterator<Item = Frame>,
) -> Result<Counted, String> {
    let mut counted = Counted::default();
    let progress = Progress::new(many);
    let mut done = 0;
    loop {
        let batch: Vec<Frame> = frames.by_ref().take(BATCH).collect();
        if batch.is_empty() {
            break;
        }
        for ran in sides.run(batch)? {
            counted.count(&ran);
            done += 1;
        }
        progress.at(done);
    }
    match counted.all().frames {
        all if all == many => Ok(counted),
        all => Err(format!("{all} frames were run, of {many}")),
    }
}
