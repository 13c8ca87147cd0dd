//! Gives the readers of replies, those of our archive and those of the reading
//! of document 01, the same frames, each frame to all seven, and compares the
//! check and every record. The frames are replies and report frames that ours
//! wrote, over random stores and tables; the bench replies with every damage of
//! one byte; and any records and bytes behind a header. What is read back from
//! a reply of ours is held to the request, the store and the table as well. Two
//! runs make the same frames.
//!
//! It prints how often each reader said what, and fails at the first
//! disagreement, with its frame; and where document 01 allows a reader to say
//! what none was brought to say.

mod bench;
mod bodies;
mod counted;
mod damaged;
mod frames;
mod round_trip;
mod rows;
mod served;

use std::process::ExitCode;
use std::time::Instant;

use cases::Random;
use cases::kinds::READERS;
use ours::Driver;

use frames::Frames;

fn main() -> ExitCode {
    match run() {
        Ok(()) => ExitCode::SUCCESS,
        Err(trouble) => {
            eprintln!("readers: {trouble}");
            ExitCode::FAILURE
        }
    }
}

fn run() -> Result<(), String> {
    let start = Instant::now();
    let frames = &mut Frames::new(Driver::start()?);
    let random = &mut Random::new(0x0072_6561_6465_7273);
    let (served, read_back) = served::compare(frames, random)?;
    let (bench, damaged) = damaged::compare(frames)?;
    let made = bodies::compare(frames, random)?;

    let seconds = start.elapsed().as_secs_f64();
    print!("{}", frames.kinds.list(&READERS));
    print!("{}", frames.counted.list());
    println!("{served:9}  requests and lists served, {read_back} read back");
    println!("{damaged:9}  frames from {bench} bench replies, damaged");
    println!("{made:9}  frames of any records and bytes");
    println!("{:9}  calls of ours", frames.driver.made());
    let compared = frames.counted.frames;
    println!("readers: {compared} frames agree, each by seven readers, {seconds:.1} s");

    let never = [frames.kinds.missing(&READERS), frames.counted.missing()].concat();
    if never.is_empty() {
        Ok(())
    } else {
        Err(format!("never reached: {}", never.join("; ")))
    }
}
