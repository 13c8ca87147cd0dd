//! Gives the held Rust's server, the reading of document 01 and our archive
//! the same frames, over random stores and tables, and compares all that can
//! be seen afterwards: number, reply, the whole reply buffer, store and table.
//! The Rust is held to document 01 but for the listed differences, ours to it
//! always. Two runs make the same frames.
//!
//! It prints how often each answer came, and fails at the first disagreement,
//! with as short a case as it finds; where document 01 allows an answer that
//! never came; and where fewer than a million frames were compared with the
//! Rust.

mod compare;
mod counted;
mod others;
mod shorten;

use std::process::ExitCode;
use std::time::Instant;

use cases::given::Given;
use cases::kinds::{Kinds, OTHERS, SERVED};
use cases::{Case, Random};
use oracle::Oracle;
use ours::{Driver, Held};

use compare::{Compared, compare};
use counted::Counted;

/// So many frames are made,
const FRAMES: usize = BATCHES * BATCH;

/// so many of them at a time by ours, which is called over a pipe.
const BATCH: usize = 10;
const BATCHES: usize = 115_000;

fn main() -> ExitCode {
    match run() {
        Ok(()) => ExitCode::SUCCESS,
        Err(trouble) => {
            eprintln!("frames: {trouble}");
            ExitCode::FAILURE
        }
    }
}

fn run() -> Result<(), String> {
    let start = Instant::now();
    let driver = &mut Driver::start()?;
    let random = &mut Random::new(0x6672_616d_6573);
    let kinds = &mut Kinds::default();
    let stands = served(driver, random, kinds)?;
    others::compare(driver, random, kinds)?;
    let seconds = start.elapsed().as_secs_f64();
    print!("{}", kinds.list(&SERVED));
    print!("{}", kinds.list(&OTHERS));
    print!("{}", stands.list());
    println!("{:9}  calls of ours", driver.made());
    println!(
        "frames: {FRAMES}, {} agree with the Rust, {seconds:.1} s",
        stands.agreed
    );

    let missing = [kinds.missing(&SERVED), kinds.missing(&OTHERS)].concat();
    if !missing.is_empty() {
        return Err(format!("never reached: {}", missing.join("; ")));
    }
    stands.enough()
}

fn served(driver: &mut Driver, random: &mut Random, kinds: &mut Kinds) -> Result<Counted, String> {
    let mut counted = Counted::default();
    let mut oracle = Oracle::default();
    let mut given = Given::default();
    for _ in 0..BATCHES {
        let mut cases = Vec::with_capacity(BATCH);
        let mut held = Vec::with_capacity(BATCH);
        for _ in 0..BATCH {
            let case = given.next(random);
            let Ok(Compared { seen, rust }) = compare(&mut oracle, &case) else {
                return Err(disagreement(driver, &case));
            };
            kinds
                .count(&compare::kinds(&case, &seen))
                .map_err(|trouble| format!("{trouble}\n{case}"))?;
            counted.count(rust);
            given.go_on(&seen);
            held.push(Held::request(&case, &seen));
            cases.push(case);
        }
        if let Some((at, _)) = driver.first_wrong(&held)? {
            return Err(disagreement(driver, &cases[at]));
        }
    }
    Ok(counted)
}

/// The case that went wrong, as short as may be, and both answers.
fn disagreement(driver: &mut Driver, case: &Case) -> String {
    let mut wrong = |case: &Case| match compare(&mut Oracle::default(), case) {
        Ok(Compared { seen, .. }) => {
            let wrong = driver.first_wrong(&[Held::request(case, &seen)]);
            wrong.map_or_else(Some, |wrong| Some(wrong?.1))
        }
        Err(trouble) => Some(trouble),
    };
    let short = shorten::shorten(case, |case| wrong(case).is_some());
    match wrong(&short) {
        Some(trouble) => format!("a disagreement on\n{short}{trouble}"),
        None => format!("a disagreement that does not come again, on\n{case}"),
    }
}
