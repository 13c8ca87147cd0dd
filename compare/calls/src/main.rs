//! Gives the held Rust's reporting table and ours the same calls, and compares
//! after every one the answer and the whole table. The Rust compares all numbers
//! with their sign: where a key is marked to compare without one, ours is held to
//! the reading of the documents, and what the Rust says otherwise is a listed
//! difference, which must come. A history whose entries never pass 16 at once is
//! given to a table of 16 as well, which is to answer alike. Two runs make the
//! same calls.
//!
//! It prints how often each kind of call came, and fails at the first
//! disagreement, with the shortest history that it finds to lead there, and
//! where a kind never came.

mod call;
mod damaged;
mod former;
mod table;

use std::fmt::Write;
use std::process::ExitCode;
use std::time::Instant;

use cases::histories::kinds::{self, Kinds};
use cases::histories::middle::{NAME, SMALLEST, Smallest};
use cases::histories::{Answer, Call, History};
use cases::{Random, shorter};
use ours::Driver;
use reading::table::SIZE;
use table::{Table, list};

/// A run makes at least this many, besides those on damaged tables.
const CALLS: usize = 1_000_000;

/// Of the marks that a configuration is given, two are none.
pub const MARKS: [u8; 8] = [0, 0, 0, 1, 1, 1, 2, 255];

/// Ours is called over a pipe: so many calls are made at a time.
const BATCH: usize = 10;

/// One table in so many is kept, to try damaged copies of it.
const KEPT: usize = 200;

fn main() -> ExitCode {
    match run() {
        Ok(()) => ExitCode::SUCCESS,
        Err(trouble) => {
            eprintln!("calls: {trouble}");
            ExitCode::FAILURE
        }
    }
}

fn run() -> Result<(), String> {
    let start = Instant::now();
    let driver = &mut Driver::start()?;
    let random = &mut Random::new(0x6869_6e67_6564_7269);
    let kinds = &mut Kinds::default();
    let (mut calls, mut histories) = (0, 0);
    let mut kept = Vec::new();
    driver.agree(&[damaged::table_new(&[0x5a; SIZE])])?;
    for smallest in &SMALLEST {
        listed(driver, smallest)?;
    }
    while calls < CALLS {
        calls += history(driver, random, kinds, &mut kept)?;
        histories += 1;
    }
    for table in &kept {
        damaged::compare(driver, table, random, kinds)?;
    }
    let seconds = start.elapsed().as_secs_f64();
    println!("calls: {calls} in {histories} histories agree, {seconds:.1} s");
    print!("{}", kinds.list(&kinds::ALL));
    println!(
        "{:9}  smallest histories of the listed difference: {NAME}",
        SMALLEST.len()
    );
    println!(
        "{:9}  calls of ours, with those on damaged tables",
        driver.made()
    );
    let missing = kinds.missing(&kinds::ALL);
    if !missing.is_empty() {
        return Err(format!("never reached: {}", missing.join("; ")));
    }
    Ok(())
}

/// One of the smallest histories: to its ask ours says what is listed, and so does
/// the Rust.
fn listed(driver: &mut Driver, smallest: &Smallest) -> Result<(), String> {
    let [configure, report, ask] = smallest.calls;
    let mut table = Table::new();
    let mut held = Vec::new();
    for call in [configure, report] {
        held.push(table.give(&call)?.held);
    }
    let given = table.give(&ask)?;
    let said = (given.answer, given.rust);
    held.push(given.held);
    driver.agree(&held)?;
    if said != (Answer::yes(smallest.due), Some(Answer::yes(smallest.rust))) {
        return Err(format!("{NAME}: not as listed: {ask}"));
    }
    Ok(())
}

/// One history from an empty table; says how many calls it had.
fn history(
    driver: &mut Driver,
    random: &mut Random,
    kinds: &mut Kinds,
    kept: &mut Vec<Vec<u8>>,
) -> Result<usize, String> {
    let most = random.of(&[10, 100, 1000, 2000, 2000]);
    let length = 1 + random.below(most);
    let mut history = History::marked(random, &MARKS);
    let mut calls = Vec::with_capacity(length);
    let mut held = Vec::with_capacity(BATCH);
    let mut table = Table::new();
    for _ in 0..length {
        let call = history.call(random, table.entries());
        calls.push(call);
        let Ok(given) = table.give(&call) else {
            return Err(disagreement(driver, &calls));
        };
        kinds.count(kinds::of(&given.before, &call, &given.answer));
        if let Some(rust) = &given.rust
            && let Some(kind) = kinds::of_marked(&given.before, &call, &given.answer, rust)
        {
            kinds.count(kind);
        }
        kinds.count(kinds::of_left(table.entries()));
        if given.former {
            kinds.count(kinds::of_former(table.entries()));
        }
        held.push(given.held);
        if random.one_in(KEPT) {
            kept.push(table.bytes().to_vec());
        }
        if held.len() == BATCH || calls.len() == length {
            if driver.first_wrong(&held)?.is_some() {
                return Err(disagreement(driver, &calls));
            }
            held.clear();
        }
    }
    kinds.count(kinds::of_history(table.passed()));
    Ok(length)
}

/// The history that went wrong, as short as may be.
fn disagreement(driver: &mut Driver, calls: &[Call]) -> String {
    let short = shorter(calls, |calls| Some(replayed(driver, calls).err()?.at));
    match replayed(driver, &short) {
        Ok(()) => format!(
            "a disagreement in {} calls that does not come again",
            calls.len()
        ),
        Err(wrong) => {
            let mut said = format!(
                "a disagreement; of {} calls these are enough:\n",
                calls.len()
            );
            for call in &short {
                let _ = writeln!(said, "  {call}");
            }
            said + "the table before the last:\n" + &wrong.before + &wrong.trouble
        }
    }
}

struct Wrong {
    /// The call.
    at: usize,
    before: String,
    trouble: String,
}

/// The calls once more, from an empty table.
fn replayed(driver: &mut Driver, calls: &[Call]) -> Result<(), Wrong> {
    let mut table = Table::new();
    let (mut befores, mut held) = (Vec::new(), Vec::new());
    for (at, call) in calls.iter().enumerate() {
        let given = table.give(call).map_err(|trouble| Wrong {
            at,
            before: list(table.entries()),
            trouble,
        })?;
        befores.push(given.before);
        held.push(given.held);
    }
    let last = calls.len().saturating_sub(1);
    let wrong = driver.first_wrong(&held);
    match wrong.unwrap_or_else(|trouble| Some((last, trouble))) {
        None => Ok(()),
        Some((at, trouble)) => Err(Wrong {
            at,
            before: list(&befores[at]),
            trouble,
        }),
    }
}
