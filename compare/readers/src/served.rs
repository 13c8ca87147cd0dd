//! Replies that ours gave to random requests, and report frames that it wrote
//! from random lists, read back.

use cases::given::{Given, List};
use cases::{Case, Random, Seen, hex};
use ours::Held;
use reading::replies::Readings;

use crate::frames::Frames;
use crate::round_trip;

const REQUESTS: usize = 440_000;
const LISTS: usize = 110_000;

/// At least so many must have a reply that is read back.
const READ_BACK: usize = 200_000;

/// So many of each are served at a time.
const BATCH: usize = 1000;

/// Says how many were served, and how many replies and report frames were read
/// back.
pub fn compare(frames: &mut Frames, random: &mut Random) -> Result<(usize, usize), String> {
    let before = frames.counted.frames;
    let mut given = Given::default();
    for _ in 0..REQUESTS / BATCH {
        requests(frames, random, &mut given)?;
    }
    for _ in 0..LISTS / BATCH {
        lists(frames, random)?;
    }
    frames.compare()?;
    let read_back = frames.counted.frames - before;
    if read_back < READ_BACK {
        return Err(format!("only {read_back} replies were read back"));
    }
    Ok((REQUESTS + LISTS, read_back))
}

fn requests(frames: &mut Frames, random: &mut Random, given: &mut Given) -> Result<(), String> {
    let cases: Vec<(Case, Seen)> = (0..BATCH)
        .map(|_| {
            let case = given.next(random);
            let seen = case.document();
            given.go_on(&seen);
            (case, seen)
        })
        .collect();
    let held: Vec<Held> = cases
        .iter()
        .map(|(c, seen)| Held::request(c, seen))
        .collect();
    // so each reply is the one that ours gave
    frames.driver.agree(&held)?;
    for (case, seen) in cases.iter().filter(|(_, seen)| seen.number == 0) {
        let readings = read_back(frames, seen.reply())?;
        if !round_trip::is_answer(case, seen, &readings) {
            return Err(format!("read back are other records:\n{case}{seen}"));
        }
    }
    Ok(())
}

fn lists(frames: &mut Frames, random: &mut Random) -> Result<(), String> {
    let lists: Vec<List> = (0..BATCH).map(|_| List::any(random)).collect();
    let answers: Vec<_> = lists.iter().map(List::document).collect();
    let both = || lists.iter().zip(&answers);
    let held: Vec<Held> = both()
        .map(|(list, said)| Held::report(list, said))
        .collect();
    frames.driver.agree(&held)?;
    for (list, answer) in both().filter(|(_, answer)| answer.number == 0) {
        let readings = read_back(frames, &answer.reply)?;
        if !round_trip::is_report(list, &answer.reply, &readings) {
            let frame = hex(&answer.reply);
            return Err(format!("read back are other records: {list}: {frame}"));
        }
    }
    Ok(())
}

/// One reader reads it; to the six others it is another command.
fn read_back(frames: &mut Frames, reply: &[u8]) -> Result<Readings, String> {
    let readings = frames.give(reply)?;
    let mut numbers = readings.numbers();
    numbers.sort_unstable();
    if numbers == [0, 10, 10, 10, 10, 10, 10] {
        Ok(readings)
    } else {
        Err(format!("no single reader reads {}", hex(reply)))
    }
}
