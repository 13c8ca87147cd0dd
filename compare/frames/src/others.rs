//! The other calls: the responder for unserved clusters, report frames, and
//! the number of a value, each some ten thousand times.

mod numbers;
mod reports;
mod responder;

use cases::Random;
use cases::kinds::Kinds;
use ours::Driver;

/// So many of each,
const CALLS: usize = 20_000;

/// so many of each at a time by ours.
const BATCH: usize = 1000;

pub fn compare(driver: &mut Driver, random: &mut Random, kinds: &mut Kinds) -> Result<(), String> {
    for _ in 0..CALLS / BATCH {
        let mut held = Vec::with_capacity(3 * BATCH);
        for _ in 0..BATCH {
            held.push(responder::one(random, kinds)?);
            held.push(reports::one(random, kinds)?);
            held.push(numbers::one(random, kinds)?);
        }
        driver.agree(&held)?;
    }
    Ok(())
}
