//! Blocks of calls, the old side's and the new one's in turn.

use std::time::{Duration, Instant};

use crate::calls::ROOM;
use crate::row::Row;
use crate::side::Side;

/// The two blocks of a pair take about so long together: much less than a slice
/// that the system gives to another program, so that few pairs meet one.
const PAIR: Duration = Duration::from_micros(400);

/// Nanoseconds a call, of each block.
pub struct Timed {
    pub old: Vec<f64>,
    pub new: Vec<f64>,
}

/// So many pairs of blocks, all of the same calls. Which of a pair is first
/// changes from one to the next.
pub fn timed(row: &Row, old: &mut impl Side, new: &mut impl Side, pairs: usize) -> Timed {
    let calls = enough(row, old, new);
    let mut timed = Timed {
        old: Vec::with_capacity(pairs),
        new: Vec::with_capacity(pairs),
    };
    let per_call = |time: Duration| time.as_nanos() as f64 / calls as f64;
    for pair in 0..pairs {
        if pair % 2 == 0 {
            timed.old.push(per_call(block(row, old, calls)));
            timed.new.push(per_call(block(row, new, calls)));
        } else {
            timed.new.push(per_call(block(row, new, calls)));
            timed.old.push(per_call(block(row, old, calls)));
        }
    }
    timed
}

/// How many calls on each side, in whole rounds, fill a pair.
fn enough(row: &Row, old: &mut impl Side, new: &mut impl Side) -> usize {
    let mut calls = row.calls.round();
    loop {
        let time = block(row, old, calls) + block(row, new, calls);
        if time >= PAIR {
            return calls;
        }
        // towards the pair's length, but not too fast: the first ones are slow
        let missing = PAIR.as_nanos() / time.as_nanos().max(1) + 1;
        calls *= usize::try_from(missing).map_or(10, |missing| missing.clamp(2, 10));
    }
}

fn block(row: &Row, side: &mut impl Side, calls: usize) -> Duration {
    let mut buffer = [0; ROOM];
    let start = Instant::now();
    row.calls.many(calls, side, &mut buffer);
    start.elapsed()
}

#[cfg(test)]
mod tests {
    use super::*;
    use crate::old::Old;
    use crate::rows::named;

    #[test]
    fn as_many_as_asked() {
        let row = named("table/ask").expect("it is one");
        let [mut one, mut other] = [(); 2].map(|()| Old::new(&row.store, &row.table));
        let timed = timed(&row, &mut one, &mut other, 3);
        assert_eq!((timed.old.len(), timed.new.len()), (3, 3));
        let mut each = timed.old.iter().chain(&timed.new);
        assert!(each.all(|&time| time > 0.0));
    }
}
