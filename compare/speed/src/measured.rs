//! What was measured of a row.

use crate::row::{Over, Row};
use crate::spread::Spread;
use crate::timing::Timed;

#[derive(Debug, Clone)]
pub struct Measured {
    pub over: Over,
    name: &'static str,
    times: Option<Times>,
    /// Instructions a call, old and new.
    counts: [Option<u64>; 2],
}

#[derive(Debug, Clone)]
struct Times {
    /// Nanoseconds a call.
    old: f64,
    new: f64,
    /// New by old, over the pairs.
    ratio: Spread,
}

impl Measured {
    pub const HEAD: [&str; 7] = [
        "call",
        "old, ns",
        "new, ns",
        "new / old (quartiles)",
        "old, instructions",
        "new, instructions",
        "new / old",
    ];

    pub fn of(row: &Row, timed: Option<&Timed>, counts: [Option<u64>; 2]) -> Self {
        Self {
            over: row.over,
            name: row.name,
            times: timed.map(Times::of),
            counts,
        }
    }

    pub fn is_timed(&self) -> bool {
        self.times.is_some()
    }

    pub fn cells(&self) -> [String; 7] {
        let not_timed = || ["not timed"; 3].map(str::to_owned);
        let [old, new, ratio] = self.times.as_ref().map_or_else(not_timed, Times::cells);
        let [old_count, new_count] = self.counts;
        let both = old_count.zip(new_count);
        let count_ratio = both.map(|(old, new)| format!("{:.2}", new as f64 / old as f64));
        [
            self.name.to_owned(),
            old,
            new,
            ratio,
            counted(old_count),
            counted(new_count),
            counted(count_ratio),
        ]
    }
}

impl Times {
    fn of(timed: &Timed) -> Self {
        let pairs = timed.old.iter().zip(&timed.new);
        let ratios: Vec<f64> = pairs.map(|(old, new)| new / old).collect();
        Self {
            old: Spread::of(&timed.old).middle,
            new: Spread::of(&timed.new).middle,
            ratio: Spread::of(&ratios),
        }
    }

    fn cells(&self) -> [String; 3] {
        let Spread { low, middle, high } = self.ratio;
        [
            nanoseconds(self.old),
            nanoseconds(self.new),
            format!("{middle:.2} ({low:.2} to {high:.2})"),
        ]
    }
}

fn counted(number: Option<impl ToString>) -> String {
    number.map_or("not counted".to_owned(), |number| number.to_string())
}

fn nanoseconds(time: f64) -> String {
    if time < 100.0 {
        format!("{time:.1}")
    } else {
        format!("{time:.0}")
    }
}

#[cfg(test)]
mod tests {
    use super::*;
    use crate::rows::named;

    #[test]
    fn the_ratio_is_that_of_the_pairs() {
        let row = named("4/read-10").expect("it is one");
        let timed = Timed {
            old: vec![50.0, 200.0, 100.0],
            new: vec![100.0, 600.0, 100.0],
        };
        let measured = Measured::of(&row, Some(&timed), [Some(400), Some(500)]);
        let expected = [
            "read 10",
            "100",
            "100",
            "2.00 (1.50 to 2.50)",
            "400",
            "500",
            "1.25",
        ];
        assert_eq!(measured.cells(), expected);
        let measured = Measured::of(&row, Some(&timed), [None; 2]);
        assert_eq!(measured.cells()[4..], ["not counted"; 3]);
    }

    #[test]
    fn one_side_may_be_counted_alone() {
        let row = named("4/read-10").expect("it is one");
        let measured = Measured::of(&row, None, [None, Some(500)]);
        assert_eq!(measured.cells()[1..4], ["not timed"; 3]);
        let counts = ["not counted", "500", "not counted"];
        assert_eq!(measured.cells()[4..], counts);
    }
}
