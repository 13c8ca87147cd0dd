//! The listed difference of asks (document 02, request 6): the Rust takes every
//! value with its sign. Where the two values by which an ask decides are on
//! either side of the middle, and are to be taken without one, it may say
//! otherwise.

use reading::table::{Config, Entry, Key, Reason, SIGNED, UNSIGNED, ask, place};

use super::call::{Answer, Call};
use crate::case::unmarked;

/// Its name in docs/DIFFERENCES.md.
pub const NAME: &str = "a 64-bit number that passes the middle";

/// Whether a call is under it: an ask of a key that compares without a sign, with
/// a change of 2 or more, by two values of which one, as 64 bits without a sign,
/// is below 2^63 and the other not.
pub fn passed(entries: &[Entry], call: &Call) -> bool {
    deciding(entries, call).is_some_and(|(config, reported, value)| {
        config.mark == UNSIGNED && config.change >= 2 && (reported < 0) != (value < 0)
    })
}

/// What is configured, and the two values, where these decide an ask: the one that
/// was last reported, and the one that is asked for.
pub fn deciding(entries: &[Entry], call: &Call) -> Option<(Config, i64, i64)> {
    let Call::Ask(key, now, value) = *call else {
        return None;
    };
    let entry = entries[place(entries, key)?];
    let (_, reported) = entry.last?;
    matches!(
        ask(entries, key, now, value),
        Reason::NotMoved | Reason::MovedTooLittle | Reason::MovedEnough
    )
    .then_some((entry.config, reported, value))
}

/// The one answer that the Rust may give, and what it is to leave: what document
/// 01 says, which knows no marks.
pub fn without_marks(entries: &[Entry], call: &Call) -> (Answer, Vec<Entry>) {
    let mut left = unmarked(entries);
    let call = match *call {
        Call::Configure(key, config) => Call::Configure(
            key,
            Config {
                mark: SIGNED,
                ..config
            },
        ),
        other => other,
    };
    let answer = call.document(&mut left);
    (answer, left)
}

/// A history from an empty table that ends with an ask.
pub struct Smallest {
    pub calls: [Call; 3],
    /// Whether it is due by the documents,
    pub due: bool,
    /// and in the Rust.
    pub rust: bool,
}

/// Those of docs/DIFFERENCES.md: from 0 to the top, and over the middle.
pub const SMALLEST: [Smallest; 2] = [
    Smallest {
        calls: moving(UNSIGNED, 2, 0, -1),
        due: true,
        rust: false,
    },
    Smallest {
        calls: moving(UNSIGNED, 2, i64::MAX, i64::MIN),
        due: false,
        rust: true,
    },
];

/// A key configured with this mark and change, reported, and asked at once.
pub const fn moving(mark: u8, change: u64, reported: i64, value: i64) -> [Call; 3] {
    let key = Key {
        cluster: 0xfc21,
        attribute: 5,
    };
    let config = Config {
        minimum: 0,
        maximum: 60,
        change,
        mark,
    };
    [
        Call::Configure(key, config),
        Call::Mark(key, 7, reported),
        Call::Ask(key, 7, value),
    ]
}

#[cfg(test)]
mod tests {
    use super::*;

    #[test]
    fn name_of_the_page() {
        let page = include_str!("../../../../docs/DIFFERENCES.md");
        assert_eq!(page.matches(&format!("\n| {NAME} | ")).count(), 1);
    }

    /// Whether the last call of these is under it.
    fn last_passes(calls: &[Call]) -> bool {
        let (last, before) = calls.split_last().expect("a call");
        let mut entries = Vec::new();
        for call in before {
            call.document(&mut entries);
        }
        passed(&entries, last)
    }

    #[test]
    fn nothing_less_is_under_it() {
        for Smallest { calls, .. } in SMALLEST {
            assert!(last_passes(&calls));
            for left_out in 0..3 {
                let mut fewer = calls.to_vec();
                fewer.remove(left_out);
                assert!(!last_passes(&fewer));
            }
        }
        for (reported, value) in [(0, -1), (-1, 0), (i64::MAX, i64::MIN), (i64::MIN, 0)] {
            assert!(last_passes(&moving(UNSIGNED, 2, reported, value)));
            assert!(!last_passes(&moving(UNSIGNED, 1, reported, value)));
            assert!(!last_passes(&moving(SIGNED, 2, reported, value)));
        }
        for (reported, value) in [(0, i64::MAX), (5, 0), (-1, i64::MIN), (-9, -7)] {
            assert!(!last_passes(&moving(UNSIGNED, 2, reported, value)));
        }
    }

    /// The time decides: before the minimum, and at the maximum.
    #[test]
    fn by_the_time() {
        let [Call::Configure(key, config), reported, _] = moving(UNSIGNED, 2, 0, -1) else {
            panic!("a configuration comes first");
        };
        let later = Config {
            minimum: 10,
            ..config
        };
        for (now, passes) in [(7, false), (16, false), (17, true), (66, true), (67, false)] {
            let calls = [
                Call::Configure(key, later),
                reported,
                Call::Ask(key, now, -1),
            ];
            assert_eq!(last_passes(&calls), passes, "{now}");
        }
    }
}
