//! Calls on a reporting table, and the form that their answers take.

use std::fmt;

use reading::table::{Config, Entry, Key, ask, clear, configure, is_mark, place};

#[derive(Debug, Clone, Copy, PartialEq, Eq)]
pub enum Call {
    Configure(Key, Config),
    Clear(Key),
    Configuration(Key),
    Ask(Key, u32, i64),
    Mark(Key, u32, i64),
}

/// The number that a call says, and what it writes through its pointers, in
/// their order.
#[derive(Debug, Clone, Copy, PartialEq, Eq)]
pub struct Answer {
    pub number: u8,
    pub written: [u64; 5],
}

impl Answer {
    pub const DONE: Self = Self::new(0, [0; 5]);
    pub const NO_TABLE: Self = Self::new(8, [0; 5]);

    /// To a mark that is none.
    pub const NO_MARK: Self = Self::new(13, [0; 5]);

    pub const fn new(number: u8, written: [u64; 5]) -> Self {
        Self { number, written }
    }

    pub fn yes(yes: bool) -> Self {
        Self::new(0, [yes.into(), 0, 0, 0, 0])
    }

    pub fn found(config: Option<Config>) -> Self {
        let written = config.map_or([0; 5], |config| {
            [
                1,
                config.minimum.into(),
                config.maximum.into(),
                config.change,
                config.mark.into(),
            ]
        });
        Self::new(0, written)
    }
}

impl Call {
    /// The answer of documents 01 and 02 on a table of these entries, which are
    /// then as they are to be.
    pub fn document(&self, entries: &mut Vec<Entry>) -> Answer {
        match *self {
            Self::Configure(_, config) if !is_mark(config.mark) => Answer::NO_MARK,
            Self::Configure(key, config) => Answer::yes(configure(entries, key, config)),
            Self::Clear(key) => {
                clear(entries, key);
                Answer::DONE
            }
            Self::Configuration(key) => {
                Answer::found(place(entries, key).map(|place| entries[place].config))
            }
            Self::Ask(key, now, value) => Answer::yes(ask(entries, key, now, value).is_due()),
            Self::Mark(key, now, value) => {
                if let Some(place) = place(entries, key) {
                    entries[place].last = Some((now, value));
                }
                Answer::DONE
            }
        }
    }
}

impl fmt::Display for Call {
    fn fmt(&self, f: &mut fmt::Formatter<'_>) -> fmt::Result {
        match self {
            Self::Configure(key, config) => {
                write!(f, "configure     {} {}", shown(*key), settings(*config))
            }
            Self::Clear(key) => write!(f, "clear         {}", shown(*key)),
            Self::Configuration(key) => write!(f, "configuration {}", shown(*key)),
            Self::Ask(key, now, value) => {
                write!(f, "ask           {} now {now} value {value}", shown(*key))
            }
            Self::Mark(key, now, value) => {
                write!(f, "mark          {} now {now} value {value}", shown(*key))
            }
        }
    }
}

/// Cluster and attribute, in hex.
pub fn shown(key: Key) -> String {
    format!("{:04x}/{:04x}", key.cluster, key.attribute)
}

pub fn settings(config: Config) -> String {
    let Config {
        minimum,
        maximum,
        change,
        mark,
    } = config;
    format!("minimum {minimum} maximum {maximum} change {change} mark {mark}")
}
