//! Calls at random: keys of a small set, numbers around the limits.

mod call;
pub mod kinds;
pub mod middle;

use reading::table::{Config, ENTRIES, Entry, Key, SIGNED};

use crate::random::Random;

pub use call::{Answer, Call, settings, shown};

/// Some are others with their bytes, or cluster and attribute, exchanged.
const CLUSTERS: [u16; 5] = [0xfc21, 0x0006, 0x21fc, 0x0000, 0xffff];
const ATTRIBUTES: [u16; 8] = [5, 0, 6, 0x0500, 0xfc21, 7, 0x0006, 0xffff];

const INTERVALS: [u16; 12] = [0, 1, 2, 10, 59, 60, 61, 0x00ff, 0x0100, 65533, 65534, 65535];
const CHANGES: [u64; 10] = [
    0,
    1,
    2,
    50,
    0x1_0000_0000,
    (1 << 63) - 1,
    1 << 63,
    (1 << 63) + 1,
    u64::MAX - 1,
    u64::MAX,
];
const TIMES: [u32; 10] = [
    0,
    1,
    59,
    60,
    0xfffe,
    0xffff,
    0x1_0000,
    u32::MAX - 60,
    u32::MAX - 1,
    u32::MAX,
];
const VALUES: [i64; 11] = [
    0,
    1,
    -1,
    50,
    -50,
    i64::MIN,
    i64::MIN + 1,
    -0x1_0000_0000,
    0x1_0000_0000,
    i64::MAX - 1,
    i64::MAX,
];

/// How often each call comes: configure, clear, configuration, ask, mark.
const MIXES: [[usize; 5]; 5] = [
    [3, 1, 1, 14, 8],
    [2, 0, 1, 18, 8],
    [8, 4, 1, 6, 5],
    [16, 1, 1, 4, 4],
    [5, 5, 2, 5, 5],
];

/// How many keys a history has: about as many as tables had room for before
/// document 02's request 7;
const FEW: [usize; 7] = [1, 3, 8, 16, 17, 20, 40];

/// and about as many as they have room for now.
const MANY: [usize; 6] = [
    ENTRIES / 2,
    ENTRIES - 1,
    ENTRIES,
    ENTRIES + 1,
    ENTRIES + 2,
    2 * ENTRIES,
];

/// One history's keys and calls, and a clock and a value that walk.
pub struct History {
    keys: Vec<Key>,
    /// So many of them are configured first.
    first: usize,
    /// Those that a configuration is given.
    marks: &'static [u8],
    mix: [usize; 5],
    now: u32,
    value: i64,
}

impl History {
    /// All that it configures compares with the sign, as the Rust does.
    pub fn new(random: &mut Random) -> Self {
        let many = random.of(&FEW);
        Self {
            keys: (0..many).map(|_| key(random)).collect(),
            first: 0,
            marks: &[SIGNED],
            mix: random.of(&MIXES),
            now: random.of(&TIMES),
            value: random.of(&VALUES),
        }
    }

    /// With these marks; and one in four has so many keys that the table is soon
    /// full.
    pub fn marked(random: &mut Random, marks: &'static [u8]) -> Self {
        let mut history = Self {
            marks,
            ..Self::new(random)
        };
        if random.one_in(4) {
            let many = random.of(&MANY);
            history.keys = (0..many).map(|_| far_key(random)).collect();
            history.first = many;
        }
        history
    }

    /// The next call on a table of these entries.
    pub fn call(&mut self, random: &mut Random, entries: &[Entry]) -> Call {
        if self.first > 0 {
            self.first -= 1;
            return Call::Configure(self.keys[self.first], config(random, self.marks));
        }
        let mut ticket = random.below(self.mix.iter().sum());
        let mut kind = 0;
        while ticket >= self.mix[kind] {
            ticket -= self.mix[kind];
            kind += 1;
        }
        self.call_of(kind, random, entries)
    }

    /// One of each kind, all on that table.
    pub fn every_call(mut self, random: &mut Random, entries: &[Entry]) -> [Call; 5] {
        [0, 1, 2, 3, 4].map(|kind| self.call_of(kind, random, entries))
    }

    /// Kinds are numbered as in `MIXES`.
    fn call_of(&mut self, kind: usize, random: &mut Random, entries: &[Entry]) -> Call {
        let key = self.key(random, entries);
        match kind {
            0 => Call::Configure(key, config(random, self.marks)),
            1 => Call::Clear(key),
            2 => Call::Configuration(key),
            3 => {
                let (now, value) = self.moment(random, key, entries);
                Call::Ask(key, now, value)
            }
            _ => {
                let (now, value) = self.moment(random, key, entries);
                Call::Mark(key, now, value)
            }
        }
    }

    fn key(&self, random: &mut Random, entries: &[Entry]) -> Key {
        match random.below(32) {
            0 => Key {
                cluster: random.short(),
                attribute: random.short(),
            },
            1..4 => key(random),
            4..16 if !entries.is_empty() => entries[random.below(entries.len())].key,
            _ => self.keys[random.below(self.keys.len())],
        }
    }

    /// A time and a value: the walk's next, or close to where the answer for
    /// the key changes, or anything.
    fn moment(&mut self, random: &mut Random, key: Key, entries: &[Entry]) -> (u32, i64) {
        let entry = entries.iter().find(|entry| entry.key == key);
        let last = entry.and_then(|entry| Some((entry.config, entry.last?)));
        let steps = [0, 1, 1, 9, 10, 58, 59, 60, 61, 0xfffe, 0xffff];
        let now = match (random.below(16), last) {
            (0..7, Some((config, (time, _)))) => {
                let interval = random.of(&[0, config.minimum, config.maximum]);
                let beside = random.of(&[-1, 0, 0, 1]);
                time.wrapping_add(interval.into())
                    .wrapping_add_signed(beside)
            }
            (7, _) => random.of(&TIMES),
            (8, _) => random.word(),
            (9, _) => self.now.saturating_sub(random.of(&steps)),
            _ => {
                self.now = if random.one_in(100) {
                    random.of(&TIMES)
                } else {
                    self.now.saturating_add(random.of(&steps))
                };
                self.now
            }
        };
        let value = match (random.below(16), last) {
            (0..7, Some((config, (_, reported)))) => {
                let change = random.of(&[0, config.change, config.change, u64::MAX]);
                let moved = if random.one_in(2) {
                    reported.wrapping_add_unsigned(change)
                } else {
                    reported.wrapping_sub_unsigned(change)
                };
                moved.wrapping_add(random.of(&[-1, 0, 0, 1]))
            }
            (7, _) => random.of(&VALUES),
            (8, _) => random.number().cast_signed(),
            _ => {
                if random.one_in(100) {
                    self.value = random.of(&VALUES);
                }
                let step = random.of(&[-50, -1, 0, 1, 49, 50]);
                self.value = self.value.saturating_add(step);
                self.value
            }
        };
        (now, value)
    }
}

fn key(random: &mut Random) -> Key {
    Key {
        cluster: random.of(&CLUSTERS),
        attribute: random.of(&ATTRIBUTES),
    }
}

/// Of more than a table has room for.
fn far_key(random: &mut Random) -> Key {
    Key {
        attribute: random.short(),
        ..key(random)
    }
}

fn config(random: &mut Random, marks: &[u8]) -> Config {
    // half of them leave most to the value
    let (minimum, maximum) = if random.one_in(2) {
        (random.of(&[0, 0, 1, 10]), random.of(&[0, 60, 65534]))
    } else {
        (interval(random), interval(random))
    };
    Config {
        minimum,
        maximum,
        change: match random.below(8) {
            0 => random.number(),
            1 => random.byte().into(),
            _ => random.of(&CHANGES),
        },
        // one alone takes no number of the row
        mark: match marks {
            [mark] => *mark,
            _ => random.of(marks),
        },
    }
}

fn interval(random: &mut Random) -> u16 {
    match random.below(8) {
        0 => random.short(),
        1 => random.byte().into(),
        _ => random.of(&INTERVALS),
    }
}
