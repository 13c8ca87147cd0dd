//! Random tables, as direct calls make them, and forms that no table has.

use cases::Random;
use reading::table::{
    Config, ENTRIES, Entry, FORMER_ENTRIES, Key, SIGNED, UNSIGNED, clear, configure,
};

/// Some are others with their bytes, or cluster and attribute, exchanged: keys
/// that are almost the same.
const CLUSTERS: [u16; 5] = [0xfc21, 0x0006, 0x21fc, 0x0000, 0xffff];
const ATTRIBUTES: [u16; 7] = [0, 6, 0x0600, 0x0500, 0xfc21, 0x21fc, 0xffff];

const CHANGES: [u64; 5] = [0, 1, 50, 1 << 63, u64::MAX];

/// Which intervals a table's entries have.
#[derive(Debug, Clone, Copy, PartialEq, Eq)]
pub enum Intervals {
    /// Such as a request can set.
    Sound,
    /// Now and then others, which direct calls can.
    Any,
}

/// The entries that direct calls leave: these calls configure, mark and clear
/// until there are so many. compare/calls holds ours to the same calls.
pub fn table(random: &mut Random, many: usize, intervals: Intervals) -> Vec<Entry> {
    let mut entries = Vec::new();
    // a table without any last reports is one that was just read in
    let marks = !random.one_in(4);
    while entries.len() < many {
        let mut key = key(random);
        // there are not so many that are almost the same
        if entries.len() >= CLUSTERS.len() * ATTRIBUTES.len() / 2 {
            key.attribute = random.short();
        }
        configure(&mut entries, key, config(random, intervals));
        let some = random.below(entries.len());
        if marks && random.one_in(2) {
            entries[some].last = Some(report(random));
        }
        if random.one_in(8) {
            let key = entries[some].key;
            clear(&mut entries, key);
        }
    }
    entries
}

/// How many entries: none, a few, about as many as there was room for before
/// document 02's request 7, and all more often than others.
pub fn many(random: &mut Random) -> usize {
    match random.below(16) {
        0 => 0,
        1 => ENTRIES,
        2 => ENTRIES - 1,
        3..6 => random.below(ENTRIES + 1),
        6 => FORMER_ENTRIES,
        7 => FORMER_ENTRIES + 1,
        _ => random.below(FORMER_ENTRIES),
    }
}

pub fn key(random: &mut Random) -> Key {
    match random.below(4) {
        0 => Key {
            cluster: random.short(),
            attribute: random.short(),
        },
        _ => Key {
            cluster: random.of(&CLUSTERS),
            attribute: random.of(&ATTRIBUTES),
        },
    }
}

fn report(random: &mut Random) -> (u32, i64) {
    match random.below(4) {
        0 => (0, 0),
        _ => (random.word(), random.number().cast_signed()),
    }
}

pub fn config(random: &mut Random, intervals: Intervals) -> Config {
    let (minimum, maximum) = if intervals == Intervals::Any && random.one_in(12) {
        odd(random)
    } else {
        sound(random)
    };
    Config {
        minimum,
        maximum,
        change: match random.below(3) {
            0 => random.number(),
            _ => random.of(&CHANGES),
        },
        mark: random.of(&[SIGNED, UNSIGNED]),
    }
}

/// An interval from `least` to `most`, at one of them more often than inside.
fn between(random: &mut Random, least: u16, most: u16) -> u16 {
    match random.below(3) {
        0 => least,
        1 => most,
        _ => least + (random.below(usize::from(most - least) + 1)) as u16,
    }
}

/// A maximum of 0, and not the one minimum that it must not have; or a maximum
/// that is not below the minimum.
fn sound(random: &mut Random) -> (u16, u16) {
    if random.one_in(4) {
        return (between(random, 0, 0xfffe), 0);
    }
    let maximum = between(random, 1, 0xfffe);
    (between(random, 0, maximum), maximum)
}

/// Intervals of the three kinds that are not written.
fn odd(random: &mut Random) -> (u16, u16) {
    match random.below(3) {
        0 => (between(random, 0, 0xffff), 0xffff),
        1 => (0xffff, 0),
        _ => {
            let maximum = between(random, 1, 0xfffe);
            (between(random, maximum + 1, 0xffff), maximum)
        }
    }
}

/// Whether a form has marks.
#[derive(Debug, Clone, Copy, PartialEq, Eq)]
pub enum Form {
    Marked,
    /// As it was written before request 6.
    Unmarked,
}

impl Form {
    pub const BOTH: [Self; 2] = [Self::Marked, Self::Unmarked];

    /// The bytes of a body.
    pub fn body(self) -> usize {
        match self {
            Self::Marked => 13,
            Self::Unmarked => 12,
        }
    }

    /// The form of these entries that follows on.
    pub fn of(self, entries: &[Entry]) -> Vec<u8> {
        self.laid_out(entries, &self.offsets(entries.len()))
    }

    /// What these entries would have for a form if any entries had one, with
    /// these offsets.
    pub fn laid_out(self, entries: &[Entry], offsets: &[u16]) -> Vec<u8> {
        let mut form = vec![entries.len() as u8];
        for (entry, offset) in entries.iter().zip(offsets) {
            form.extend(entry.key.cluster.to_le_bytes());
            form.extend(entry.key.attribute.to_le_bytes());
            form.extend(offset.to_le_bytes());
        }
        for Entry { config, .. } in entries {
            form.extend(config.minimum.to_le_bytes());
            form.extend(config.maximum.to_le_bytes());
            form.extend(config.change.to_le_bytes());
            if self == Self::Marked {
                form.push(config.mark);
            }
        }
        form
    }

    /// The offsets that follow on.
    pub fn offsets(self, entries: usize) -> Vec<u16> {
        let first = 1 + 6 * entries;
        (0..entries)
            .map(|place| (first + self.body() * place) as u16)
            .collect()
    }
}

#[cfg(test)]
mod tests {
    use super::*;
    use reading::saved::{length, old_length, write};

    #[test]
    fn sound_tables_have_a_form() {
        let random = &mut Random::new(1);
        for many in 0..=ENTRIES {
            for _ in 0..20 {
                let entries = table(random, many, Intervals::Sound);
                assert_eq!(entries.len(), many);
                assert_eq!(write(&entries), Ok(Form::Marked.of(&entries)));
                assert_eq!(Form::Marked.of(&entries).len(), length(many));
                assert_eq!(Form::Unmarked.of(&entries).len(), old_length(many));
            }
        }
    }

    #[test]
    fn some_others_have_none() {
        let random = &mut Random::new(1);
        let has_none = |_: &usize| write(&table(random, 8, Intervals::Any)).is_err();
        let without = (0..1000).filter(has_none).count();
        assert!((300..700).contains(&without), "{without}");
    }
}
