//! Random stores, tables, values and clocks, made so that turns find all kinds of
//! entries in them.

use cases::Random;
use cases::given::stores;
use reading::Kind;
use reading::store::{Attribute, attributes, cluster_of, is_store};
use reading::table::{Config, ENTRIES, Entry, Key, SIGNED, SLOT, UNSIGNED};

const MINIMA: [u16; 8] = [0, 0, 0, 0, 1, 2, 5, 0xffff];
const MAXIMA: [u16; 8] = [0, 1, 1, 3, 3, 10, 60, 0xffff];
const CHANGES: [u64; 7] = [0, 1, 1, 2, 50, 1 << 63, u64::MAX];

/// Most have two attributes or more that are reportable.
pub fn store(random: &mut Random) -> Vec<u8> {
    loop {
        let store = stores::any(random);
        let attributes = attributes(&store).unwrap_or_default();
        let reportable = |attribute: &&Attribute| attribute.access & 2 != 0;
        let many = attributes.iter().filter(reportable).count();
        if is_store(&store) && (many > 1 || random.one_in(8)) {
            return store;
        }
    }
}

/// Entries for the store's attributes and for others. Some keys may stand twice,
/// as only lent bytes can have them.
pub fn table(random: &mut Random, store: &[u8], now: u32) -> Vec<Entry> {
    let many = match random.below(12) {
        0 => 0,
        1 => ENTRIES,
        2 => random.below(ENTRIES + 1),
        _ => 1 + random.below(10.min(ENTRIES)),
    };
    let twice = random.one_in(3);
    let mut entries: Vec<Entry> = Vec::new();
    for _ in 0..many {
        let entry = entry(random, store, now);
        if twice || entries.iter().all(|other| other.key != entry.key) {
            entries.push(entry);
        }
    }
    entries
}

fn entry(random: &mut Random, store: &[u8], now: u32) -> Entry {
    let last = match random.below(3) {
        0 => None,
        _ => Some((time(random, now), value(random))),
    };
    Entry {
        key: key(random, store),
        config: config(random),
        last,
    }
}

/// Mostly of an attribute of the store; now and then of one that is gone, or of
/// another cluster.
pub fn key(random: &mut Random, store: &[u8]) -> Key {
    let cluster = cluster_of(store).expect("a store has its cluster");
    let attributes = attributes(store).expect("a store has its contents");
    let attribute = match random.below(8) {
        0 => random.short(),
        _ if attributes.is_empty() => random.of(&[0, 1, 0xffff]),
        1 => random.of(&attributes).id.wrapping_add(1),
        _ => random.of(&attributes).id,
    };
    Key {
        cluster: match random.below(8) {
            0 => random.of(&[cluster.swap_bytes(), cluster ^ 1, 0, 0xffff]),
            _ => cluster,
        },
        attribute,
    }
}

pub fn config(random: &mut Random) -> Config {
    Config {
        minimum: random.of(&MINIMA),
        maximum: random.of(&MAXIMA),
        change: random.of(&CHANGES),
        mark: random.of(&[SIGNED, UNSIGNED]),
    }
}

/// A time before or, where the clock went back, behind this one.
fn time(random: &mut Random, now: u32) -> u32 {
    match random.below(8) {
        0 => random.word(),
        1 => now.wrapping_add(random.below(4) as u32),
        _ => now.saturating_sub(random.below(12) as u32),
    }
}

pub fn value(random: &mut Random) -> i64 {
    match random.below(3) {
        0 => random.number().cast_signed(),
        1 => 0,
        _ => random.byte().into(),
    }
}

/// A clock that goes on, or now and then stands, goes back or jumps.
pub fn later(random: &mut Random, now: u32) -> u32 {
    match random.below(24) {
        0 => now.saturating_sub(random.below(6) as u32),
        1 => random.of(&[0, 1, u32::MAX - 3, u32::MAX]),
        2 => now.saturating_add(random.below(100) as u32),
        _ => now.saturating_add(random.below(4) as u32),
    }
}

/// A value for an attribute of this type and room, which it can hold: near its old
/// one, or any.
pub fn new_value(random: &mut Random, attribute: &Attribute, old: &[u8]) -> Vec<u8> {
    let mut value = old.to_vec();
    match reading::kind(attribute.type_code) {
        Kind::Fixed(size) if random.one_in(4) => random.bytes(size),
        Kind::Fixed(_) => {
            value[0] = value[0].wrapping_add(random.of(&[1, 1, 2, 50, 0xff]));
            value
        }
        _ if random.one_in(6) => vec![0xff],
        _ => {
            let length = random.below(attribute.room);
            let letters = random.bytes(length);
            [&[length as u8], &letters[..]].concat()
        }
    }
}

/// One byte changed, or cut, or a byte more; it may be sound all the same.
pub fn damaged(random: &mut Random, bytes: &[u8]) -> Vec<u8> {
    let at = random.below(bytes.len());
    let mut bytes = bytes.to_vec();
    match random.below(4) {
        0 => bytes.truncate(at),
        1 => bytes.push(0),
        _ => bytes[at] = random.of(&[0, 1, 2, 0x80, 0xff]),
    }
    bytes
}

/// The same of a table, or its count, or a byte of a used slot's mark, flag, time or
/// value.
pub fn damaged_table(random: &mut Random, table: &[u8]) -> Vec<u8> {
    if random.one_in(3) {
        return damaged(random, table);
    }
    let slot = 1 + SLOT * random.below(usize::from(table[0]).max(1));
    let at = random.of(&[0, slot + 16, slot + 17, slot + 18]) + random.of(&[0, 0, 3]);
    let mut table = table.to_vec();
    table[at] = random.of(&[1, 2, 0xff]);
    table
}

#[cfg(test)]
mod tests {
    use super::*;
    use reading::store::find;

    #[test]
    fn values_that_a_store_can_hold() {
        let random = &mut Random::new(1);
        for _ in 0..1000 {
            let mut store = store(random);
            for Attribute { id, .. } in attributes(&store).expect("a store") {
                let attribute = find(&store, id).expect("it is there");
                let old = attribute.value(&store).expect("it has a value").to_vec();
                let new = new_value(random, &attribute, &old);
                assert_eq!(attribute.set(&mut store, &new), 0);
                assert!(is_store(&store));
            }
        }
    }

    #[test]
    fn tables_of_all_lengths() {
        let random = &mut Random::new(1);
        let store = store(random);
        let lengths = (0..1000).map(|_| table(random, &store, 50).len());
        let lengths: std::collections::BTreeSet<usize> = lengths.collect();
        assert!(lengths.contains(&0) && lengths.contains(&ENTRIES));
        assert!(lengths.len() > 10);
    }
}
