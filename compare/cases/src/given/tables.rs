//! Tables at random, for the attributes of a store and for others, with and
//! without last reports, and damaged ones.

use reading::store::Attribute;
use reading::table::{Config, ENTRIES, Entry, Key, SIGNED, SIZE, SLOT, UNSIGNED, to_bytes};

use super::stores::CLUSTERS;
use crate::random::Random;

const INTERVALS: [u16; 6] = [0, 1, 10, 60, 65534, 65535];

/// How many entries a table has: some, about as many as there was room for before
/// document 02's request 7, or about as many as there is room for.
const COUNTS: [usize; 13] = [
    0,
    0,
    1,
    2,
    5,
    12,
    16,
    17,
    ENTRIES / 2,
    ENTRIES - 2,
    ENTRIES - 1,
    ENTRIES,
    ENTRIES,
];

/// A table's bytes, sound or damaged.
pub fn any(random: &mut Random, cluster: u16, attributes: &[Attribute]) -> Vec<u8> {
    let many = random.of(&COUNTS);
    let table = to_bytes(&sound(random, many, cluster, attributes));
    if random.one_in(24) {
        damaged(random, table)
    } else {
        table
    }
}

/// So many entries.
pub fn sound(
    random: &mut Random,
    many: usize,
    cluster: u16,
    attributes: &[Attribute],
) -> Vec<Entry> {
    // about five of the store's, so that a full table does not have all of them
    let own = (many / 5).max(3);
    (0..many)
        .map(|_| entry(random, own, cluster, attributes))
        .collect()
}

/// Its key may stand in the table already: the first counts. One in so many is for
/// an attribute of the store.
fn entry(random: &mut Random, own: usize, cluster: u16, attributes: &[Attribute]) -> Entry {
    let own = !attributes.is_empty() && random.one_in(own);
    let key = Key {
        cluster: match random.below(4) {
            0 => random.of(&CLUSTERS),
            _ => cluster,
        },
        attribute: if own {
            random.of(attributes).id
        } else {
            random.short()
        },
    };
    let change = match random.below(3) {
        0 => random.number(),
        _ => random.byte().into(),
    };
    let config = Config {
        minimum: random.of(&INTERVALS),
        maximum: random.of(&INTERVALS),
        change,
        mark: random.of(&[SIGNED, UNSIGNED]),
    };
    let last = match random.below(3) {
        0 => None,
        1 => Some((0, 0)),
        _ => Some((random.word(), random.number().cast_signed())),
    };
    Entry { key, config, last }
}

fn damaged(random: &mut Random, mut table: Vec<u8>) -> Vec<u8> {
    let count = usize::from(table[0]).min(ENTRIES - 1);
    match random.below(7) {
        0 => table[0] = random.of(&[129, 130, 0xff]),
        1 => table.truncate(random.below(SIZE)),
        2 => table.push(0),
        // a mark or a flag
        3 => table[1 + SLOT * count + 16] = random.of(&[1, 2, 0xff]),
        4 => table[1 + SLOT * count + 17] = random.of(&[1, 2, 0xff]),
        _ => {
            let at = random.below(SIZE);
            table[at] ^= 1 << random.below(8);
        }
    }
    table
}
