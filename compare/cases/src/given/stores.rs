//! Stores at random: from none to 64 attributes of all types, and damaged ones.

use reading::Kind;

use crate::random::Random;
use crate::stores::{Part, built, invalid, most_rooms, string, strings};

/// Clusters; some are others with their bytes exchanged.
pub const CLUSTERS: [u16; 4] = [0xfc21, 0x21fc, 0x0006, 0x0000];

/// A store, sound or damaged.
pub fn any(random: &mut Random) -> Vec<u8> {
    let store = sound(random);
    if random.one_in(24) {
        damaged(random, store)
    } else {
        store
    }
}

fn sound(random: &mut Random) -> Vec<u8> {
    let mut store = match random.below(40) {
        0 => built(&strings(&most_rooms())),
        1 => built(&parts(random, 64, 8)),
        2 => built(&parts(random, 16, 16)),
        3 => built(&parts(random, 3, 255)),
        _ => {
            let many = random.of(&[0, 1, 1, 2, 3, 4, 5, 6]);
            built(&parts(random, many, 8))
        }
    };
    let cluster = random.of(&CLUSTERS);
    store[..2].copy_from_slice(&cluster.to_le_bytes());
    store
}

/// `many` attributes; a string's room is at most `room`.
fn parts(random: &mut Random, many: usize, room: usize) -> Vec<Part> {
    let mut next = random.of(&[0, 0, 0x00fe, 0xff00]);
    (0..many)
        .map(|_| {
            let id = next + random.of(&[0, 0, 1, 3]);
            next = id + 1;
            let code = type_code(random);
            let access = random.of(&[0, 1, 1, 2, 3, 3]);
            Part::new(id, code, access, &body(random, code, room))
        })
        .collect()
}

/// A type that a store may hold.
fn type_code(random: &mut Random) -> u8 {
    loop {
        let code = match random.below(4) {
            0 => random.of(&[0x10, 0x41, 0x42, 0x42]),
            1 => random.of(&[0x20, 0x21, 0x28, 0x29, 0x2f, 0x39]),
            _ => random.byte(),
        };
        if matches!(reading::kind(code), Kind::Fixed(1..) | Kind::Text(1)) {
            return code;
        }
    }
}

fn body(random: &mut Random, code: u8, most: usize) -> Vec<u8> {
    if let Kind::Fixed(size) = reading::kind(code) {
        return random.bytes(size);
    }
    let room = 1 + random.below(most);
    if random.one_in(6) {
        return invalid(room);
    }
    let length = random.below(room);
    string(&random.bytes(length), room)
}

/// One byte changed, cut, or longer; it may be a store all the same.
fn damaged(random: &mut Random, mut store: Vec<u8>) -> Vec<u8> {
    match random.below(4) {
        0 => store.truncate(random.below(store.len())),
        1 => store.push(random.byte()),
        _ => {
            let head = store.len().min(40);
            let at = random.below(head);
            store[at] = match random.below(3) {
                0 => store[at] ^ 1 << random.below(8),
                1 => store[at].wrapping_add(1),
                _ => random.byte(),
            };
        }
    }
    store
}
