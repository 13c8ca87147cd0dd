//! Bytes, and whether they are a store.

use cases::Random;
use cases::stores::{
    Part, bench, built, invalid, most_rooms, random_parts, single, string, strings, word,
};
use reading::Kind;
use reading::store::is_store;

use super::line;
use crate::lines::Inputs;

pub fn lines() -> Vec<String> {
    let mut inputs = Inputs::default();
    lengths(&mut inputs);
    changes(&mut inputs);
    ids(&mut inputs);
    counts(&mut inputs);
    types(&mut inputs);
    bodies(&mut inputs);
    offsets(&mut inputs);
    random(&mut inputs, &mut Random::new(0x7374_6f72));
    inputs
        .into_vec()
        .iter()
        .map(|bytes| line('s', bytes, &[is_store(bytes).into()]))
        .collect()
}

/// The bench store whole, cut everywhere, and with one byte more.
fn lengths(inputs: &mut Inputs) {
    let store = bench();
    inputs.add(store.clone());
    for length in 0..store.len() {
        inputs.add(store[..length].to_vec());
    }
    for more in [0x01, 0x00] {
        inputs.add([&store[..], &[more]].concat());
    }
}

/// The bench store with any one byte changed, in three ways.
fn changes(inputs: &mut Inputs) {
    for at in 0..bench().len() {
        let byte = bench()[at];
        for changed in [byte ^ 0x01, byte ^ 0x80, 0xff] {
            let mut store = bench();
            store[at] = changed;
            inputs.add(store);
        }
    }
}

/// Ids that ascend, that are equal, and that descend, at the start and the end.
fn ids(inputs: &mut Inputs) {
    for ids in [
        vec![0xffff],
        vec![0, 0xffff],
        vec![5, 5],
        vec![6, 5],
        vec![0x0100, 0x00ff],
        vec![0x00ff, 0x0100],
        vec![0x0201, 0x0102],
        vec![0xffff, 0],
        vec![0xffff, 0xffff],
        vec![1, 2, 3],
        vec![2, 2, 3],
        vec![1, 3, 3],
        vec![1, 3, 2],
        vec![2, 1, 3],
        vec![3, 2, 1],
        vec![1, 2, 1],
        vec![0, 0, 0],
    ] {
        let parts: Vec<Part> = ids
            .iter()
            .map(|&id| Part::new(id, 0x20, 1, &[0x2a]))
            .collect();
        inputs.add(built(&parts));
    }
}

/// How many attributes there are, how many the count says, and how long the
/// whole is.
fn counts(inputs: &mut Inputs) {
    let none = built(&[]);
    inputs.add(none.clone());
    for more in [0x00, 0x01] {
        inputs.add([&none[..], &[more]].concat());
    }
    for (there, said) in [
        (64, 64),
        (65, 65),
        (64, 63),
        (64, 65),
        (63, 64),
        (65, 64),
        (1, 0),
        (1, 2),
        (2, 1),
        (1, 0x0101),
        (0, 1),
        (0, 0xffff),
        (64, 0x0140),
        (64, 0xffff),
    ] {
        let parts: Vec<Part> = (0..there)
            .map(|id| Part::new(id, 0x20, 3, &[id.to_le_bytes()[0]]))
            .collect();
        let mut store = built(&parts);
        store[2..4].copy_from_slice(&word(said));
        inputs.add(store);
    }
    let most = most_rooms();
    let more = [&most[..15], &[140]].concat();
    let many = [vec![56; 63], vec![52]].concat();
    for rooms in [most, more, many] {
        inputs.add(built(&strings(&rooms)));
    }
}

/// Every type code in a store of one attribute, with the room that it asks for
/// and those beside it. A code that no store may hold comes once, with a value
/// of its own if it has one.
fn types(inputs: &mut Inputs) {
    for code in 0..=0xff {
        match reading::kind(code) {
            Kind::Fixed(size) => {
                for room in [size.saturating_sub(1), size, size + 1] {
                    inputs.add(single(code, 1, &vec![0x00; room]));
                }
            }
            Kind::Text(1) => {
                for room in [0, 1, 2, 128, 254, 255, 256, 257] {
                    inputs.add(single(code, 1, &vec![0x00; room]));
                }
            }
            Kind::Text(_) => inputs.add(single(code, 1, &[1, 0, 0x41, 0])),
            Kind::Series => inputs.add(single(code, 1, &[0x20, 1, 0, 7])),
            Kind::Structure => inputs.add(single(code, 1, &[1, 0, 0x20, 7])),
            Kind::Unknown => {
                let room = usize::from(code % 8) + 1;
                inputs.add(single(code, 1, &vec![0x00; room]));
            }
        }
    }
    // a room whose high byte counts
    let mut wide = single(0x20, 1, &[0x07]);
    wide[11] = 0x01;
    inputs.add(wide);
    inputs.add(single(0x20, 1, &[0x07; 0x101]));
    for access in [0, 1, 2, 3, 4, 5, 7, 8, 0x10, 0x40, 0x80, 0x83, 0xff] {
        inputs.add(single(0x21, access, &[0x34, 0x12]));
    }
}

/// A string's length against its room, and what stands behind the string.
fn bodies(inputs: &mut Inputs) {
    for code in [0x41, 0x42] {
        for room in [1_usize, 2, 5, 255] {
            for length in [0, room - 1, room, 0xfe, 0xff] {
                let mut body = vec![0x00; room];
                body[0] = u8::try_from(length).expect("at most ff");
                inputs.add(single(code, 1, &body));
                let mut full = vec![0x61; room];
                full[0] = body[0];
                inputs.add(single(code, 1, &full));
            }
        }
    }
    // the first, the last and any unused byte, with more behind the string
    let texts = [string(b"", 5), string(b"ab", 5), string(b"abc", 5)];
    for body in texts.into_iter().chain([invalid(5), string(b"abcd", 5)]) {
        for at in 1..5 {
            let mut changed = body.clone();
            changed[at] ^= 0x01;
            let after = Part::new(9, 0x20, 1, &[0xee]);
            inputs.add(built(&[Part::new(1, 0x41, 1, &changed), after]));
        }
    }
    // a length that reaches into the next body
    let after = Part::new(9, 0x41, 1, &[0x00, 0x00]);
    for length in 0..6 {
        let mut body = vec![0x00; 3];
        body[0] = length;
        inputs.add(built(&[Part::new(1, 0x42, 1, &body), after.clone()]));
    }
}

/// Bodies that overlap, leave a gap, stand in another order or past the end.
fn offsets(inputs: &mut Inputs) {
    for entry in 0..4 {
        let at = 8 + 8 * entry;
        for moved in [-1_i16, 1, -32, 256, 0x7000] {
            let mut store = bench();
            let offset = i16::from_le_bytes([store[at], store[at + 1]]);
            store[at..at + 2].copy_from_slice(&(offset + moved).to_le_bytes());
            inputs.add(store);
        }
    }
    // two bodies of one size, in the order of their entries and in the other
    let pair = built(&[
        Part::new(1, 0x20, 1, &[0x11]),
        Part::new(2, 0x20, 1, &[0x22]),
    ]);
    for (first, second) in [(20, 21), (21, 20), (20, 20), (21, 21), (21, 22), (19, 20)] {
        let mut store = pair.clone();
        store[8] = first;
        store[16] = second;
        inputs.add(store.clone());
        store.push(0x00);
        inputs.add(store);
    }
}

/// Random stores, and each with one byte changed, twice.
fn random(inputs: &mut Inputs, random: &mut Random) {
    for _ in 0..200 {
        let store = built(&random_parts(random));
        for _ in 0..2 {
            let mut changed = store.clone();
            let at = random.under(changed.len());
            changed[at] = random.byte();
            inputs.add(changed);
        }
        inputs.add(store);
    }
}
