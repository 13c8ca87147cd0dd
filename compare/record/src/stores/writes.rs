//! One write to a store. An input is an id, a type code, the value's length in
//! two bytes, one whole value of the type, and a store; the answer the status,
//! and the store as it is afterwards.

use cases::Random;
use cases::stores::{
    Part, TYPES, bench, built, invalid, most_rooms, random_body, random_parts, string, strings,
    word,
};
use reading::Kind;
use reading::store::write;

use super::line;
use crate::lines::Inputs;

/// Values of types that no store may hold: none, a long string, collections.
const FOREIGN: [(u8, &[u8]); 5] = [
    (0x00, &[]),
    (0x43, &[0x01, 0x00, 0x41]),
    (0x48, &[0x20, 0x02, 0x00, 0x01, 0x02]),
    (0x4c, &[0x01, 0x00, 0x42, 0x01, 0x41]),
    (0x51, &[0x20, 0xff, 0xff]),
];

pub fn lines() -> Vec<String> {
    inputs()
        .iter()
        .map(|input| line('w', input, &answer(input)))
        .collect()
}

fn inputs() -> Vec<Vec<u8>> {
    let mut inputs = Inputs::default();
    to_bench(&mut inputs);
    order(&mut inputs);
    fixed(&mut inputs, &mut Random::new(0x6669_7865));
    texts(&mut inputs);
    largest(&mut inputs);
    random(&mut inputs, &mut Random::new(0x7772_6974));
    inputs.into_vec()
}

fn answer(input: &[u8]) -> Vec<u8> {
    let (head, rest) = input.split_at(5);
    let length = u16::from_le_bytes([head[3], head[4]]);
    let (value, store) = rest.split_at(length.into());
    let mut store = store.to_vec();
    let id = u16::from_le_bytes([head[0], head[1]]);
    let status = write(&mut store, id, head[2], value);
    [vec![status], store].concat()
}

fn asked(id: u16, code: u8, value: &[u8], store: &[u8]) -> Vec<u8> {
    let head = [&id.to_le_bytes()[..], &[code], &word(value.len())].concat();
    [&head, value, store].concat()
}

/// A string as a value: no more room than it takes.
fn text(letters: &[u8]) -> Vec<u8> {
    string(letters, 1 + letters.len())
}

/// Each failure at the bench store, and each attribute written.
fn to_bench(inputs: &mut Inputs) {
    let mut add = |id, code, value: &[u8]| inputs.add(asked(id, code, value, &bench()));
    for id in [2, 6, 8, 9, 0x0100, 0x0700, 0xffff] {
        add(id, 0x20, &[0x09]);
        add(id, 0x42, &text(b"ABCDE"));
    }
    add(0, 0x23, &[0x01, 0x00, 0x00, 0x00]);
    add(0, 0x2b, &[0x01, 0x00, 0x00, 0x00]);
    add(0, 0x42, &text(b"ABCDE"));
    for byte in [0x00, 0x07, 0x09, 0x80, 0xff] {
        add(1, 0x20, &[byte]);
        for code in [0x08, 0x10, 0x18, 0x28, 0x30] {
            add(1, code, &[byte]);
        }
    }
    for value in [[0x00, 0x00], [0x38, 0xff], [0xff, 0xff], [0x00, 0x80]] {
        add(5, 0x29, &value);
        add(5, 0x21, &value);
    }
    for code in [0x41, 0x42] {
        add(7, code, &[0xff]);
        for length in [0, 1, 2, 3, 4, 5, 6, 0xfe] {
            add(7, code, &text(&vec![0x41; length]));
        }
    }
    for id in [0, 1, 5, 7, 9] {
        for (code, value) in FOREIGN {
            add(id, code, value);
        }
    }
}

/// Two strings, one of them read-only: absent, not writable, of the other
/// type, too long, in every combination.
fn order(inputs: &mut Inputs) {
    for access in 0..4 {
        let store = built(&[
            Part::new(3, 0x41, access, &string(b"ab", 4)),
            Part::new(4, 0x42, access ^ 1, &string(b"xyz", 4)),
        ]);
        for id in [3, 4, 5] {
            for code in [0x41, 0x42] {
                for value in [text(b"new"), text(b"long")] {
                    inputs.add(asked(id, code, &value, &store));
                }
            }
        }
    }
}

/// Every fixed type, between two neighbours that are to stay as they are.
fn fixed(inputs: &mut Inputs, random: &mut Random) {
    for code in 0..=0xff {
        let Kind::Fixed(size @ 1..) = reading::kind(code) else {
            continue;
        };
        let store = built(&[
            Part::new(1, 0x21, 3, &[0x11, 0x11]),
            Part::new(2, code, 1 + random.byte() % 2 * 2, &random.bytes(size)),
            Part::new(3, 0x21, 3, &[0x33, 0x33]),
        ]);
        inputs.add(asked(2, code, &random.bytes(size), &store));
    }
}

/// Strings over empty, full and invalid ones, with a neighbour behind.
fn texts(inputs: &mut Inputs) {
    for room in [1, 2, 5, 32, 255] {
        let full = string(&vec![0x66; room - 1], room);
        for before in [string(b"", room), full, invalid(room)] {
            let store = built(&[
                Part::new(1, 0x42, 1, &before),
                Part::new(2, 0x20, 1, &[0xee]),
            ]);
            inputs.add(asked(1, 0x42, &[0xff], &store));
            for length in [0, 1, room / 2, room - 1, room, 0xfe] {
                // no string is as long as the largest room
                if length < 0xff {
                    inputs.add(asked(1, 0x42, &text(&vec![0x6e; length]), &store));
                }
            }
        }
    }
}

/// The largest store, at its first and its last byte.
fn largest(inputs: &mut Inputs) {
    let store = built(&strings(&most_rooms()));
    inputs.add(asked(15, 0x41, &text(&[0x7e; 138]), &store));
    inputs.add(asked(14, 0x41, &text(&[0x7e; 0xfe]), &store));
    inputs.add(asked(16, 0x41, &[0xff], &store));
}

/// Random stores: a value of the attribute's own type, one of another, and one
/// for an id that is absent.
fn random(inputs: &mut Inputs, random: &mut Random) {
    for _ in 0..40 {
        let parts = random_parts(random);
        let store = built(&parts);
        for part in parts.iter().take(3) {
            let value = random_value(random, part.code);
            inputs.add(asked(part.id, part.code, &value, &store));
        }
        if let Some(part) = parts.last() {
            let code = TYPES[random.under(TYPES.len())];
            let value = random_value(random, code);
            inputs.add(asked(part.id, code, &value, &store));
            let value = random_value(random, part.code);
            inputs.add(asked(part.id + 1, part.code, &value, &store));
        }
    }
}

/// The value of a random body, without what a string does not use.
fn random_value(random: &mut Random, code: u8) -> Vec<u8> {
    let body = random_body(random, code);
    match reading::extent(code, &body, 0) {
        reading::Extent::End(end) => body[..end].to_vec(),
        _ => body,
    }
}

#[cfg(test)]
mod tests {
    use reading::Extent;
    use reading::store::is_store;

    use super::*;

    #[test]
    fn whole_values_and_stores_before_and_after() {
        let mut statuses = [0; 256];
        for input in inputs() {
            let (head, rest) = input.split_at(5);
            let length = usize::from(u16::from_le_bytes([head[3], head[4]]));
            let (value, store) = rest.split_at(length);
            assert_eq!(reading::extent(head[2], value, 0), Extent::End(length));
            assert!(is_store(store));
            let answer = answer(&input);
            assert!(is_store(&answer[1..]));
            assert!(answer[0] == 0 || &answer[1..] == store);
            statuses[usize::from(answer[0])] += 1;
        }
        for status in [0x00, 0x86, 0x87, 0x88, 0x8d] {
            assert!(statuses[status] >= 15, "{status:02x}: {}", statuses[status]);
        }
    }
}
