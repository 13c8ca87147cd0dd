//! Stores, built from their parts.

use reading::Kind;
use reading::store::attributes;

use crate::random::Random;

/// Types that a random store's attributes have.
pub const TYPES: [u8; 12] = [
    0x08, 0x10, 0x1a, 0x20, 0x21, 0x23, 0x29, 0x2b, 0x39, 0x41, 0x42, 0xf1,
];

/// Bench store T of document 01.
pub fn bench() -> Vec<u8> {
    built(&[
        Part::new(0, 0x23, 2, &[0x00, 0x00, 0x00, 0x80]),
        Part::new(1, 0x20, 1, &[0x07]),
        Part::new(5, 0x29, 3, &[0x38, 0xff]),
        Part::new(7, 0x42, 1, &string(b"TV", 5)),
    ])
}

/// An attribute to build a store of.
#[derive(Clone)]
pub struct Part {
    pub id: u16,
    pub code: u8,
    pub access: u8,
    pub body: Vec<u8>,
}

impl Part {
    pub fn new(id: u16, code: u8, access: u8, body: &[u8]) -> Self {
        let body = body.to_vec();
        Self {
            id,
            code,
            access,
            body,
        }
    }
}

/// Contents and bodies as document 01 lays them out. Whether the parts may
/// stand in a store is not looked at.
pub fn built(parts: &[Part]) -> Vec<u8> {
    let mut contents = [[0x21, 0xfc], word(parts.len())].concat();
    let mut bodies = Vec::new();
    for part in parts {
        contents.extend(part.id.to_le_bytes());
        contents.extend([part.code, part.access]);
        contents.extend(word(4 + 8 * parts.len() + bodies.len()));
        contents.extend(word(part.body.len()));
        bodies.extend(&part.body);
    }
    [contents, bodies].concat()
}

/// The parts of a store.
pub fn parts(store: &[u8]) -> Vec<Part> {
    attributes(store)
        .unwrap_or_default()
        .iter()
        .map(|entry| {
            let body = &store[entry.offset..entry.offset + entry.room];
            Part::new(entry.id, entry.type_code, entry.access, body)
        })
        .collect()
}

/// A store of these parts, and of the cluster of another.
pub fn rebuilt(store: &[u8], parts: &[Part]) -> Vec<u8> {
    let mut rebuilt = built(parts);
    rebuilt[..2].copy_from_slice(&store[..2]);
    rebuilt
}

/// A store of one attribute, whose id is 1.
pub fn single(code: u8, access: u8, body: &[u8]) -> Vec<u8> {
    built(&[Part::new(1, code, access, body)])
}

pub fn word(number: usize) -> [u8; 2] {
    u16::try_from(number)
        .expect("stores are short")
        .to_le_bytes()
}

/// The body of a string: its length, its letters, and zeros up to `room`.
pub fn string(letters: &[u8], room: usize) -> Vec<u8> {
    let length = u8::try_from(letters.len()).expect("a string is short");
    let mut body = [&[length], letters].concat();
    assert!(body.len() <= room, "the string has room");
    body.resize(room, 0);
    body
}

/// The body of a string of length ff.
pub fn invalid(room: usize) -> Vec<u8> {
    let mut body = vec![0; room];
    body[0] = 0xff;
    body
}

/// Octet strings of these rooms, each as long as its room allows.
pub fn strings(rooms: &[usize]) -> Vec<Part> {
    (0..)
        .zip(rooms)
        .map(|(id, &room)| Part::new(id, 0x41, 3, &string(&vec![0x5a; room - 1], room)))
        .collect()
}

/// The rooms of a store of exactly 4096 bytes.
pub fn most_rooms() -> Vec<usize> {
    [vec![255; 15], vec![139]].concat()
}

/// The parts of a store of up to five attributes.
pub fn random_parts(random: &mut Random) -> Vec<Part> {
    let mut next = 0;
    (0..random.under(6))
        .map(|_| {
            let id = next + [0, 1, 7, 0x0123][random.under(4)];
            next = id + 1;
            let code = TYPES[random.under(TYPES.len())];
            let access = random.byte() % 4;
            Part::new(id, code, access, &random_body(random, code))
        })
        .collect()
}

/// A body of a type that a store may hold; a string's room is at most 8.
pub fn random_body(random: &mut Random, code: u8) -> Vec<u8> {
    if let Kind::Fixed(size) = reading::kind(code) {
        return random.bytes(size);
    }
    let room = 1 + random.under(8);
    if random.under(5) == 0 {
        return invalid(room);
    }
    let length = random.under(room);
    string(&random.bytes(length), room)
}

#[cfg(test)]
mod tests {
    use reading::store::is_store;

    use super::*;
    use crate::hex::hex;

    #[test]
    fn bench_store_of_the_document() {
        let expected = "21fc0400000023022400040001002001280001000500290329000200\
                        070042012b00050000000080073\
                        8ff0254560000";
        assert_eq!(hex(&bench()), expected);
        assert!(is_store(&bench()));
    }

    #[test]
    fn random_stores_are_stores() {
        let mut random = Random::new(0x7465_7374);
        let mut strings = 0;
        for _ in 0..2_000 {
            let parts = random_parts(&mut random);
            let store = built(&parts);
            assert!(is_store(&store), "{}", hex(&store));
            assert_eq!(rebuilt(&store, &super::parts(&store)), store);
            assert!(store.len() <= 4 + 5 * 24);
            strings += parts.iter().filter(|part| part.code == 0x41).count();
        }
        assert!(strings > 100);
    }

    #[test]
    fn the_largest_store() {
        let largest = built(&strings(&most_rooms()));
        assert_eq!(largest.len(), 4096);
        assert!(is_store(&largest));
    }
}
