//! Writes of all three kinds: of each type, each failure, and several mixed.

use cases::Random;
use cases::stores::{Part, bench, built, invalid, single, string};
use reading::Kind;

use super::Frames;

/// The records that `small` is written with: two that are stored, and one for
/// each failure.
pub const RECORDS: [&[u8]; 6] = [
    &[0x01, 0x00, 0x20, 0x09],
    &[0x02, 0x00, 0x41, 0x01, 0x61],
    &[0x04, 0x00, 0x20, 0x09],
    &[0x03, 0x00, 0x20, 0x09],
    &[0x01, 0x00, 0x28, 0x09],
    &[0x02, 0x00, 0x41, 0x03, 0x61, 0x62, 0x63],
];

pub fn add(frames: &mut Frames) {
    to_bench(frames);
    mixed(frames);
    types(frames, &mut Random::new(0x7772_7473));
    texts(frames);
    order(frames);
}

/// A byte that can be written, an octet string of two, and a byte that cannot.
pub fn small() -> Vec<u8> {
    built(&[
        Part::new(1, 0x20, 1, &[0x07]),
        Part::new(2, 0x41, 1, &string(b"xy", 3)),
        Part::new(3, 0x20, 2, &[0x33]),
    ])
}

pub fn record(id: u16, code: u8, value: &[u8]) -> Vec<u8> {
    [&id.to_le_bytes()[..], &[code], value].concat()
}

fn to_bench(frames: &mut Frames) {
    let store = bench();
    let one = record(1, 0x20, &[0x09]);
    let five = record(5, 0x29, &[0x34, 0x12]);
    let seven = record(7, 0x42, b"\x04ABCD");
    let long = record(7, 0x42, b"\x05ABCDE");
    let read_only = record(0, 0x23, &[0x01, 0x00, 0x00, 0x00]);
    let absent = record(9, 0x20, &[0x00]);
    for body in [
        vec![],
        one.clone(),
        five.clone(),
        seven.clone(),
        long.clone(),
        read_only.clone(),
        absent.clone(),
        [&one[..], &long].concat(),
        [&long[..], &one].concat(),
        [&one[..], &five, &seven].concat(),
        [&read_only[..], &absent, &long, &one].concat(),
        [&absent[..], &five, &absent, &long].concat(),
        // the same value, and there and back again
        record(1, 0x20, &[0x07]),
        [record(1, 0x20, &[0x09]), record(1, 0x20, &[0x07])].concat(),
    ] {
        frames.add_writes(&store, &body);
    }
    frames.add_writes(&built(&[]), &absent);
    frames.add_writes(&built(&[]), &[]);
}

/// All pairs of records, and triples that begin and end with a stored one.
fn mixed(frames: &mut Frames) {
    let store = small();
    for first in RECORDS {
        frames.add_writes(&store, first);
        for second in RECORDS {
            frames.add_writes(&store, &[first, second].concat());
        }
    }
    for middle in &RECORDS[2..] {
        let between = [RECORDS[0], middle, RECORDS[1]].concat();
        frames.add_writes(&store, &between);
        frames.add_writes(&store, &[middle, RECORDS[0], middle, middle].concat());
    }
    frames.add_writes(&store, &RECORDS.concat());
}

/// Every type of fixed size, between a neighbour's bytes and the end.
fn types(frames: &mut Frames, random: &mut Random) {
    for code in 0..=0xff {
        let Kind::Fixed(size @ 1..) = reading::kind(code) else {
            continue;
        };
        let mut value = random.bytes(size);
        if code == 0x10 {
            value[0] = 1;
        }
        let mut before = random.bytes(size);
        before[0] = value[0] ^ 0x80;
        let store = single(code, 1, &before);
        frames.add_writes(&store, &record(1, code, &value));
    }
}

/// Strings over empty, full and invalid ones, with a neighbour behind.
fn texts(frames: &mut Frames) {
    for (code, room) in [(0x41, 1), (0x42, 2), (0x41, 5), (0x42, 5)] {
        let full = string(&vec![0x66; room - 1], room);
        for before in [full, invalid(room)] {
            let store = built(&[
                Part::new(1, code, 1, &before),
                Part::new(2, 0x20, 1, &[0xee]),
            ]);
            for length in [0, room - 1, room] {
                let text = string(&vec![0x6e; length], 1 + length);
                frames.add_writes(&store, &record(1, code, &text));
            }
            // stored by the three alike, but the Rust's reader refuses it in 03
            frames.add_writes(&store, &record(1, code, &[0xff]));
        }
    }
}

/// Absent, not writable, of the other type, too long, in every combination.
fn order(frames: &mut Frames) {
    for access in 0..4 {
        let store = built(&[
            Part::new(3, 0x41, access, &string(b"ab", 3)),
            Part::new(4, 0x42, access ^ 1, &string(b"yz", 3)),
        ]);
        for id in [3, 4, 5] {
            for code in [0x41, 0x42] {
                let letters: &[u8] = if id % 2 == 0 { b"\x02nw" } else { b"\x03new" };
                frames.add_writes(&store, &record(id, code, letters));
            }
        }
    }
}
