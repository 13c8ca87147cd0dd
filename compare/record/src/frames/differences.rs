//! Frames that meet a listed condition: in a record that fails for each
//! reason, or is stored, with something behind it or nothing.

use cases::stores::{Part, built, single, string};
use cases::values::{COLLECTIONS, STRUCTURE, nested};

use super::Frames;
use super::writes::{RECORDS, record, small};

/// Values that the Rust's reader refuses: a type code and bytes.
fn refused() -> Vec<Vec<u8>> {
    let mut values: Vec<Vec<u8>> = vec![
        vec![0x10, 0x02],
        vec![0x10, 0xff],
        vec![0x41, 0xff],
        vec![0x42, 0xff],
        vec![0x43, 0xff, 0xff],
        vec![0x44, 0xff, 0xff],
        vec![0x42, 0x01, 0x80],
        vec![0x42, 0x02, 0xc3, 0x28],
        vec![0x44, 0x01, 0x00, 0x80],
        vec![STRUCTURE, 0x00, 0x00],
        vec![STRUCTURE, 0x01, 0x00, 0x20, 0x07],
        vec![0x48, 0x07, 0x00, 0x00],
        vec![0x48, 0x00, 0xfe, 0xff],
        vec![0x50, 0x20, 0xff, 0xff],
        vec![0x51, 0x42, 0x01, 0x00, 0xff],
    ];
    for code in COLLECTIONS {
        values.push([vec![code], nested(code, 15)].concat());
    }
    values
}

pub fn add(frames: &mut Frames) {
    let store = small();
    for (place, value) in refused().iter().enumerate() {
        // absent, not writable, of another type
        for id in [4, 3, 1] {
            let bad = record(id, value[0], &value[1..]);
            let behind = RECORDS[place % 2];
            match (place + usize::from(id)) % 3 {
                0 => frames.add_writes(&store, &bad),
                1 => frames.add_writes(&store, &[&bad[..], RECORDS[2]].concat()),
                _ => frames.add_writes(&store, &[RECORDS[0], &bad].concat()),
            }
            frames.add_writes(&store, &[&bad[..], behind].concat());
        }
    }
    own_type(frames);
    no_difference(frames);
}

/// Values of the attribute's own type: stored by 02 and 05 without the reader,
/// and refused by 03; and a string that is too long and not UTF-8.
fn own_type(frames: &mut Frames) {
    let boolean = single(0x10, 1, &[0x00]);
    let text = built(&[
        Part::new(1, 0x42, 1, &string(b"ab", 3)),
        Part::new(2, 0x20, 1, &[0x07]),
    ]);
    let byte = record(2, 0x20, &[0x09]);
    for value in [0x02, 0x80, 0xff] {
        frames.add_writes(&boolean, &record(1, 0x10, &[value]));
    }
    for letters in [&[0xff][..], &[0x01, 0x80], &[0x03, 0x61, 0x62, 0xff]] {
        let bad = record(1, 0x42, letters);
        frames.add_writes(&text, &bad);
        frames.add_writes(&text, &[&bad[..], &byte].concat());
        frames.add_writes(&text, &[&byte[..], &bad].concat());
    }
}

/// A condition that makes none: the reader is at its end already, or the
/// record behind is cut.
fn no_difference(frames: &mut Frames) {
    let store = small();
    let bad = record(4, 0x10, &[0x02]);
    frames.add_body(&store, 0x05, &bad);
    frames.add_writes(&store, &[&bad[..], &[0x01]].concat());
    frames.add_writes(&store, &[RECORDS[0], &bad, &RECORDS[0][..3]].concat());
}
