//! Frames cut at every byte, values without extent, and bodies of anything.

use cases::Random;
use cases::stores::{bench, single};
use cases::values::{COLLECTIONS, STRUCTURE, nested};

use super::Frames;
use super::reads::ids;
use super::writes::{RECORDS, record, small};

/// A code of no type in each gap of the table.
const UNKNOWN: [u8; 16] = [
    0x01, 0x07, 0x11, 0x17, 0x32, 0x37, 0x3b, 0x40, 0x45, 0x49, 0x4d, 0x52, 0xdf, 0xeb, 0xf2, 0xff,
];

pub fn add(frames: &mut Frames) {
    cut_reads(frames);
    cut_writes(frames);
    unknown(frames);
    levels(frames);
    anything(frames, &mut Random::new(0x616e_7974));
}

fn cut_reads(frames: &mut Frames) {
    let store = bench();
    for list in [&[0, 9][..], &[9, 0, 7], &[1, 1, 5]] {
        let body = ids(list);
        for length in 0..body.len() {
            frames.add_body(&store, 0x00, &body[..length]);
        }
    }
    let byte = single(0x20, 0, &[0x07]);
    for length in 0..7 {
        frames.add_body(&byte, 0x00, &ids(&[1, 2, 1, 1])[..length]);
    }
}

/// A stored record before, the failing or stored one cut, and the cut one in
/// between.
fn cut_writes(frames: &mut Frames) {
    let store = small();
    for second in RECORDS {
        let body = [RECORDS[0], second].concat();
        for length in 1..body.len() {
            frames.add_writes(&store, &body[..length]);
        }
    }
    let body = [RECORDS[2], RECORDS[3], RECORDS[1]].concat();
    for length in 1..body.len() {
        frames.add_writes(&store, &body[..length]);
    }
    // values of several bytes, each byte short
    let wide = record(1, 0x27, &[0x11; 8]);
    let eight = single(0x27, 1, &[0xff; 8]);
    let key = single(0xf1, 1, &[0xff; 16]);
    for length in 3..wide.len() {
        frames.add_writes(&eight, &wide[..length]);
        frames.add_writes(&key, &record(1, 0xf1, &[0x11; 16])[..3 + 2 * (length - 3)]);
    }
    // long strings, whose lengths take two bytes
    for value in [&[0x01][..], &[0x01, 0x00], &[0x00, 0x01, 0x61], &[0xff]] {
        for code in [0x43, 0x44] {
            frames.add_writes(&store, &record(4, code, value));
        }
    }
}

fn unknown(frames: &mut Frames) {
    let store = small();
    for code in UNKNOWN {
        let bad = record(1, code, &[0x00, 0x00]);
        frames.add_writes(&store, &[RECORDS[0], &bad].concat());
    }
    for id in [2, 3, 4] {
        frames.add_writes(&store, &record(id, 0xff, &[]));
        let behind = [&record(id, 0x07, &[])[..], RECORDS[0]].concat();
        frames.add_writes(&store, &behind);
    }
    // an element or a member of no type
    let series = record(4, 0x48, &[0x07, 0x01, 0x00, 0x00]);
    let structure = record(4, STRUCTURE, &[0x01, 0x00, 0xff]);
    for bad in [series, structure] {
        frames.add_writes(&store, &[RECORDS[0], &bad].concat());
    }
}

/// Sixteen levels, and collections that are cut.
fn levels(frames: &mut Frames) {
    let store = small();
    for code in COLLECTIONS {
        let deep = nested(code, 16);
        let body = [RECORDS[0], &record(4, code, &deep)].concat();
        frames.add_writes(&store, &body);
        let cut = record(4, code, &deep[..7]);
        frames.add_writes(&store, &[RECORDS[0], &cut].concat());
    }
}

/// Bodies of random bytes, and records with one byte changed.
fn anything(frames: &mut Frames, random: &mut Random) {
    let store = small();
    for command in [0x00, 0x02, 0x03, 0x05, 0x0c] {
        for length in 1..16 {
            let body: Vec<u8> = (0..length).map(|_| random.byte() % 5).collect();
            frames.add_body(&store, command, &body);
        }
    }
    let whole = RECORDS.concat();
    for at in 0..whole.len() {
        let mut changed = whole.clone();
        changed[at] = changed[at].wrapping_add(random.byte() | 1);
        let command = [0x02, 0x03, 0x05][at % 3];
        frames.add_body(&store, command, &changed);
    }
}
