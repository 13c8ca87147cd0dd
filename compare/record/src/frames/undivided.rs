//! Undivided writes with a string that is too long: beside records that are
//! stored and records that fail, and before and behind what cannot be read or
//! what the Rust cannot step over.

use cases::stores::bench;

use super::Frames;
use super::writes::{RECORDS, record, small};

const UNDIVIDED: u8 = 0x03;

pub fn add(frames: &mut Frames) {
    to_bench(frames);
    let (store, too_long) = (small(), RECORDS[5]);
    let mut add = |records: &[&[u8]]| frames.add_body(&store, UNDIVIDED, &records.concat());
    for other in RECORDS {
        add(&[RECORDS[0], too_long, other]);
        add(&[other, too_long, RECORDS[1], too_long]);
        for length in 1..other.len() {
            add(&[RECORDS[0], too_long, &other[..length]]);
        }
    }
    // a value without extent, and one that the Rust refuses
    for value in [&[0x07, 0x00][..], &[0x10, 0x02]] {
        let bad = record(1, value[0], &value[1..]);
        add(&[too_long, &bad]);
        add(&[&bad, too_long]);
        add(&[RECORDS[0], too_long, &bad]);
        add(&[RECORDS[2], &bad, too_long]);
    }
}

/// The frames of docs/DIFFERENCES.md, with letters and with a cut record behind.
fn to_bench(frames: &mut Frames) {
    let store = bench();
    let level = record(1, 0x20, &[0x00]);
    let read_only = record(0, 0x00, &[]);
    let absent = record(9, 0x20, &[0x00]);
    for too_long in [[0x05, 0, 0, 0, 0, 0], *b"\x05ABCDE"] {
        let too_long = record(7, 0x42, &too_long);
        for other in [&level[..], &read_only, &absent, &[0x01]] {
            frames.add_body(&store, UNDIVIDED, &[other, &too_long].concat());
            frames.add_body(&store, UNDIVIDED, &[&too_long, other].concat());
        }
    }
}
