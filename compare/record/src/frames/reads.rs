//! Reads: of each type, of several attributes, of what is not there.

use cases::Random;
use cases::stores::{Part, bench, built, invalid, single, string};
use reading::Kind;

use super::Frames;

const READ: u8 = 0x00;

pub fn add(frames: &mut Frames) {
    of_bench(frames);
    types(frames, &mut Random::new(0x7265_6164));
    texts(frames);
    wide(frames);
    headers(frames);
}

pub fn ids(ids: &[u16]) -> Vec<u8> {
    ids.iter().flat_map(|id| id.to_le_bytes()).collect()
}

fn of_bench(frames: &mut Frames) {
    let store = bench();
    let lists: [&[u16]; 24] = [
        &[],
        &[0],
        &[1],
        &[5],
        &[7],
        &[9],
        &[2],
        &[0xffff],
        &[0x0100],
        &[0x0700],
        &[0, 9],
        &[9, 0],
        &[1, 5],
        &[5, 1],
        &[7, 7],
        &[1, 1, 1],
        &[9, 8, 6],
        &[0, 0, 1],
        &[9, 1, 9],
        &[0, 1, 5, 7],
        &[7, 5, 1, 0],
        &[9, 7, 9, 0],
        &[1, 2, 3, 4, 5, 6, 7],
        &[9; 10],
    ];
    for list in lists {
        frames.add_body(&store, READ, &ids(list));
    }
    frames.add_body(&built(&[]), READ, &ids(&[0]));
    frames.add_body(&built(&[]), READ, &ids(&[0, 0xffff]));
}

/// Every type of fixed size, as the only attribute.
fn types(frames: &mut Frames, random: &mut Random) {
    for code in 0..=0xff {
        if let Kind::Fixed(size @ 1..) = reading::kind(code) {
            let store = single(code, code % 4, &random.bytes(size));
            frames.add_body(&store, READ, &ids(&[1]));
        }
    }
}

/// Strings: empty, full, invalid, and with unused bytes, which are not sent.
fn texts(frames: &mut Frames) {
    for code in [0x41, 0x42] {
        for room in [1, 2, 6] {
            let full = string(&vec![0x66; room - 1], room);
            let half = string(&vec![0xff; room / 2], room);
            for body in [string(b"", room), full, half, invalid(room)] {
                let store = built(&[Part::new(3, code, 0, &body), Part::new(4, 0x08, 0, &[0xee])]);
                frames.add_body(&store, READ, &ids(&[3]));
                frames.add_body(&store, READ, &ids(&[3, 4]));
            }
        }
    }
}

/// Values of 8 and of 16 bytes, and a string of 40 letters.
fn wide(frames: &mut Frames) {
    let store = built(&[
        Part::new(0x00ff, 0xf1, 2, &[0x11; 16]),
        Part::new(0x0100, 0x2f, 1, &[0, 0, 0, 0, 0, 0, 0, 0x80]),
    ]);
    for list in [
        &[0x00ff][..],
        &[0x0100],
        &[0x00ff, 0x0100],
        &[0x0100, 0x00ff],
        &[0x0100, 0x0001, 0x0100],
        &[0xff00, 0x00ff],
    ] {
        frames.add_body(&store, READ, &ids(list));
    }
    let long = built(&[
        Part::new(1, 0x42, 0, &string(&[0x7a; 40], 44)),
        Part::new(2, 0x20, 0, &[2]),
    ]);
    for list in [&[1][..], &[2, 1, 2], &[1, 2]] {
        frames.add_body(&long, READ, &ids(list));
    }
}

/// Every control byte of a global frame, sequence numbers, and codes that
/// look like the rest of a header.
fn headers(frames: &mut Frames) {
    let store = single(0x20, 0, &[0x07]);
    for high in 0..0x40_u8 {
        let control = high << 2;
        let sequence = control.wrapping_mul(5);
        let head = if control & 4 == 0 {
            vec![control, sequence, READ]
        } else {
            vec![control, high, 0x02, sequence, READ]
        };
        frames.add(&store, &[head, ids(&[1])].concat());
    }
}
