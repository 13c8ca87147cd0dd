//! Discovers: from every start, up to every maximum.

use cases::stores::{Part, bench, built};

use super::Frames;

const DISCOVER: u8 = 0x0c;

pub fn add(frames: &mut Frames) {
    let store = bench();
    for start in [0, 1, 2, 5, 7, 8, 0x0100, 0xffff] {
        for maximum in [0, 1, 2, 3, 4, 0xff] {
            frames.add_body(&store, DISCOVER, &asked(start, maximum));
        }
    }
    // what stands behind is ignored
    for more in [&[0x00][..], &[0xff], &[0x00, 0x00, 0xff]] {
        let body = [&asked(1, 2)[..], more].concat();
        frames.add_body(&store, DISCOVER, &body);
    }
    for length in 0..3 {
        frames.add_body(&store, DISCOVER, &asked(1, 2)[..length]);
    }
    few(frames);
    many(frames);
}

fn asked(start: u16, maximum: u8) -> Vec<u8> {
    [&start.to_le_bytes()[..], &[maximum]].concat()
}

/// None, one at each end of the ids, and two.
fn few(frames: &mut Frames) {
    let part = |id| Part::new(id, 0x18, 0, &[0x00]);
    let stores = [
        built(&[]),
        built(&[part(0)]),
        built(&[part(0xffff)]),
        built(&[part(0x00ff), part(0x0100)]),
    ];
    for store in stores {
        for start in [0, 0x00ff, 0x0100, 0xff00, 0xffff] {
            for maximum in [0, 1, 2] {
                frames.add_body(&store, DISCOVER, &asked(start, maximum));
            }
        }
    }
}

/// More attributes than most maxima.
fn many(frames: &mut Frames) {
    let parts: Vec<Part> = (0..16)
        .map(|place| Part::new(0x10 + 2 * place, 0x20, 3, &[0x00]))
        .collect();
    let store = built(&parts);
    for (start, maximum) in [(0, 16), (0x10, 15), (0x11, 0xff), (0x20, 7), (0x2e, 1)] {
        frames.add_body(&store, DISCOVER, &asked(start, maximum));
    }
}
