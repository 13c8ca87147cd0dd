//! The number of a value. An input is an id and a store's bytes; the answer 00
//! and the number, or the refusal.

use cases::Random;
use cases::stores::{Part, bench, built, most_rooms, random_parts, single, string, strings};
use reading::Kind;
use reading::store::number;

use super::line;
use crate::lines::Inputs;

pub fn lines() -> Vec<String> {
    let mut inputs = Inputs::default();
    bench_numbers(&mut inputs);
    types(&mut inputs, &mut Random::new(0x7479_7065));
    refusals(&mut inputs);
    random(&mut inputs, &mut Random::new(0x7261_6e64));
    inputs
        .into_vec()
        .iter()
        .map(|input| line('v', input, &answer(input)))
        .collect()
}

fn answer(input: &[u8]) -> Vec<u8> {
    let (id, store) = input.split_at(2);
    match number(store, u16::from_le_bytes([id[0], id[1]])) {
        Ok(number) => [&[0], &number.to_le_bytes()[..]].concat(),
        Err(refusal) => vec![refusal],
    }
}

fn asked(id: u16, store: &[u8]) -> Vec<u8> {
    [&id.to_le_bytes(), store].concat()
}

fn bench_numbers(inputs: &mut Inputs) {
    for id in [0, 1, 5, 7, 9, 2, 6, 8, 0x0001, 0x0100, 0x0500, 0xffff] {
        inputs.add(asked(id, &bench()));
    }
}

/// Every fixed type between two neighbours, whose bytes are none of its own.
fn types(inputs: &mut Inputs, random: &mut Random) {
    for code in 0..=0xff {
        let Kind::Fixed(size @ 1..) = reading::kind(code) else {
            continue;
        };
        let topped = |rest: u8, top: u8| {
            let mut body = vec![rest; size];
            body[size - 1] = top;
            body
        };
        for body in [
            topped(0x00, 0x00),
            topped(0xff, 0xff),
            topped(0x00, 0x80),
            topped(0xff, 0x7f),
            random.bytes(size),
        ] {
            let beside = if body[size - 1] < 0x80 { 0xff } else { 0x00 };
            let store = built(&[
                Part::new(1, 0x20, 1, &[beside]),
                Part::new(2, code, 2, &body),
                Part::new(3, 0x28, 3, &[beside]),
            ]);
            inputs.add(asked(2, &store));
        }
    }
}

/// No store comes before no attribute, and that before no number.
fn refusals(inputs: &mut Inputs) {
    let none = built(&[]);
    for id in [0, 1, 0xffff] {
        inputs.add(asked(id, &none));
        inputs.add(asked(id, &none[..3]));
        inputs.add(asked(id, &[]));
    }
    for body in [string(b"", 1), string(b"", 9), string(b"12345678", 9)] {
        for code in [0x41, 0x42] {
            inputs.add(asked(1, &single(code, 1, &body)));
        }
    }
    let largest = built(&strings(&most_rooms()));
    inputs.add(asked(15, &largest));
    let mut unused = bench();
    unused[47] = 0x01;
    let mut equal = bench();
    equal[12] = 0x00;
    let longer = [bench(), vec![0x01]].concat();
    for store in [unused, equal, longer, bench()[..47].to_vec()] {
        for id in [0, 5, 7, 9] {
            inputs.add(asked(id, &store));
        }
    }
}

/// Attributes of random stores, one that is absent, and a store that is none.
fn random(inputs: &mut Inputs, random: &mut Random) {
    for _ in 0..24 {
        let parts = random_parts(random);
        let store = built(&parts);
        for part in parts.iter().take(2) {
            inputs.add(asked(part.id, &store));
        }
        inputs.add(asked(0x7fff, &store));
        if let Some(part) = parts.last() {
            inputs.add(asked(part.id, &store[..store.len() - 1]));
        }
    }
}
