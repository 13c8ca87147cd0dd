//! Arrays, structures, sets and bags, all of which the Rust refuses.

use cases::Random;
use cases::values::{COLLECTIONS, STRUCTURE, made, series, structure, text};
use reading::Kind;

use crate::lines::Inputs;

const SERIES: [u8; 3] = [0x48, 0x50, 0x51];

pub fn add(inputs: &mut Inputs) {
    heads(inputs);
    elements(inputs);
    members(inputs);
    nested(inputs);
    random(inputs, &mut Random::new(0x636f_6c6c));
}

/// Empty ones, invalid ones, and heads that are cut.
fn heads(inputs: &mut Inputs) {
    for code in SERIES {
        for element in [0x00, 0x20, 0x41, 0x48, 0x4c, 0x07, 0x45, 0xff] {
            for count in [0, 0xffff] {
                inputs.add_around(&series(code, element, count, &[]), 0x20);
            }
            // an element of this type: cut or without extent but for NoData
            inputs.add(series(code, element, 1, &[]));
            inputs.add(series(code, element, 0xfffe, &[]));
            inputs.add(vec![code, element]);
        }
        inputs.add(vec![code]);
        inputs.add(series(code, 0x07, 1, &[0; 9]));
        inputs.add(series(code, 0xff, 1, &[0; 9]));
    }
    for count in [0_u16, 0xffff, 1, 0xfffe, 0x00ff, 0xff00] {
        let [low, high] = count.to_le_bytes();
        inputs.add_around(&[STRUCTURE, low, high], 0x00);
        inputs.add(vec![STRUCTURE, low]);
    }
    inputs.add(vec![STRUCTURE]);
}

/// Elements of every type that has an extent.
fn elements(inputs: &mut Inputs) {
    let mut random = Random::new(0x656c_656d);
    for element in 0..=0xff {
        let code = SERIES[usize::from(element) % 3];
        match reading::kind(element) {
            Kind::Fixed(size) => {
                for count in [1, 3] {
                    let bytes = random.bytes(size * usize::from(count));
                    inputs.add_around(&series(code, element, count, &bytes), 0x00);
                }
            }
            Kind::Text(width) => {
                let invalid = vec![0xff; width];
                let abc = text(element, b"abc")[1..].to_vec();
                let not_utf8 = text(element, &[0xff])[1..].to_vec();
                for bytes in [[abc.clone(), not_utf8].concat(), [invalid, abc].concat()] {
                    inputs.add_around(&series(code, element, 2, &bytes), 0x00);
                }
            }
            Kind::Unknown => inputs.add(series(code, element, 1, &[0; 2])),
            Kind::Series | Kind::Structure => {}
        }
    }
    inputs.add_around(&series(0x48, 0x10, 3, &[0x00, 0x01, 0x02]), 0x02);
    inputs.add_around(&series(0x48, 0x21, 0x0101, &[0x5a; 0x202]), 0x00);
    inputs.add_around(&series(0x48, 0x00, 0xfffe, &[]), 0x00);
}

/// Structures of plain members, and of arrays of structures.
fn members(inputs: &mut Inputs) {
    let boolean = vec![0x10, 0x02];
    let word = vec![0x21, 0x34, 0x12];
    let pair = structure(&[boolean.clone(), word.clone()]);
    let pairs = series(0x48, STRUCTURE, 2, &[&pair[1..], &pair[1..]].concat());
    let nothing = vec![0x00];
    for members in [
        vec![nothing.clone()],
        vec![nothing.clone(), nothing.clone(), nothing],
        vec![boolean.clone()],
        vec![word.clone(), text(0x42, b"ok"), text(0x41, &[0xff, 0x00])],
        vec![vec![0x41, 0xff], vec![0x44, 0xff, 0xff], boolean],
        vec![series(0x50, 0x20, 2, &[1, 2]), word],
        vec![pairs.clone(), pairs.clone()],
        vec![vec![0x07], vec![0x20, 0x01]],
        vec![vec![0x20, 0x01], vec![0xff]],
    ] {
        inputs.add_around(&structure(&members), 0x00);
    }
    // every byte short of a structure that holds an array of structures
    let deep = structure(&[pairs, pair]);
    for length in 1..=deep.len() {
        inputs.add(deep[..length].to_vec());
    }
    // trouble behind trouble: the type is met before the missing bytes
    inputs.add(vec![STRUCTURE, 0x02, 0x00, 0x07]);
    inputs.add(vec![STRUCTURE, 0x02, 0x00, 0x21, 0x00]);
}

/// Each collection in itself and all four in turn, around the last level.
fn nested(inputs: &mut Inputs) {
    let innermost = [
        series(0x48, 0x20, 0, &[]),
        series(0x50, 0x20, 1, &[0x2a]),
        series(0x51, 0x48, 0, &[]),
        series(0x48, 0x48, 0xffff, &[]),
        structure(&[]),
        structure(&[vec![0x10, 0x02], vec![0x00]]),
    ];
    for levels in [2, 3, 14, 15, 16, 17] {
        for inner in &innermost {
            for code in COLLECTIONS {
                inputs.add(around(inner, levels - 1, |_| code));
            }
            let mixed = around(inner, levels - 1, |level| COLLECTIONS[level % 4]);
            inputs.add_around(&mixed, 0x00);
        }
    }
    // two branches: the second is deep, the first not
    for levels in [14, 15] {
        let deep = around(&innermost[1], levels - 1, |level| COLLECTIONS[level % 4]);
        inputs.add(structure(&[vec![0x20, 0x07], deep.clone()]));
        inputs.add(structure(&[deep.clone(), deep.clone(), vec![0x20, 0x07]]));
        inputs.add(structure(&[deep, vec![0x20]]));
    }
}

/// `inner` with `levels` collections of one element around it.
fn around(inner: &[u8], levels: usize, code: impl Fn(usize) -> u8) -> Vec<u8> {
    (0..levels).fold(inner.to_vec(), |inner, level| match code(level) {
        STRUCTURE => structure(&[inner]),
        code => series(code, inner[0], 1, &inner[1..]),
    })
}

/// Random values: whole, one short, one longer, cut anywhere, one byte changed.
fn random(inputs: &mut Inputs, random: &mut Random) {
    for _ in 0..90 {
        let code = COLLECTIONS[random.under(4)];
        let value = [vec![code], made(random, code, 4)].concat();
        if value.len() > 120 {
            continue;
        }
        inputs.add_around(&value, random.byte());
        inputs.add(value[..=random.under(value.len())].to_vec());
        let mut changed = value;
        let at = 1 + random.under(changed.len() - 1);
        changed[at] = random.byte();
        inputs.add(changed);
    }
}
