//! Values of fixed size, and codes of no type.

use cases::Random;
use reading::Kind;

use crate::lines::Inputs;

pub fn add(inputs: &mut Inputs) {
    let mut random = Random::new(0x6e75_6d62);
    for code in 0..=0xff {
        match reading::kind(code) {
            Kind::Fixed(size) => add_fixed(inputs, &mut random, code, size),
            Kind::Unknown => {
                for length in [0, 1, 9] {
                    inputs.add([vec![code], random.bytes(length)].concat());
                }
            }
            Kind::Text(_) | Kind::Series | Kind::Structure => {}
        }
    }
    for raw in [0x00, 0x01, 0x02, 0x03, 0x7f, 0xfe] {
        inputs.add_around(&[0x10, raw], 0x01);
    }
}

/// Around the size: zeros, ones, the top bit alone, and random bytes. Ones and
/// the top bit alone are what ZCL keeps for "no value".
fn add_fixed(inputs: &mut Inputs, random: &mut Random, code: u8, size: usize) {
    for length in [0, size.saturating_sub(1), size, size + 1] {
        let mut top = vec![0; length];
        if let Some(last) = top.iter_mut().take(size).last() {
            *last = 0x80;
        }
        let patterns = [
            vec![0; length],
            vec![0xff; length],
            top,
            random.bytes(length),
        ];
        for pattern in patterns {
            inputs.add([vec![code], pattern].concat());
        }
    }
}
