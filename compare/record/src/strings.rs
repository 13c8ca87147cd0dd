//! Strings: whole, cut, with the length that means invalid, and character
//! strings that are not UTF-8.

use cases::Random;
use cases::values::text;

use crate::lines::Inputs;

const SHORT: [u8; 2] = [0x41, 0x42];
const LONG: [u8; 2] = [0x43, 0x44];

pub fn add(inputs: &mut Inputs) {
    let mut random = Random::new(0x7374_7269);
    for code in SHORT {
        inputs.add(vec![code]);
        for length in [0, 1, 5, 0xfe] {
            inputs.add_around(&text(code, &letters(length)), 0x7a);
        }
        for behind in [0, 1, 2, 254, 255, 256] {
            inputs.add([vec![code, 0xff], letters(behind)].concat());
        }
    }
    for code in LONG {
        inputs.add(vec![code]);
        for low in [0x00, 0x01, 0xff] {
            inputs.add(vec![code, low]);
        }
        for length in [0, 1, 5, 0xfe, 0xff, 0x100] {
            inputs.add_around(&text(code, &letters(length)), 0x7a);
        }
        for behind in [0, 1, 2, 255] {
            inputs.add([vec![code, 0xff, 0xff], letters(behind)].concat());
            inputs.add([vec![code, 0xfe, 0xff], letters(behind)].concat());
            inputs.add([vec![code, 0x00, 0xff], letters(behind)].concat());
        }
    }
    for code in [SHORT, LONG].concat() {
        for letters in odd_letters() {
            inputs.add_around(&text(code, &letters), 0xa9);
        }
        for _ in 0..24 {
            let length = random.under(12);
            let whole = text(code, &random.bytes(length));
            inputs.add_around(&whole, random.byte());
            inputs.add([vec![code], random.bytes(length)].concat());
        }
    }
}

fn letters(count: usize) -> Vec<u8> {
    (b'a'..=b'z').cycle().take(count).collect()
}

/// Letters of more than one byte, and bytes that make none.
fn odd_letters() -> Vec<Vec<u8>> {
    let good = ["\0", "\u{7f}", "\u{80}", "\u{e9}", "\u{7ff}", "\u{20ac}"];
    let wide = ["\u{fffd}", "\u{1f600}", "\u{10ffff}", "a\u{e9}b", "x\u{0}y"];
    let bad: [&[u8]; 16] = [
        &[0x80],
        &[0xbf],
        &[0xc3],
        &[0xff],
        &[0xfe],
        &[0xc0, 0x80],
        &[0xc1, 0xbf],
        &[0xc3, 0x28],
        &[0xe2, 0x82],
        &[0xe0, 0x80, 0x80],
        &[0xed, 0xa0, 0x80],
        &[0xf0, 0x80, 0x80, 0x80],
        &[0xf4, 0x90, 0x80, 0x80],
        &[0xf5, 0x80, 0x80, 0x80],
        &[0x61, 0xc3, 0xa9, 0xff],
        &[0x61, 0x62, 0x63, 0x64, 0xf0],
    ];
    let long = [letters(0xfd), vec![0xff]].concat();
    good.iter()
        .chain(&wide)
        .map(|letters| letters.as_bytes().to_vec())
        .chain(bad.iter().map(|letters| letters.to_vec()))
        .chain([long])
        .collect()
}
