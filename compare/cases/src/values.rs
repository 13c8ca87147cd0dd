//! Values, built from their parts and at random.

use reading::Kind;

use crate::random::Random;

pub const STRUCTURE: u8 = 0x4c;
pub const COLLECTIONS: [u8; 4] = [0x48, STRUCTURE, 0x50, 0x51];

/// Types whose values have an extent, for random values.
const PLAIN: [u8; 16] = [
    0x00, 0x08, 0x0a, 0x10, 0x1d, 0x20, 0x21, 0x29, 0x2f, 0x31, 0x3a, 0x41, 0x42, 0x43, 0xe2, 0xf1,
];

/// Type code, length, letters.
pub fn text(code: u8, letters: &[u8]) -> Vec<u8> {
    let [low, high] = u16::try_from(letters.len()).expect("short").to_le_bytes();
    let length = if matches!(code, 0x43 | 0x44) {
        vec![low, high]
    } else {
        vec![low]
    };
    [vec![code], length, letters.to_vec()].concat()
}

/// Type code of a series, element type, count, elements.
pub fn series(code: u8, element: u8, count: u16, elements: &[u8]) -> Vec<u8> {
    let [low, high] = count.to_le_bytes();
    [&[code, element, low, high], elements].concat()
}

/// A structure of members, each a type code and its bytes.
pub fn structure(members: &[Vec<u8>]) -> Vec<u8> {
    let [low, high] = u16::try_from(members.len()).expect("few").to_le_bytes();
    [vec![STRUCTURE, low, high], members.concat()].concat()
}

/// The bytes of a collection of type `code` with others of its kind in it,
/// `levels` of them in each other; the innermost is empty.
pub fn nested(code: u8, levels: usize) -> Vec<u8> {
    let (level, innermost) = if code == STRUCTURE {
        (vec![0x01, 0x00, STRUCTURE], vec![0x00, 0x00])
    } else {
        (vec![code, 0x01, 0x00], vec![0x20, 0x00, 0x00])
    };
    [level.repeat(levels - 1), innermost].concat()
}

/// The bytes of a value of type `code`, with at most `levels` collections in
/// each other.
pub fn made(random: &mut Random, code: u8, levels: usize) -> Vec<u8> {
    match reading::kind(code) {
        Kind::Fixed(size) => random.bytes(size),
        Kind::Text(width) => {
            if random.under(5) == 0 {
                return vec![0xff; width];
            }
            let length = random.under(6);
            text(code, &random.bytes(length))[1..].to_vec()
        }
        Kind::Unknown => Vec::new(),
        Kind::Series => {
            let element = some_type(random, levels);
            let count = random.under(4);
            let elements: Vec<u8> = (0..count)
                .flat_map(|_| made(random, element, levels - 1))
                .collect();
            series(code, element, u16::try_from(count).expect("few"), &elements)[1..].to_vec()
        }
        Kind::Structure => {
            let members: Vec<Vec<u8>> = (0..random.under(4))
                .map(|_| {
                    let member = some_type(random, levels);
                    [vec![member], made(random, member, levels - 1)].concat()
                })
                .collect();
            structure(&members)[1..].to_vec()
        }
    }
}

fn some_type(random: &mut Random, levels: usize) -> u8 {
    if levels > 1 && random.under(2) == 0 {
        COLLECTIONS[random.under(4)]
    } else {
        PLAIN[random.under(16)]
    }
}

#[cfg(test)]
mod tests {
    use reading::{Extent, extent};

    use super::*;

    #[test]
    fn nested_up_to_the_last_level() {
        for code in COLLECTIONS {
            for levels in 1..=15 {
                let value = nested(code, levels);
                assert_eq!(extent(code, &value, 0), Extent::End(value.len()));
            }
            assert_eq!(extent(code, &nested(code, 16), 0), Extent::Without);
        }
    }

    #[test]
    fn made_values_are_whole() {
        let mut random = Random::new(0x6d61_6465);
        for code in (0..=0xff).cycle().take(5_000) {
            if reading::kind(code) != Kind::Unknown {
                let value = made(&mut random, code, 4);
                assert_eq!(extent(code, &value, 0), Extent::End(value.len()));
            }
        }
    }
}
