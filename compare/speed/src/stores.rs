//! The two stores, and which of their attributes are named.

use cases::stores::{Part, built, string};
use reading::store::Attribute;
use reading::{Kind, kind};

pub const CLUSTER: u16 = 0xfc21;

/// Writable, and reportable.
pub const WRITABLE: u8 = 1;
pub const REPORTABLE: u8 = 2;

const BOOLEAN: u8 = 0x10;

/// Unsigned of 1 to 8 bytes, signed of 2 and 4, boolean, enumeration, bitmap,
/// character string.
const TYPES: [u8; 14] = [
    0x20, 0x22, 0x21, BOOLEAN, 0x19, 0x24, 0x27, 0x2b, 0x23, 0x29, 0x25, 0x26, 0x30, 0x42,
];

/// The room of a string: up to 16 letters.
const STRING_ROOM: usize = 17;

/// Document 01's store T.
pub fn four() -> Vec<u8> {
    cases::stores::bench()
}

/// As many attributes as a store may have, sixteen in each of four sets.
pub fn sixty_four() -> Vec<u8> {
    let parts: Vec<Part> = (0..64).map(part).collect();
    built(&parts)
}

fn part(place: u8) -> Part {
    let place = usize::from(place);
    let code = TYPES[place % TYPES.len()];
    let id = u16::try_from(0x0100 * (place / 16) + place % 16).expect("it is small");
    let access = match place % 8 {
        0 => WRITABLE,
        5 => REPORTABLE,
        _ => WRITABLE | REPORTABLE,
    };
    Part::new(id, code, access, &body(code, place))
}

fn body(code: u8, place: usize) -> Vec<u8> {
    let byte = u8::try_from(place).expect("there are 64");
    match kind(code) {
        Kind::Fixed(_) if code == BOOLEAN => vec![byte % 2],
        Kind::Fixed(size) => vec![byte + 1; size],
        _ => string(&vec![b'a'; place % STRING_ROOM], STRING_ROOM),
    }
}

/// Another value of the attribute that now has this one: a string of three
/// quarters of its room.
pub fn another(attribute: &Attribute, value: &[u8]) -> Vec<u8> {
    match kind(attribute.type_code) {
        Kind::Fixed(_) if attribute.type_code == BOOLEAN => vec![value[0] ^ 1],
        Kind::Fixed(_) => value.iter().map(|byte| byte.wrapping_add(1)).collect(),
        _ => {
            let length = 3 * (attribute.room - 1) / 4;
            string(&vec![b'z'; length], length + 1)
        }
    }
}

/// Ten of those that have this access: spread over the store, or in turn where
/// there are fewer.
pub fn ten(attributes: &[Attribute], access: u8) -> Vec<Attribute> {
    let able = attributes
        .iter()
        .filter(|one| one.access & access == access);
    let able: Vec<Attribute> = able.copied().collect();
    (0..10)
        .map(|turn| match able.len() {
            few @ ..10 => able[turn % few],
            many => able[(2 * turn + 1) * many / 20],
        })
        .collect()
}

#[cfg(test)]
mod tests {
    use reading::store::{attributes, is_store};

    use super::*;

    fn places(store: &[u8], access: u8) -> Vec<usize> {
        let all = attributes(store).expect("it is a store");
        let place = |one: &Attribute| all.iter().position(|other| other == one);
        ten(&all, access).iter().filter_map(place).collect()
    }

    #[test]
    fn both_are_stores() {
        for (store, many) in [(four(), 4), (sixty_four(), 64)] {
            assert!(is_store(&store));
            assert_eq!(attributes(&store).map(|all| all.len()), Some(many));
        }
    }

    #[test]
    fn the_ten_are_spread_or_repeat() {
        assert_eq!(places(&four(), 0), [0, 1, 2, 3, 0, 1, 2, 3, 0, 1]);
        assert_eq!(places(&four(), REPORTABLE), [0, 2, 0, 2, 0, 2, 0, 2, 0, 2]);
        for access in [0, WRITABLE, REPORTABLE] {
            let places = places(&sixty_four(), access);
            assert!(places.is_sorted_by(|one, next| one + 4 < *next && next - one < 10));
            assert!(places[0] < 5 && places[9] > 58);
        }
    }

    #[test]
    fn a_written_value_is_another_and_has_room() {
        let store = sixty_four();
        for attribute in attributes(&store).expect("it is a store") {
            let value = attribute.value(&store).expect("it has one");
            let written = another(&attribute, value);
            assert_ne!(written, value);
            assert!(written.len() <= attribute.room);
        }
    }
}
