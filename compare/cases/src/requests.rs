//! Request frames at random: for a store's own attributes and for others,
//! whole and damaged.

use reading::Kind;
use reading::store::Attribute;

use crate::random::Random;
use crate::stores::word;
use crate::values::{COLLECTIONS, made};

/// Control bytes of global frames: with and without a manufacturer code,
/// direction, silence, and bits that mean nothing.
pub const CONTROLS: [u8; 8] = [0x00, 0x10, 0x08, 0x18, 0x04, 0x1c, 0x0c, 0xe0];

const INTERVALS: [u16; 8] = [0, 1, 10, 60, 0x0100, 65533, 65534, 65535];

/// Types of values that are not the attribute's own.
const FOREIGN: [u8; 14] = [
    0x00, 0x08, 0x10, 0x18, 0x20, 0x21, 0x29, 0x30, 0x39, 0x41, 0x42, 0x43, 0x44, 0xf1,
];

/// Codes of no type.
const UNKNOWN: [u8; 8] = [0x01, 0x07, 0x32, 0x45, 0x4d, 0x52, 0xeb, 0xff];

/// A global frame of `command`.
pub fn request(random: &mut Random, attributes: &[Attribute], command: u8) -> Vec<u8> {
    let body = body(random, attributes, command);
    let body = match random.below(16) {
        0..3 => body[..random.below(body.len() + 1)].to_vec(),
        3 => changed(random, body),
        4 => {
            let more = random.below(6);
            [body, random.bytes(more)].concat()
        }
        5 if random.one_in(3) => {
            let length = random.below(24);
            random.bytes(length)
        }
        _ => body,
    };
    let control = random.of(&CONTROLS);
    [header(random, control, command), body].concat()
}

/// A whole header.
pub fn header(random: &mut Random, control: u8, command: u8) -> Vec<u8> {
    let code = if control & 4 == 0 { 0 } else { 2 };
    [vec![control], random.bytes(code + 1), vec![command]].concat()
}

fn changed(random: &mut Random, mut body: Vec<u8>) -> Vec<u8> {
    if !body.is_empty() {
        let at = random.below(body.len());
        body[at] = random.byte();
    }
    body
}

fn body(random: &mut Random, attributes: &[Attribute], command: u8) -> Vec<u8> {
    let many = random.of(&[0, 1, 1, 1, 2, 2, 3, 5]);
    match command {
        0x00 => repeat(many, || id(random, attributes).to_vec()),
        0x02 | 0x03 | 0x05 => repeat(many, || write_record(random, attributes)),
        0x06 => repeat(many, || configure_record(random, attributes)),
        0x08 => repeat(many, || {
            let direction = direction(random);
            [&[direction], &id(random, attributes)[..]].concat()
        }),
        0x0c => {
            let start = id(random, attributes);
            let maximum = match random.below(8) {
                0 => random.byte(),
                _ => random.of(&[0, 1, 2, 3, 4, 8, 0xff]),
            };
            [&start[..], &[maximum]].concat()
        }
        _ => {
            let length = random.below(5);
            random.bytes(length)
        }
    }
}

fn repeat(many: usize, one: impl FnMut() -> Vec<u8>) -> Vec<u8> {
    std::iter::repeat_with(one).take(many).flatten().collect()
}

/// An attribute's id, one beside it, with its bytes exchanged, or any.
fn id(random: &mut Random, attributes: &[Attribute]) -> [u8; 2] {
    let one = match attributes {
        [] => 0,
        _ => random.of(attributes).id,
    };
    match random.below(20) {
        0 => one.wrapping_add(1),
        1 => one.wrapping_sub(1),
        2 => one.swap_bytes(),
        3 => random.short(),
        _ => one,
    }
    .to_le_bytes()
}

/// The type of the attribute with these bytes as its id.
fn type_of(attributes: &[Attribute], id: [u8; 2]) -> Option<u8> {
    let id = u16::from_le_bytes(id);
    let found = attributes.iter().find(|attribute| attribute.id == id)?;
    Some(found.type_code)
}

fn direction(random: &mut Random) -> u8 {
    match random.below(10) {
        0 => 1,
        1 => random.byte(),
        _ => 0,
    }
}

fn write_record(random: &mut Random, attributes: &[Attribute]) -> Vec<u8> {
    let id = id(random, attributes);
    let code = match random.below(24) {
        0..3 => random.of(&FOREIGN),
        3 => random.of(&COLLECTIONS),
        4 if random.one_in(3) => random.of(&UNKNOWN),
        _ => type_of(attributes, id).unwrap_or(0x20),
    };
    [&id[..], &[code], &value(random, code)].concat()
}

/// A whole value; strings are mostly short and of letters, so that the Rust
/// can step over most of them.
pub fn value(random: &mut Random, code: u8) -> Vec<u8> {
    match reading::kind(code) {
        Kind::Fixed(1) if code == 0x10 && !random.one_in(8) => vec![random.byte() % 2],
        Kind::Text(width) if !random.one_in(8) => {
            let length = random.of(&[0, 1, 2, 3, 4, 7, 12]);
            let letters = (0..length).map(|_| b'a' + random.byte() % 26);
            [&word(length)[..width], &letters.collect::<Vec<u8>>()].concat()
        }
        _ => made(random, code, 4),
    }
}

fn configure_record(random: &mut Random, attributes: &[Attribute]) -> Vec<u8> {
    let direction = direction(random);
    let id = id(random, attributes);
    let head = [&[direction], &id[..]].concat();
    if direction != 0 {
        return [head, random.bytes(2)].concat();
    }
    let code = match random.below(12) {
        0 => random.of(&FOREIGN),
        1 if random.one_in(3) => random.byte(),
        _ => type_of(attributes, id).unwrap_or(0x21),
    };
    let width = reading::fixed_size(code).filter(|_| reading::is_analog(code));
    let change = random.bytes(width.unwrap_or(0));
    let intervals = match random.below(3) {
        0 => [random.of(&INTERVALS), random.of(&INTERVALS)],
        1 => [random.short() % 100, random.short()],
        _ => [random.of(&[0, 1, 10]), random.of(&[0, 60, 65534])],
    };
    let [minimum, maximum] = intervals.map(u16::to_le_bytes);
    [&head[..], &[code], &minimum, &maximum, &change].concat()
}
