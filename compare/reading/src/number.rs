//! The number of a value: signed, 64 bits.

use crate::types::{Kind, kind};

/// A number of up to eight bytes made that long: an Int with its sign, any
/// other with zeros.
pub fn widened(code: u8, bytes: &[u8]) -> [u8; 8] {
    let negative = is_int(code) && bytes.last().is_some_and(|&top| top >= 0x80);
    let mut wide = [if negative { 0xff } else { 0x00 }; 8];
    wide[..bytes.len()].copy_from_slice(bytes);
    wide
}

pub fn is_int(code: u8) -> bool {
    matches!(code, 0x28..=0x2f)
}

/// The number of a value of type `code`: types of 16 bytes, strings and
/// collections have none. The type of no bytes is one of up to 7: its number
/// is 0.
pub fn number(code: u8, value: &[u8]) -> Option<i64> {
    match kind(code) {
        Kind::Fixed(0..=8) => Some(i64::from_le_bytes(widened(code, value))),
        _ => None,
    }
}
