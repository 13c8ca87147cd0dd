//! The type codes (ZCL 2.6.2).

/// How the extent of a type's values is found.
#[derive(Debug, Clone, Copy, PartialEq, Eq)]
pub enum Kind {
    /// Always this many bytes.
    Fixed(usize),
    /// A length in this many bytes, then that many bytes.
    Text(usize),
    /// Array, set, bag: element type, count, elements.
    Series,
    /// Count, then type and value each.
    Structure,
    /// No type: the code ff too.
    Unknown,
}

pub fn kind(code: u8) -> Kind {
    match code {
        0x00 => Kind::Fixed(0),
        // general data, bitmap, unsigned, signed: 1 to 8 bytes
        0x08..=0x0f | 0x18..=0x2f => Kind::Fixed(usize::from(code % 8) + 1),
        0x10 => Kind::Fixed(1),
        // enumerations
        0x30 => Kind::Fixed(1),
        0x31 => Kind::Fixed(2),
        // floats
        0x38 => Kind::Fixed(2),
        0x39 => Kind::Fixed(4),
        0x3a => Kind::Fixed(8),
        // octet and character strings, then the long ones
        0x41 | 0x42 => Kind::Text(1),
        0x43 | 0x44 => Kind::Text(2),
        0x48 | 0x50 | 0x51 => Kind::Series,
        0x4c => Kind::Structure,
        // time of day, date, UTC time
        0xe0..=0xe2 => Kind::Fixed(4),
        // cluster, attribute, BACnet object
        0xe8 | 0xe9 => Kind::Fixed(2),
        0xea => Kind::Fixed(4),
        // IEEE address, security key
        0xf0 => Kind::Fixed(8),
        0xf1 => Kind::Fixed(16),
        _ => Kind::Unknown,
    }
}

pub fn fixed_size(code: u8) -> Option<usize> {
    match kind(code) {
        Kind::Fixed(size) => Some(size),
        _ => None,
    }
}

/// Integers, floats and times.
pub fn is_analog(code: u8) -> bool {
    matches!(code, 0x20..=0x2f | 0x38..=0x3a | 0xe0..=0xe2)
}

/// An analog type has a change field of its width, any other none.
pub fn change_width(code: u8) -> usize {
    match fixed_size(code) {
        Some(size) if is_analog(code) => size,
        _ => 0,
    }
}

/// All but the collections (ZCL 2.5.7.3).
pub fn is_reportable_type(code: u8) -> bool {
    !matches!(kind(code), Kind::Series | Kind::Structure)
}
