//! The listed differences of the Rust that go by a value. Each is a condition on
//! one; under each the Rust's value reader refuses a value whose end document 01
//! knows. It reads a value so to step over it where it is not
//! stored: so a frame meets a condition by a value that the Rust steps over.

use reading::{Extent, FrameType, Kind};

use crate::records::{body_of, records};

#[derive(Debug, Clone, Copy, PartialEq, Eq, Hash)]
pub enum Condition {
    /// A Boolean that is neither 0 nor 1.
    BooleanAboveOne,
    /// An octet or character string of length ff.
    InvalidString,
    /// A long octet or long character string of length ffff.
    InvalidLongString,
    /// A whole character string, long or not, that is not UTF-8.
    NotUtf8,
    /// An array, structure, set or bag that has an extent.
    Collection,
}

impl Condition {
    pub const ALL: [Self; 5] = [
        Self::BooleanAboveOne,
        Self::InvalidString,
        Self::InvalidLongString,
        Self::NotUtf8,
        Self::Collection,
    ];

    /// Its name in docs/DIFFERENCES.md.
    pub fn name(self) -> &'static str {
        match self {
            Self::BooleanAboveOne => "a Boolean above 1",
            Self::InvalidString => "a string of length ff",
            Self::InvalidLongString => "a long string of length ffff",
            Self::NotUtf8 => "a whole character string that is not UTF-8",
            Self::Collection => "an array, structure, set or bag that has an extent",
        }
    }

    /// The smallest value that fulfils it: a type code and bytes.
    pub fn smallest(self) -> &'static [u8] {
        match self {
            Self::BooleanAboveOne => &[0x10, 0x02],
            Self::InvalidString => &[0x41, 0xff],
            Self::InvalidLongString => &[0x43, 0xff, 0xff],
            Self::NotUtf8 => &[0x42, 0x01, 0x80],
            Self::Collection => &[0x4c, 0x00, 0x00],
        }
    }

    /// The condition that `value`, a type code and bytes, fulfils.
    pub fn of(value: &[u8]) -> Option<Self> {
        let (&code, bytes) = value.split_first()?;
        Self::ALL
            .into_iter()
            .find(|condition| condition.holds(code, bytes))
    }

    /// The condition that a frame over a store fulfils, by the first such value
    /// that the Rust steps over: of a write, with or without response, in a
    /// record that fails, of an undivided write in any record. And how long the
    /// frame is without that record and what follows.
    pub fn of_frame(store: &[u8], request: &[u8]) -> Option<(Self, usize)> {
        let (header, body) = body_of(request)?;
        if header.frame_type != FrameType::Global || !matches!(header.command, 0x02 | 0x03 | 0x05) {
            return None;
        }
        let (records, _) = records(store, body);
        records
            .iter()
            .filter(|record| header.command == 0x03 || record.status != 0x00)
            .find_map(|record| Some((Self::of(record.value)?, header.body + record.at)))
    }

    fn holds(self, code: u8, bytes: &[u8]) -> bool {
        match self {
            Self::BooleanAboveOne => code == 0x10 && bytes.first().is_some_and(|&raw| raw > 1),
            Self::InvalidString => matches!(code, 0x41 | 0x42) && bytes.starts_with(&[0xff]),
            Self::InvalidLongString => {
                matches!(code, 0x43 | 0x44) && bytes.starts_with(&[0xff, 0xff])
            }
            Self::NotUtf8 => match (code, reading::extent(code, bytes, 0)) {
                (0x42, Extent::End(end)) => str::from_utf8(&bytes[1..end]).is_err(),
                (0x44, Extent::End(end)) => str::from_utf8(&bytes[2..end]).is_err(),
                _ => false,
            },
            Self::Collection => {
                matches!(reading::kind(code), Kind::Series | Kind::Structure)
                    && matches!(reading::extent(code, bytes, 0), Extent::End(_))
            }
        }
    }
}

#[cfg(test)]
mod tests {
    use super::*;

    #[test]
    fn names_of_the_page() {
        let page = include_str!("../../../docs/DIFFERENCES.md");
        for condition in Condition::ALL {
            let row = format!("\n| {} | `", condition.name());
            assert_eq!(page.matches(&row).count(), 2, "{row}");
            assert_eq!(Condition::of(condition.smallest()), Some(condition));
        }
    }
}
