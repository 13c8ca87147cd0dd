//! The value store: contents first, bodies after.

use crate::extent::{Extent, extent};
use crate::number::number as number_of;
use crate::types::{Kind, kind};

/// An entry of the contents.
#[derive(Debug, Clone, Copy, PartialEq, Eq)]
pub struct Attribute {
    pub id: u16,
    pub type_code: u8,
    /// Bit 0: writable. Bit 1: reportable.
    pub access: u8,
    /// Where its body starts, from the start of the store.
    pub offset: usize,
    /// How long its body is.
    pub room: usize,
}

impl Attribute {
    fn new(entry: &[u8]) -> Self {
        Self {
            id: short(&entry[0..2]),
            type_code: entry[2],
            access: entry[3],
            offset: short(&entry[4..6]).into(),
            room: short(&entry[6..8]).into(),
        }
    }

    /// The body; `None` where the bytes end before it does.
    fn body<'a>(&self, bytes: &'a [u8]) -> Option<&'a [u8]> {
        bytes.get(self.offset..self.offset + self.room)
    }

    /// The value, as it is sent; `None` where it does not end in the body.
    pub fn value<'a>(&self, bytes: &'a [u8]) -> Option<&'a [u8]> {
        let (sent, _) = parted(self.type_code, self.body(bytes)?)?;
        Some(sent)
    }

    /// Whether one whole value of the attribute's type is not too long for it: a
    /// string's length byte stands before it, and behind ff there is nothing.
    fn fits(&self, value: &[u8]) -> bool {
        value.len() <= self.room
    }

    /// Puts one whole value of the attribute's type in place of its own, and
    /// gives the status.
    pub fn set(&self, bytes: &mut [u8], value: &[u8]) -> u8 {
        if !self.fits(value) {
            return 0x87;
        }
        let body = &mut bytes[self.offset..self.offset + self.room];
        let (stored, unused) = body.split_at_mut(value.len());
        stored.copy_from_slice(value);
        unused.fill(0);
        0x00
    }

    /// A type that a store may hold, and the room that it asks for.
    fn has_its_room(&self) -> bool {
        match kind(self.type_code) {
            Kind::Fixed(size) => (1..=16).contains(&size) && self.room == size,
            Kind::Text(1) => (1..=255).contains(&self.room),
            _ => false,
        }
    }
}

fn short(bytes: &[u8]) -> u16 {
    u16::from_le_bytes([bytes[0], bytes[1]])
}

/// The cluster whose attributes these are.
pub fn cluster_of(bytes: &[u8]) -> Option<u16> {
    Some(short(bytes.get(0..2)?))
}

/// The entries of the contents, one after the other; `None` where the bytes
/// end before they do.
fn entries(bytes: &[u8]) -> Option<impl Iterator<Item = Attribute>> {
    let count = usize::from(short(bytes.get(2..4)?));
    let contents = bytes.get(4..4 + 8 * count)?;
    Some(contents.chunks_exact(8).map(Attribute::new))
}

/// The entries of the contents; `None` where the bytes end before they do.
pub fn attributes(bytes: &[u8]) -> Option<Vec<Attribute>> {
    Some(entries(bytes)?.collect())
}

pub fn find(bytes: &[u8], id: u16) -> Option<Attribute> {
    entries(bytes)?.find(|attribute| attribute.id == id)
}

/// A body parted into the value that is sent and the unused bytes behind it.
/// `None` where the value does not end in the body.
fn parted(type_code: u8, body: &[u8]) -> Option<(&[u8], &[u8])> {
    match extent(type_code, body, 0) {
        Extent::End(end) => Some(body.split_at(end)),
        Extent::Cut | Extent::Without => None,
    }
}

/// Whether the bytes keep every sentence of the layout.
pub fn is_store(bytes: &[u8]) -> bool {
    let Some(attributes) = attributes(bytes) else {
        return false;
    };
    let contents = 4 + 8 * attributes.len();
    // where the first body starts, and where each ends
    let places: Vec<usize> = [contents]
        .into_iter()
        .chain(attributes.iter().map(|entry| entry.room))
        .scan(0, |end, room| {
            *end += room;
            Some(*end)
        })
        .collect();
    let follow_on = attributes
        .iter()
        .zip(&places)
        .all(|(entry, &place)| entry.offset == place);
    let clean = |entry: &Attribute| {
        entry
            .body(bytes)
            .and_then(|body| parted(entry.type_code, body))
            .is_some_and(|(_, unused)| unused.iter().all(|&byte| byte == 0))
    };
    follow_on
        && attributes.is_sorted_by(|one, next| one.id < next.id)
        && attributes.iter().all(|entry| entry.access <= 3)
        && attributes.len() <= 64
        && places.last() == Some(&bytes.len())
        && bytes.len() <= 4096
        && attributes.iter().all(Attribute::has_its_room)
        && attributes.iter().all(clean)
}

/// The value of an attribute, as it is sent.
pub fn value(bytes: &[u8], id: u16) -> Option<&[u8]> {
    find(bytes, id)?.value(bytes)
}

/// The number of the value of an attribute, or the number of the refusal: 7
/// where the bytes are no store, 9 where there is no such attribute or number.
pub fn number(bytes: &[u8], id: u16) -> Result<i64, u8> {
    if !is_store(bytes) {
        return Err(7);
    }
    let attribute = find(bytes, id).ok_or(9)?;
    let value = value(bytes, id).ok_or(9)?;
    number_of(attribute.type_code, value).ok_or(9)
}

/// The first three checks of a write: the attribute, or the status.
pub fn check(bytes: &[u8], id: u16, type_code: u8) -> Result<Attribute, u8> {
    let attribute = find(bytes, id).ok_or(0x86)?;
    if attribute.access & 1 == 0 {
        return Err(0x88);
    }
    if attribute.type_code != type_code {
        return Err(0x8d);
    }
    Ok(attribute)
}

/// All four checks of a write of one whole value of type `type_code`: the
/// attribute, or the status.
pub fn writable(bytes: &[u8], id: u16, type_code: u8, value: &[u8]) -> Result<Attribute, u8> {
    let attribute = check(bytes, id, type_code)?;
    if !attribute.fits(value) {
        return Err(0x87);
    }
    Ok(attribute)
}

/// Writes one whole value of type `type_code` to an attribute of a store, and
/// gives the status.
pub fn write(bytes: &mut [u8], id: u16, type_code: u8, value: &[u8]) -> u8 {
    match writable(bytes, id, type_code, value) {
        Ok(attribute) => attribute.set(bytes, value),
        Err(status) => status,
    }
}
