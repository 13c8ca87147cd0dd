//! The records of a write request, each with the status that document 01's
//! checks give it. A status depends on the contents of a store, and no write
//! changes these: so it is the same at every moment of the request.

use reading::store::{check, writable};
use reading::{Extent, Header, extent, header};

pub struct Record<'a> {
    /// Where it begins in the body.
    pub at: usize,
    pub id: u16,
    /// Type code and bytes.
    pub value: &'a [u8],
    /// Of all four checks.
    pub status: u8,
    /// Of the first three.
    pub of_three: u8,
}

/// How the records of a body come to their end.
#[derive(Debug, Clone, Copy, PartialEq, Eq)]
pub enum End {
    Whole,
    Cut,
    WithoutExtent,
}

/// A frame's header and body.
pub fn body_of(request: &[u8]) -> Option<(Header, &[u8])> {
    let header = header(request)?;
    Some((header, &request[header.body..]))
}

/// The records of a body up to the first that cannot be read.
pub fn records<'a>(store: &[u8], body: &'a [u8]) -> (Vec<Record<'a>>, End) {
    let mut records = Vec::new();
    let mut at = 0;
    while at < body.len() {
        let [low, high, code] = match body.get(at..at + 3) {
            Some(head) => [head[0], head[1], head[2]],
            None => return (records, End::Cut),
        };
        let end = match extent(code, body, at + 3) {
            Extent::End(end) => end,
            Extent::Cut => return (records, End::Cut),
            Extent::Without => return (records, End::WithoutExtent),
        };
        let id = u16::from_le_bytes([low, high]);
        let value = &body[at + 2..end];
        let all_four = writable(store, id, code, &value[1..]);
        records.push(Record {
            at,
            id,
            value,
            status: all_four.err().unwrap_or(0x00),
            of_three: check(store, id, code).err().unwrap_or(0x00),
        });
        at = end;
    }
    (records, End::Whole)
}
