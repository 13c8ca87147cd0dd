//! Records with values: of a read reply, and of a report frame.

use super::{Read, Why, body, records};
use crate::body::Body;
use crate::extent::Extent;
use crate::number::number;

/// A value that stands in a frame.
#[derive(Debug, Clone, Copy, PartialEq, Eq)]
pub struct Value {
    pub type_code: u8,
    /// Where it starts in the frame.
    pub start: usize,
    pub length: usize,
    pub number: Option<i64>,
}

impl Value {
    /// A type code, and a value of it.
    fn read(body: &mut Body<'_>) -> Result<Self, Why> {
        let type_code = body.byte()?;
        let (start, length) = match body.extent(type_code) {
            (start, Extent::End(end)) => (start, end - start),
            (_, Extent::Cut) => return Err(Why::Cut),
            (_, Extent::Without) => return Err(Why::WithoutExtent),
        };
        let bytes = body.bytes(length)?;
        Ok(Self {
            type_code,
            start,
            length,
            number: number(type_code, bytes),
        })
    }

    /// Its bytes, from the frame that it stands in.
    pub fn bytes<'a>(&self, frame: &'a [u8]) -> &'a [u8] {
        &frame[self.start..self.start + self.length]
    }
}

#[derive(Debug, Clone, Copy, PartialEq, Eq)]
pub struct ReadRecord {
    pub id: u16,
    /// As it came; behind any but 00 there is no value.
    pub status: u8,
    pub value: Option<Value>,
}

pub fn read_reply(frame: &[u8]) -> Read<Vec<ReadRecord>> {
    records(body(frame, 0x01)?, |body| {
        let id = body.short()?;
        let status = body.byte()?;
        let value = match status {
            0x00 => Some(Value::read(body)?),
            _ => None,
        };
        Ok(ReadRecord { id, status, value })
    })
}

#[derive(Debug, Clone, Copy, PartialEq, Eq)]
pub struct Reported {
    pub id: u16,
    pub value: Value,
}

pub fn report_frame(frame: &[u8]) -> Read<Vec<Reported>> {
    records(body(frame, 0x0a)?, |body| {
        Ok(Reported {
            id: body.short()?,
            value: Value::read(body)?,
        })
    })
}
