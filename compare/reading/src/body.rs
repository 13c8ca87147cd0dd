//! A body, read from its start on. What is not there whole is cut.

use crate::extent::{Extent, extent};

pub struct Body<'a> {
    bytes: &'a [u8],
    at: usize,
}

/// The bytes are at their end too early.
pub struct Cut;

impl<'a> Body<'a> {
    pub fn new(bytes: &'a [u8]) -> Self {
        Self { bytes, at: 0 }
    }

    /// The body of a whole frame, which starts at `at`.
    pub fn of_frame(bytes: &'a [u8], at: usize) -> Self {
        Self { bytes, at }
    }

    /// Whether anything is left.
    pub fn goes_on(&self) -> bool {
        self.at < self.bytes.len()
    }

    /// Where the next byte stands.
    pub fn at(&self) -> usize {
        self.at
    }

    /// All that is left.
    pub fn rest(&self) -> &'a [u8] {
        &self.bytes[self.at..]
    }

    pub fn byte(&mut self) -> Result<u8, Cut> {
        Ok(self.bytes(1)?[0])
    }

    pub fn short(&mut self) -> Result<u16, Cut> {
        let bytes = self.bytes(2)?;
        Ok(u16::from_le_bytes([bytes[0], bytes[1]]))
    }

    pub fn bytes(&mut self, count: usize) -> Result<&'a [u8], Cut> {
        let end = self.at + count;
        let bytes = self.bytes.get(self.at..end).ok_or(Cut)?;
        self.at = end;
        Ok(bytes)
    }

    /// Where the next byte stands, and how far a value of type `code` reaches
    /// from there.
    pub fn extent(&self, code: u8) -> (usize, Extent) {
        (self.at, extent(code, self.bytes, self.at))
    }

    /// A value of type `code`, as long as its extent says.
    pub fn value(&mut self, code: u8) -> Result<&'a [u8], Cut> {
        match self.extent(code) {
            (start, Extent::End(end)) => self.bytes(end - start),
            (_, Extent::Cut | Extent::Without) => Err(Cut),
        }
    }
}
