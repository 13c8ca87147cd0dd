//! A reply as it is written. What does not fit is not written at all.

use super::answer::{Refusal, Served};

pub struct Reply {
    bytes: Vec<u8>,
    room: usize,
}

impl Reply {
    /// Every reply starts 18, sequence, reply command.
    pub fn begun(sequence: u8, command: u8, room: usize) -> Result<Self, Refusal> {
        let mut reply = Self {
            bytes: Vec::new(),
            room,
        };
        reply.put(&[0x18, sequence, command])?;
        Ok(reply)
    }

    pub fn put(&mut self, bytes: &[u8]) -> Result<(), Refusal> {
        if !self.fits(bytes.len()) {
            return Err(Refusal::DoesNotFit);
        }
        self.bytes.extend(bytes);
        Ok(())
    }

    pub fn fits(&self, count: usize) -> bool {
        count <= self.left()
    }

    pub fn left(&self) -> usize {
        self.room - self.bytes.len()
    }

    pub fn done(self) -> Served {
        Ok(self.bytes)
    }
}

/// An id as it is sent.
pub fn id_bytes(id: u16) -> [u8; 2] {
    id.to_le_bytes()
}
