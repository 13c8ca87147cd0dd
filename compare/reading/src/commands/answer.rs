//! What a call says back: a number, and under 0 a reply.

use crate::body::Cut;

/// Document 01's table of numbers, as far as a call with a reply says them.
#[derive(Debug, Clone, Copy, PartialEq, Eq)]
pub enum Refusal {
    OtherCluster = 1,
    HeaderShort = 2,
    ReservedFrameType = 3,
    /// A record or body that is cut or without extent.
    Cut = 4,
    DoesNotFit = 5,
    NothingToSend = 6,
    NoStore = 7,
    NoTable = 8,
    NothingToReport = 11,
    NotReportable = 12,
    /// Of document 02: bytes that are not a saved form, or a table without one.
    NoSavedForm = 13,
}

impl From<Cut> for Refusal {
    fn from(Cut: Cut) -> Self {
        Self::Cut
    }
}

/// A reply's bytes, or why there is none.
pub type Served = Result<Vec<u8>, Refusal>;

#[derive(Debug, Clone, PartialEq, Eq)]
pub struct Answer {
    /// 0 with a reply, else the number of the refusal.
    pub number: u8,
    pub reply: Vec<u8>,
}

impl Answer {
    /// The reply buffer afterwards: the reply, then zeros to its end.
    pub fn buffer(&self, room: usize) -> Vec<u8> {
        let mut buffer = self.reply.clone();
        buffer.resize(room, 0);
        buffer
    }
}

impl From<Served> for Answer {
    fn from(served: Served) -> Self {
        match served {
            Ok(reply) => Self { number: 0, reply },
            Err(refusal) => Self {
                number: refusal as u8,
                reply: Vec::new(),
            },
        }
    }
}
