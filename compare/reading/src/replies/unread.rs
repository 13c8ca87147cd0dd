//! Why a frame is not read.

use crate::body::Cut;

#[derive(Debug, Clone, Copy, PartialEq, Eq)]
pub enum Why {
    HeaderShort,
    OtherFrameType,
    OtherCommand,
    /// There is no body where one has to be.
    Empty,
    /// A record, or a body that is no list, ends too early.
    Cut,
    /// A record's value has no extent.
    WithoutExtent,
    /// 00 in a list of failures, which is longer than that.
    SuccessInList,
    /// A complete byte above 1.
    CompleteByte,
}

#[derive(Debug, Clone, Copy, PartialEq, Eq)]
pub struct Unread {
    pub why: Why,
    /// So many records stand whole before the trouble.
    pub behind: usize,
}

impl Unread {
    /// The refusal's number.
    pub fn number(self) -> u8 {
        match self.why {
            Why::HeaderShort => 2,
            Why::Empty | Why::Cut | Why::WithoutExtent => 4,
            Why::OtherFrameType | Why::OtherCommand => 10,
            Why::SuccessInList | Why::CompleteByte => 10,
        }
    }
}

impl From<Why> for Unread {
    fn from(why: Why) -> Self {
        Self { why, behind: 0 }
    }
}

impl From<Cut> for Why {
    fn from(Cut: Cut) -> Self {
        Self::Cut
    }
}
