//! The calls of a row, and how they are made.

use std::hint::black_box;

use reading::table::Key;

use crate::side::{Said, Side};

/// The reply buffer of every call but one that is to be too short.
pub const ROOM: usize = 256;

/// A unicast request.
#[derive(Debug)]
pub struct Request {
    pub cluster: u16,
    pub frame: Vec<u8>,
    pub room: usize,
}

/// Attributes to report.
#[derive(Debug)]
pub struct Report {
    pub sequence: u8,
    pub ids: Vec<u16>,
}

/// An ask or a mark.
#[derive(Debug)]
pub struct Ask {
    pub key: Key,
    pub now: u32,
    pub value: i64,
}

/// Calls that are made in turn, round and round.
#[derive(Debug)]
pub enum Calls {
    Requests(Vec<Request>),
    Reports(Vec<Report>),
    Asks(Vec<Ask>),
    Marks(Vec<Ask>),
}

impl Calls {
    /// How many a round has.
    pub fn round(&self) -> usize {
        match self {
            Self::Requests(each) => each.len(),
            Self::Reports(each) => each.len(),
            Self::Asks(each) | Self::Marks(each) => each.len(),
        }
    }

    /// Whether they write to the buffer that they are lent.
    pub fn write_frames(&self) -> bool {
        matches!(self, Self::Requests(_) | Self::Reports(_))
    }

    /// The room that call `at` is lent.
    pub fn room(&self, at: usize) -> usize {
        match self {
            Self::Requests(each) => each[at].room,
            _ => ROOM,
        }
    }

    /// Makes call `at` of the round, with the buffer's first bytes as its room.
    pub fn one(&self, at: usize, side: &mut impl Side, buffer: &mut [u8; ROOM]) -> Said {
        match self {
            Self::Requests(each) => side.request(&each[at], &mut buffer[..each[at].room]),
            Self::Reports(each) => side.report(&each[at], buffer),
            Self::Asks(each) => side.ask(&each[at]),
            Self::Marks(each) => side.mark(&each[at]),
        }
    }

    /// Makes so many, from the round's first on. What kind they are is asked
    /// once, not at every call.
    pub fn many(&self, many: usize, side: &mut impl Side, buffer: &mut [u8; ROOM]) {
        match self {
            Self::Requests(each) => turns(each, many, side, |side, request| {
                side.request(request, black_box(&mut buffer[..request.room]))
            }),
            Self::Reports(each) => turns(each, many, side, |side, report| {
                side.report(report, black_box(&mut buffer[..]))
            }),
            Self::Asks(each) => turns(each, many, side, |side, ask| side.ask(ask)),
            Self::Marks(each) => turns(each, many, side, |side, mark| side.mark(mark)),
        }
    }
}

/// The compiler is to know nothing of a call's inputs, nor that its answer is
/// not looked at.
fn turns<T, S: Side>(
    each: &[T],
    many: usize,
    side: &mut S,
    mut call: impl FnMut(&mut S, &T) -> Said,
) {
    for one in each.iter().cycle().take(many) {
        black_box(call(black_box(&mut *side), black_box(one)));
    }
}
