//! The kinds of a served frame's answer.

use reading::commands::Answer;
use reading::table::Entry;
use reading::{FrameType, Header};

use super::Detail::{Alone, Said};
use super::{Detail, Kind, bodies, reporting, writes};
use crate::records::body_of;

/// One call and all that came of it.
pub struct Call<'a> {
    pub store: &'a [u8],
    pub table: &'a [Entry],
    pub unicast: bool,
    pub request: &'a [u8],
    pub room: usize,
    pub answer: &'a Answer,
    pub store_after: &'a [u8],
    pub table_after: &'a [Entry],
}

impl Call<'_> {
    pub fn stored(&self) -> bool {
        self.store != self.store_after
    }

    /// The records of the reply.
    pub fn records(&self) -> &[u8] {
        self.answer.reply.get(3..).unwrap_or_default()
    }
}

pub fn of(call: &Call<'_>) -> Vec<Kind> {
    let number = call.answer.number;
    let (command, details) = match number {
        1 => ("any frame", vec![Said("other cluster")]),
        2 => ("any frame", vec![Said("header short")]),
        3 => ("any frame", vec![Said("reserved frame type")]),
        7 => ("any frame", vec![Said("no store")]),
        8 => ("any frame", vec![Said("no table")]),
        _ => match body_of(call.request) {
            Some((header, body)) => by_command(call, &header, body),
            None => return Vec::new(),
        },
    };
    details
        .into_iter()
        .map(|detail| (command, number, detail))
        .collect()
}

fn by_command(call: &Call<'_>, header: &Header, body: &[u8]) -> (&'static str, Vec<Detail>) {
    if header.frame_type == FrameType::Cluster {
        return ("a cluster command", default_response(call));
    }
    match header.command {
        0x00 => ("read", bodies::read(call, body)),
        0x02 => ("write", writes::write(call, body)),
        0x03 => ("undivided", writes::undivided(call, body)),
        0x05 => ("no response", writes::no_response(call, body)),
        0x06 => ("configure", reporting::configure(call, body)),
        0x08 => ("read configuration", reporting::read(call, body)),
        0x0c => ("discover", bodies::discover(call, body)),
        0x0b => ("a received Default Response", received(call)),
        _ => ("another global command", default_response(call)),
    }
}

/// Where the reply's header and its records were in the way of the room.
pub fn header_or(room: usize, otherwise: &'static str) -> Detail {
    Said(if room < 3 { "header" } else { otherwise })
}

/// The statuses of the records of a reply, as details.
pub fn statuses(statuses: &[u8]) -> Vec<Detail> {
    let Some((&first, later)) = statuses.split_first() else {
        return Vec::new();
    };
    let later = later.iter().map(|&status| Detail::Later(status));
    [Detail::First(first)].into_iter().chain(later).collect()
}

/// A Default Response, which gets nothing however it came.
fn received(call: &Call<'_>) -> Vec<Detail> {
    let sent = Said(if call.unicast {
        "unicast"
    } else {
        "no unicast"
    });
    let narrow = (call.room < 5).then_some(Said("without room for an answer"));
    [sent].into_iter().chain(narrow).collect()
}

fn default_response(call: &Call<'_>) -> Vec<Detail> {
    match call.answer.number {
        0 => call.records()[1..].iter().map(|&s| Alone(s)).collect(),
        5 if call.unicast && call.room < 5 => vec![header_or(call.room, "behind the header")],
        6 if !call.unicast => vec![Said("no unicast")],
        // allowed nowhere
        _ => vec![Said("without a reason")],
    }
}
