//! The kinds of what the other calls answer.

use reading::commands::Answer;
use reading::store::find;
use reading::{FrameType, Header, header};

use super::Detail::{self, Alone, Said};
use super::Kind;
use super::served::header_or;

pub fn of_unsupported(
    served: &[u16],
    cluster: u16,
    request: &[u8],
    room: usize,
    answer: &Answer,
) -> Vec<Kind> {
    let header = header(request);
    let is = |header: &Header, frame_type| header.frame_type == frame_type;
    let received = |header: &Header| is(header, FrameType::Global) && header.command == 0x0b;
    let mut details = vec![match answer.number {
        0 => Alone(*answer.reply.last().expect("a reply has a status")),
        2 => Said("header short"),
        5 => header_or(room, "behind the header"),
        _ if served.contains(&cluster) => Said("a served cluster"),
        _ if header.as_ref().is_some_and(received) => Said("a received Default Response"),
        _ => Said("no unicast"),
    }];
    if answer.number == 0 && header.is_some_and(|header| is(&header, FrameType::Reserved)) {
        details.push(Said("a reserved frame type"));
    }
    named("unsupported cluster", answer.number, &details)
}

pub fn of_report(store: &[u8], ids: &[u16], room: usize, answer: &Answer) -> Vec<Kind> {
    let detail = match answer.number {
        0 if ids.len() == 1 => Said("one record"),
        0 => Said("more records"),
        5 => header_or(room, "a record"),
        7 => Said("no store"),
        11 => Said("nothing to report"),
        // the first that is not reported
        _ => match ids
            .iter()
            .map(|&id| find(store, id))
            .find(|found| !found.is_some_and(|found| found.access & 2 != 0))
        {
            Some(None) => Said("not found"),
            _ => Said("not reportable"),
        },
    };
    named("report", answer.number, &[detail])
}

pub fn of_number(store: &[u8], id: u16, answer: Result<i64, u8>) -> Vec<Kind> {
    let (number, detail) = match answer {
        Ok(0..) => (0, Said("not below 0")),
        Ok(_) => (0, Said("below 0")),
        Err(7) => (7, Said("no store")),
        Err(number) if find(store, id).is_none() => (number, Said("not found")),
        Err(number) => (number, Said("no number")),
    };
    named("number", number, &[detail])
}

fn named(command: &'static str, number: u8, details: &[Detail]) -> Vec<Kind> {
    details
        .iter()
        .map(|&detail| (command, number, detail))
        .collect()
}
