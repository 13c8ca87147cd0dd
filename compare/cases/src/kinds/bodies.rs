//! The kinds of what reading and discovering answer.

use reading::store::attributes;
use reading::{Extent, extent};

use super::Detail::{self, Said};
use super::served::{Call, statuses};

pub fn read(call: &Call<'_>, body: &[u8]) -> Vec<Detail> {
    match call.answer.number {
        0 => stopped_or_not(read_statuses(call.records()), body.len() / 2),
        4 if body.len() == 1 => vec![Said("first record cut")],
        4 => vec![Said("later record cut")],
        _ => vec![Said("header")],
    }
}

/// The statuses, and whether there are fewer than were asked for.
pub fn stopped_or_not(found: Vec<u8>, asked: usize) -> Vec<Detail> {
    let mut details = statuses(&found);
    if asked == 0 {
        details.push(Said("nothing asked"));
    } else if found.is_empty() {
        details.push(Said("stopped before the first record"));
    } else if found.len() < asked {
        details.push(Said("stopped after records"));
    }
    details
}

/// The status of each record: id, status, and under 00 type and value.
fn read_statuses(mut records: &[u8]) -> Vec<u8> {
    let mut statuses = Vec::new();
    while records.len() >= 3 {
        statuses.push(records[2]);
        let end = match (records[2], records.get(3)) {
            (0x00, Some(&code)) => match extent(code, records, 4) {
                Extent::End(end) => end,
                _ => records.len(),
            },
            _ => 3,
        };
        records = &records[end..];
    }
    statuses
}

pub fn discover(call: &Call<'_>, body: &[u8]) -> Vec<Detail> {
    let said = match call.answer.number {
        0 => found(call, body),
        4 => "cut",
        _ if call.room < 3 => "header",
        _ => "the complete byte",
    };
    vec![Said(said)]
}

fn found(call: &Call<'_>, body: &[u8]) -> &'static str {
    let start = u16::from_le_bytes([body[0], body[1]]);
    let all = attributes(call.store).unwrap_or_default();
    let from_start = all.iter().filter(|entry| entry.id >= start).count();
    let sent = call.records().len() / 3;
    match call.records()[0] {
        1 if from_start == 0 => "complete, nothing from start on",
        1 => "complete, all from start on",
        _ if sent == usize::from(body[2]) => "not complete by the maximum",
        _ => "not complete by the room",
    }
}
