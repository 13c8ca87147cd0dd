//! The kinds of what the three writes answer.

use super::Detail::{self, Alone, Said};
use super::served::{Call, header_or, statuses};
use crate::records::{End, Record, records};

pub fn write(call: &Call<'_>, body: &[u8]) -> Vec<Detail> {
    let (records, end) = records(call.store, body);
    let mut details = match call.answer.number {
        0 => listed(call, body, 3),
        4 => vec![trouble(end)],
        _ if records.iter().any(|record| record.status != 0x00) => {
            vec![header_or(call.room, "a failure")]
        }
        _ => vec![header_or(call.room, "the one 00")],
    };
    if call.stored() {
        match call.answer.number {
            0 if details[0] == Alone(0x00) => {}
            0 => details.push(Said("with failures, others stored")),
            _ => details.push(Said("earlier records stored")),
        }
    }
    details
}

pub fn undivided(call: &Call<'_>, body: &[u8]) -> Vec<Detail> {
    let (records, end) = records(call.store, body);
    let fails = records.iter().any(|record| record.status != 0x00);
    let mut details = match call.answer.number {
        0 => listed(call, body, 3),
        4 => vec![trouble(end)],
        _ if fails => vec![header_or(call.room, "a failure")],
        _ => vec![header_or(call.room, "the one 00")],
    };
    details.extend(by_fourth_check(call, &records, end));
    if call.stored() {
        match call.answer.number {
            0 if !fails => {}
            5 if !fails => details.push(Said("all records stored")),
            // allowed nowhere
            _ => details.push(Said("some records stored")),
        }
    }
    details
}

/// Where the fourth check gives an undivided write another number or list than
/// the first three would.
fn by_fourth_check(call: &Call<'_>, records: &[Record<'_>], end: End) -> Option<Detail> {
    let many = |failed: fn(&Record<'_>) -> bool| records.iter().filter(|one| failed(one)).count();
    let by_three = many(|record| record.of_three != 0x00);
    let too_long = many(|record| record.of_three != record.status);
    if too_long == 0 || call.room < 3 + 3 * by_three {
        return None;
    }
    match (call.answer.number, end) {
        (0 | 5, End::Whole) if by_three != 0 => Some(Said("too long beside another failure")),
        (5, End::Cut | End::WithoutExtent) => {
            Some(Said("too long before a record that cannot be read"))
        }
        _ => None,
    }
}

pub fn no_response(call: &Call<'_>, body: &[u8]) -> Vec<Detail> {
    let (records, end) = records(call.store, body);
    let mut details = vec![Said(match end {
        End::Whole => "whole",
        End::Cut => "up to a cut record",
        End::WithoutExtent => "up to a value without extent",
    })];
    if call.stored() {
        details.push(Said("stored"));
    }
    if records.iter().any(|record| record.status != 0x00) {
        details.push(Said("a record failed"));
    }
    details
}

/// A list of failures, each of `size` bytes and its status first, or one 00.
pub fn listed(call: &Call<'_>, body: &[u8], size: usize) -> Vec<Detail> {
    let records = call.records();
    let mut details = if records.len() == 1 {
        vec![Alone(records[0])]
    } else {
        let found: Vec<u8> = records.chunks(size).map(|record| record[0]).collect();
        statuses(&found)
    };
    if body.is_empty() {
        details.push(Said("nothing asked"));
    }
    details
}

fn trouble(end: End) -> Detail {
    Said(match end {
        End::WithoutExtent => "without extent",
        End::Cut | End::Whole => "cut",
    })
}
