//! The kinds of what the two reporting commands answer.

use reading::is_analog;
use reading::table::{SIGNED, place};

use super::Detail::{self, Alone, Said};
use super::bodies::stopped_or_not;
use super::served::{Call, header_or};
use super::writes::listed;

pub fn configure(call: &Call<'_>, body: &[u8]) -> Vec<Detail> {
    let done = call.table != call.table_after;
    let mut details = match call.answer.number {
        0 => listed(call, body, 4),
        4 => vec![Said("cut")],
        // under ample room it would have been a failure or the one 00
        _ if call.room == 3 && !fails(call, body) => vec![Said("the one 00")],
        _ => vec![header_or(call.room, "a failure")],
    };
    if done && call.answer.number != 0 {
        details.push(Said("earlier records done"));
    }
    if call.answer.number == 0 {
        details.extend(changed(call));
        details.extend(marked(call));
        if done && details[0] != Alone(0x00) {
            details.push(Said("with failures, others done"));
        }
    }
    details
}

/// Whether any record of the request fails.
fn fails(call: &Call<'_>, body: &[u8]) -> bool {
    let mut table = call.table.to_vec();
    let request = [&[0x00, 0x00, 0x06], body].concat();
    let cluster = reading::store::cluster_of(call.store).unwrap_or(0);
    let store = &mut call.store.to_vec();
    let ample = 4 + 4 * request.len();
    let answer = reading::commands::serve(store, &mut table, cluster, true, &request, ample);
    answer.reply.len() != 4
}

fn changed(call: &Call<'_>) -> Option<Detail> {
    let (before, after) = (call.table.len(), call.table_after.len());
    if after > before {
        Some(Said("an entry more"))
    } else if after < before {
        Some(Said("an entry less"))
    } else if call.table != call.table_after {
        Some(Said("another entry"))
    } else {
        None
    }
}

/// The mark of each entry that is not as it was.
fn marked(call: &Call<'_>) -> Vec<Detail> {
    let mut details = Vec::new();
    for (at, entry) in call.table_after.iter().enumerate() {
        // most stand where they stood
        if call.table.get(at) == Some(entry) || call.table.contains(entry) {
            continue;
        }
        let mark = entry.config.mark;
        details.push(Said(if mark == SIGNED {
            "an entry that compares as signed"
        } else {
            "an entry that compares as unsigned"
        }));
        if place(call.table, entry.key).is_some_and(|place| call.table[place].config.mark != mark) {
            details.push(Said("an entry of another mark than before"));
        }
    }
    details
}

pub fn read(call: &Call<'_>, body: &[u8]) -> Vec<Detail> {
    match call.answer.number {
        0 => {
            let (statuses, changes) = read_statuses(call.records());
            let mut details = stopped_or_not(statuses, body.len() / 3);
            details.extend(changes.into_iter().map(|change| {
                Said(if change {
                    "with a change"
                } else {
                    "without a change"
                })
            }));
            details
        }
        4 if body.len() < 3 => vec![Said("first record cut")],
        4 => vec![Said("later record cut")],
        _ => vec![Said("header")],
    }
}

/// The status of each record, and of those of status 00 whether it has a
/// change: status, direction, id, type, minimum, maximum, change.
fn read_statuses(mut records: &[u8]) -> (Vec<u8>, Vec<bool>) {
    let (mut statuses, mut changes) = (Vec::new(), Vec::new());
    while let Some(&status) = records.first() {
        statuses.push(status);
        let mut end = 4;
        if status == 0x00 {
            let code = records[4];
            let width = reading::fixed_size(code).filter(|_| is_analog(code));
            changes.push(width.is_some());
            end = 9 + width.unwrap_or(0);
        }
        records = records.get(end..).unwrap_or_default();
    }
    (statuses, changes)
}
