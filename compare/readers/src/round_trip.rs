//! The records that a reply must hold, from the request, the store and the
//! table alone: nothing here reads a list of records.

use cases::given::List;
use cases::{Case, Seen, body_of, records};
use reading::commands::serve;
use reading::replies::{Failure, ReadRecord, Readings, Setting, SettingRecord, Value};
use reading::store::{attributes, find, number, value};
use reading::table::{Key, entries, place};
use reading::{FrameType, change_width};

/// Whether the records that were read are those of the request's answer.
pub fn is_answer(case: &Case, seen: &Seen, readings: &Readings) -> bool {
    let Some((header, body)) = body_of(&case.request) else {
        return false;
    };
    let left = case.room - seen.used;
    match (header.frame_type, header.command) {
        (FrameType::Global, 0x00) => (readings.read.as_ref())
            .is_ok_and(|read| are_values(case, seen.reply(), body, read, left)),
        (FrameType::Global, 0x02 | 0x03) => {
            readings.write.as_ref() == Ok(&not_written(&case.store, body))
        }
        (FrameType::Global, 0x06) => readings.configure.as_ref() == Ok(&not_configured(case, body)),
        (FrameType::Global, 0x08) => {
            (readings.configuration.as_ref()).is_ok_and(|read| are_settings(case, body, read, left))
        }
        (FrameType::Global, 0x0c) => (readings.discover.as_ref())
            .is_ok_and(|read| are_attributes(&case.store, body, read.complete, &read.attributes)),
        (_, command) => (readings.default_response)
            .is_ok_and(|read| (read.command, read.status) == (command, 0x81)),
    }
}

pub fn is_report(list: &List, frame: &[u8], readings: &Readings) -> bool {
    readings.report.as_ref().is_ok_and(|read| {
        read.len() == list.ids.len()
            && (read.iter().zip(&list.ids)).all(|(record, &id)| {
                record.id == id && is_value(&list.store, frame, id, &record.value)
            })
    })
}

/// Whether a value that was read is the attribute's, with its number.
fn is_value(store: &[u8], frame: &[u8], id: u16, read: &Value) -> bool {
    find(store, id).is_some_and(|found| found.type_code == read.type_code)
        && value(store, id) == Some(read.bytes(frame))
        && number(store, id).ok() == read.number
}

/// Ids in their order, all of them unless the room ends before.
fn are_values(case: &Case, frame: &[u8], body: &[u8], read: &[ReadRecord], left: usize) -> bool {
    let mut ids = body.chunks(2);
    let mut one = |record: &ReadRecord| {
        let found = find(&case.store, record.id).is_some();
        let said = match (record.status, &record.value) {
            (0x00, Some(value)) => is_value(&case.store, frame, record.id, value),
            (0x86, None) => !found,
            (0x89, None) => found,
            _ => false,
        };
        said && ids.next() == Some(&record.id.to_le_bytes())
    };
    read.iter().all(&mut one) && (ids.next().is_none() || left < 3)
}

fn not_written(store: &[u8], body: &[u8]) -> Vec<Failure> {
    let (records, _) = records(store, body);
    let failures = records.iter().map(|record| Failure {
        status: record.status,
        direction: None,
        id: record.id,
    });
    failures.filter(|failure| failure.status != 0x00).collect()
}

/// Each record on its own, over the table that those before it left: its reply
/// has the status at its first place.
fn not_configured(case: &Case, body: &[u8]) -> Vec<Failure> {
    let mut store = case.store.clone();
    let mut table = entries(&case.table).unwrap_or_default();
    let mut failures = Vec::new();
    let mut rest = body;
    while let [direction, low, high, more @ ..] = rest {
        let length = match (direction, more) {
            (0, [code, ..]) => 3 + 5 + change_width(*code),
            _ => 3 + 2,
        };
        let (record, behind) = rest.split_at(length.min(rest.len()));
        let single = [&[0x00, 0x00, 0x06], record].concat();
        let answer = serve(&mut store, &mut table, case.cluster, true, &single, 64);
        failures.push(Failure {
            status: answer.reply.get(3).copied().unwrap_or(0xff),
            direction: Some(*direction),
            id: u16::from_le_bytes([*low, *high]),
        });
        rest = behind;
    }
    failures.retain(|failure| failure.status != 0x00);
    failures
}

/// As asked for, in that order, until one does not fit.
fn are_settings(case: &Case, body: &[u8], read: &[SettingRecord], left: usize) -> bool {
    let mut asked = body.chunks(3).map(|asked| setting_record(case, asked));
    let fits = |next: SettingRecord| {
        let setting = next.setting.map_or(0, |s| 5 + change_width(s.type_code));
        4 + setting <= left
    };
    read.iter()
        .all(|record| asked.next() == Some(Some(*record)))
        && asked.next().is_none_or(|next| !next.is_some_and(fits))
}

fn setting_record(case: &Case, asked: &[u8]) -> Option<SettingRecord> {
    let [direction, low, high] = *asked.first_chunk()?;
    let id = u16::from_le_bytes([low, high]);
    let held = setting(case, direction, id);
    Some(SettingRecord {
        status: held.err().unwrap_or(0x00),
        direction,
        id,
        setting: held.ok(),
    })
}

/// What the table holds for an attribute, or the status.
fn setting(case: &Case, direction: u8, attribute: u16) -> Result<Setting, u8> {
    let found = find(&case.store, attribute).ok_or(0x86)?;
    if direction != 0 || found.access & 2 == 0 {
        return Err(0x8c);
    }
    let table = entries(&case.table).unwrap_or_default();
    let cluster = case.cluster;
    let held = table[place(&table, Key { cluster, attribute }).ok_or(0x8b)?].config;
    let mut change = held.change.to_le_bytes();
    change[change_width(found.type_code)..].fill(0);
    Ok(Setting {
        type_code: found.type_code,
        minimum: held.minimum,
        maximum: held.maximum,
        change: u64::from_le_bytes(change),
    })
}

/// From the start on, in the store's order; complete where none is left out.
fn are_attributes(store: &[u8], body: &[u8], complete: bool, read: &[(u16, u8)]) -> bool {
    let start = u16::from_le_bytes([body[0], body[1]]);
    let attributes = attributes(store).unwrap_or_default();
    let from_start: Vec<_> = attributes
        .iter()
        .filter(|attribute| attribute.id >= start)
        .map(|attribute| (attribute.id, attribute.type_code))
        .collect();
    from_start.starts_with(read) && complete == (read.len() == from_start.len())
}

#[cfg(test)]
mod tests {
    use super::*;
    use crate::bench;

    #[test]
    fn no_other_records_are_the_answer() {
        for (case, seen) in bench::served() {
            let reply = seen.reply().to_vec();
            assert!(is_answer(&case, &seen, &Readings::of(&reply)), "{case}");
            for at in 3..reply.len() {
                for change in 1..=0xff {
                    let mut other = seen.clone();
                    other.buffer[at] ^= change;
                    let readings = Readings::of(other.reply());
                    assert!(!is_answer(&case, &other, &readings), "{case}{other}");
                }
            }
        }
    }

    #[test]
    fn no_other_records_are_the_report() {
        let (list, report) = bench::report();
        let frame = report.reply;
        assert!(is_report(&list, &frame, &Readings::of(&frame)));
        for at in 3..frame.len() {
            let mut other = frame.clone();
            other[at] ^= 0x01;
            assert!(!is_report(&list, &other, &Readings::of(&other)), "at {at}");
        }
        let cut = &frame[..frame.len() - 5];
        assert!(!is_report(&list, cut, &Readings::of(cut)), "one is missing");
    }
}
