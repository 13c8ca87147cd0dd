//! The kinds of what the readers say of a frame.

use reading::replies::{Failure, Read, Readings, SettingRecord, Unread, Value, Why};
use reading::{Kind as Type, header};

use super::Detail::{self, Said};
use super::{Kind, READERS};

/// What all seven say.
pub fn of_readings(frame: &[u8], readings: &Readings) -> Vec<Kind> {
    let said = [
        read(&readings.read, |records| {
            let failed = records.iter().any(|record| record.status != 0x00);
            let values = records.iter().filter_map(|record| record.value);
            let mut details = values_in(frame, values);
            details.push(count(records.len()));
            details.extend(failed.then_some(Said("a failure")));
            details
        }),
        read(&readings.write, |records| vec![count(records.len())]),
        read(&readings.configure, |records| {
            let mut details: Vec<Detail> = records.iter().map(direction).collect();
            details.push(count(records.len()));
            details
        }),
        read(&readings.configuration, |records| {
            let mut details: Vec<Detail> = records.iter().flat_map(setting).collect();
            details.push(count(records.len()));
            details
        }),
        read(&readings.discover, |found| {
            let complete = ["not complete", "complete"][usize::from(found.complete)];
            vec![Said(complete), count(found.attributes.len())]
        }),
        read(&readings.default_response, |_| {
            let behind = header(frame).is_some_and(|header| frame.len() > header.body + 2);
            vec![Said(["two bytes", "bytes behind"][usize::from(behind)])]
        }),
        read(&readings.report, |records| {
            let mut details = values_in(frame, records.iter().map(|record| record.value));
            details.push(count(records.len()));
            details
        }),
    ];
    let coded = header(frame).is_some_and(|header| header.manufacturer_code.is_some());
    let coded = coded.then_some(Said("a manufacturer code"));
    let named = READERS.into_iter().zip(said);
    named
        .flat_map(|(reader, (number, mut details))| {
            details.extend(coded.filter(|_| number == 0));
            let one = move |detail| (reader, number, one_byte(reader, detail));
            details.into_iter().map(one)
        })
        .collect()
}

/// A number and its details: those of what was read, or why it was not.
fn read<T>(read: &Read<T>, details: impl Fn(&T) -> Vec<Detail>) -> (u8, Vec<Detail>) {
    match read {
        Ok(read) => (0, details(read)),
        Err(unread) => (unread.number(), vec![refused(*unread)]),
    }
}

fn refused(unread: Unread) -> Detail {
    let place = |first, later| Said(if unread.behind == 0 { first } else { later });
    match unread.why {
        Why::HeaderShort => Said("header short"),
        Why::OtherFrameType => Said("another frame type"),
        Why::OtherCommand => Said("another command"),
        Why::Empty => Said("empty"),
        Why::Cut => place("first record cut", "later record cut"),
        Why::WithoutExtent => place("first value without extent", "later value without extent"),
        Why::SuccessInList => place("00 first", "00 later"),
        Why::CompleteByte => Said("a complete byte above 1"),
    }
}

/// A Default Response has no records: where it is cut and not empty, it is one
/// byte.
fn one_byte(reader: &str, detail: Detail) -> Detail {
    match detail {
        Said("first record cut") if reader == "default response" => Said("one byte"),
        _ => detail,
    }
}

fn count(records: usize) -> Detail {
    match records {
        0 => Said("no record"),
        1 => Said("one record"),
        _ => Said("more records"),
    }
}

fn values_in(frame: &[u8], values: impl Iterator<Item = Value>) -> Vec<Detail> {
    let one = |value: Value| match (value.number, value.bytes(frame).last()) {
        (None, _) => Said("no number"),
        (Some(_), None) => Said("no bytes, and the number 0"),
        (Some(0..), Some(0x80..)) => Said("a top bit that is no sign"),
        (Some(0..), Some(_)) => Said("a number not below 0"),
        (Some(_), Some(_)) => Said("a number below 0"),
    };
    values.map(one).collect()
}

fn direction(failure: &Failure) -> Detail {
    match failure.direction {
        Some(0) => Said("direction 0"),
        _ => Said("another direction"),
    }
}

fn setting(record: &SettingRecord) -> Vec<Detail> {
    let Some(setting) = record.setting else {
        return vec![Said("a failure")];
    };
    let (analog, width) = match reading::fixed_size(setting.type_code) {
        Some(width) => (reading::is_analog(setting.type_code), width),
        None => (false, 0),
    };
    let mut details = vec![match analog {
        true if setting.change >> (8 * width - 1) == 1 => Said("a change with its top bit"),
        true => Said("a change"),
        false if reading::kind(setting.type_code) == Type::Unknown => Said("an unknown type"),
        false => Said("no change field"),
    }];
    if record.direction != 0 {
        details.push(Said("a setting of another direction"));
    }
    details
}
