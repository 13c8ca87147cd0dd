//! What ours is held to on a frame: of each reader its check, and its records.

use std::iter::once;

use ours::{Reader, Row};
use reading::replies::{Read, Readings, Unread, Value};

pub fn rows(readings: &Readings) -> Vec<Row> {
    [
        listed(
            [Reader::ReadCheck, Reader::ReadRecord],
            records(&readings.read),
            |record| {
                let value = record.value.map_or([0; 5], of_value);
                [vec![record.id.into(), record.status.into()], value.to_vec()].concat()
            },
        ),
        listed(
            [Reader::WriteCheck, Reader::WriteRecord],
            records(&readings.write),
            |failure| vec![failure.status.into(), failure.id.into()],
        ),
        listed(
            [Reader::ConfigureCheck, Reader::ConfigureRecord],
            records(&readings.configure),
            |failure| {
                let direction = failure.direction.expect("a configure has one");
                vec![failure.status.into(), direction.into(), failure.id.into()]
            },
        ),
        configuration(readings),
        listed(
            [Reader::DiscoverCheck, Reader::DiscoverRecord],
            readings
                .discover
                .as_ref()
                .map(|found| (vec![found.complete.into()], &found.attributes[..]))
                .map_err(|unread| *unread),
            |&(id, code)| vec![id.into(), code.into()],
        ),
        vec![default_response(readings)],
        listed(
            [Reader::ReportCheck, Reader::ReportRecord],
            records(&readings.report),
            |record| [vec![record.id.into()], of_value(record.value).to_vec()].concat(),
        ),
    ]
    .concat()
}

fn configuration(readings: &Readings) -> Vec<Row> {
    listed(
        [Reader::ConfigurationCheck, Reader::ConfigurationRecord],
        records(&readings.configuration),
        |record| {
            let setting = record.setting.map_or([0; 4], |setting| {
                let (minimum, maximum) = (setting.minimum.into(), setting.maximum.into());
                [setting.type_code.into(), minimum, maximum, setting.change]
            });
            let head = [record.status.into(), record.direction.into()];
            [&head[..], &[record.id.into()], &setting].concat()
        },
    )
}

fn default_response(readings: &Readings) -> Row {
    let reader = Reader::DefaultResponse;
    match readings.default_response {
        Ok(read) => Row::new(reader, 0, 0, &[read.command.into(), read.status.into()]),
        Err(unread) => Row::new(reader, 0, unread.number(), &[]),
    }
}

/// Type, start, length, whether there is a number, and the number.
fn of_value(value: Value) -> [u64; 5] {
    let [start, length] = [value.start, value.length].map(|place| place as u64);
    let (numbered, number) = value.number.map_or((0, 0), |number| (1, number));
    let code = value.type_code.into();
    [code, start, length, numbered, number.cast_unsigned()]
}

/// What a check gives before the count, and the records.
type Listed<'a, R> = Result<(Vec<u64>, &'a [R]), Unread>;

fn records<R>(read: &Read<Vec<R>>) -> Listed<'_, R> {
    match read {
        Ok(records) => Ok((Vec::new(), records)),
        Err(unread) => Err(*unread),
    }
}

/// The check, then the records with the one that is not there.
fn listed<R>(
    [check, record]: [Reader; 2],
    read: Listed<'_, R>,
    fields: impl Fn(&R) -> Vec<u64>,
) -> Vec<Row> {
    let (ahead, records) = match read {
        Ok(read) => read,
        Err(unread) => {
            let refused = |reader, k| Row::new(reader, k, unread.number(), &[]);
            let records = asked(unread.behind).map(|k| refused(record, k));
            return once(refused(check, 0)).chain(records).collect();
        }
    };
    let counted = [ahead, vec![records.len() as u64]].concat();
    let one = |k| {
        let found = records.get(k).map(|record| [vec![1], fields(record)]);
        Row::new(record, k, 0, &found.unwrap_or_default().concat())
    };
    once(Row::new(check, 0, 0, &counted))
        .chain(asked(records.len()).map(one))
        .collect()
}

/// Every k of so many records, the one behind them, and the last that there
/// can be.
fn asked(records: usize) -> impl Iterator<Item = usize> {
    (0..=records).chain(once(usize::MAX))
}
