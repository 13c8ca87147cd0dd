//! All rows.

use reading::change_width;
use reading::store::{Attribute, attributes};
use reading::table::{Config, ENTRIES, Entry, FORMER_ENTRIES, Key, SIGNED, UNSIGNED};

use crate::calls::{Ask, Calls, Report, Request};
use crate::frames::{
    CHANGE, MAXIMUM, MINIMUM, SEQUENCE, configure, discover, read, read_configuration, refused,
    write,
};
use crate::row::{Over, Row};
use crate::stores::{CLUSTER, REPORTABLE, WRITABLE, four, sixty_four, ten};

pub fn rows() -> Vec<Row> {
    [
        over_store(Over::Four, &four()),
        over_store(Over::SixtyFour, &sixty_four()),
        over_table(Over::Table, FORMER_ENTRIES),
        over_table(Over::Full, ENTRIES),
        requests_over_full(&sixty_four()),
    ]
    .into_iter()
    .flatten()
    .collect()
}

/// The row of this word.
pub fn named(word: &str) -> Option<Row> {
    rows().into_iter().find(|row| row.word() == word)
}

fn over_store(over: Over, store: &[u8]) -> Vec<Row> {
    let all = attributes(store).expect("the store is sound");
    let middle = all[all.len() / 2];
    let reportable = ten(&all, REPORTABLE);
    let reports = vec![Report {
        sequence: SEQUENCE,
        ids: reportable.iter().map(|one| one.id).collect(),
    }];
    let row = |name, table: &[Entry], calls| Row {
        over,
        name,
        store: store.to_vec(),
        table: table.to_vec(),
        calls,
    };
    let one = |request: Request| Calls::Requests(vec![request]);
    vec![
        row("read 1", &[], one(read(&[middle]))),
        row("read 10", &[], one(read(&ten(&all, 0)))),
        row("write 10", &[], one(write(store, &ten(&all, WRITABLE)))),
        row("configure 10", &[], one(configure(&reportable))),
        row(
            "read configuration 10",
            &configured(&reportable),
            one(read_configuration(&reportable)),
        ),
        row("discover 64", &[], one(discover())),
        row("report 10", &[], Calls::Reports(reports)),
        row("refused", &[], Calls::Requests(refused())),
    ]
}

/// The entries that `configure` makes.
fn configured(some: &[Attribute]) -> Vec<Entry> {
    let mut entries: Vec<Entry> = some.iter().map(entry).collect();
    entries.sort_by_key(|entry| entry.key.attribute);
    entries.dedup();
    entries
}

fn entry(attribute: &Attribute) -> Entry {
    let is_discrete = change_width(attribute.type_code) == 0;
    let is_int = matches!(attribute.type_code, 0x28..=0x2f);
    Entry {
        key: key(attribute.id),
        config: Config {
            minimum: MINIMUM,
            maximum: MAXIMUM,
            change: if is_discrete { 0 } else { CHANGE },
            mark: if is_int { SIGNED } else { UNSIGNED },
        },
        last: None,
    }
}

fn key(attribute: u16) -> Key {
    Key {
        cluster: CLUSTER,
        attribute,
    }
}

/// Two requests over a full table, in which what they name stands among others.
fn requests_over_full(store: &[u8]) -> Vec<Row> {
    let all = attributes(store).expect("the store is sound");
    let reportable = ten(&all, REPORTABLE);
    let table = among_others(&configured(&reportable));
    let row = |name, request| Row {
        over: Over::Full,
        name,
        store: store.to_vec(),
        table: table.clone(),
        calls: Calls::Requests(vec![request]),
    };
    vec![
        row("configure 10", configure(&reportable)),
        row("read configuration 10", read_configuration(&reportable)),
    ]
}

/// These entries spread over a full table; the others are of attributes that the
/// store does not have.
fn among_others(some: &[Entry]) -> Vec<Entry> {
    let mut table: Vec<Entry> = (0..ENTRIES)
        .map(|place| Entry {
            key: key(0x4000 + place as u16),
            ..some[0]
        })
        .collect();
    for (turn, entry) in some.iter().enumerate() {
        table[(2 * turn + 1) * ENTRIES / (2 * some.len())] = *entry;
    }
    table
}

/// A table of so many entries, every second of its attributes marked.
fn over_table(over: Over, many: usize) -> Vec<Row> {
    let attributes = 0..many as u16;
    let table: Vec<Entry> = attributes
        .clone()
        .map(|attribute| Entry {
            key: key(attribute),
            config: Config {
                minimum: MINIMUM,
                maximum: MAXIMUM,
                change: CHANGE,
                mark: SIGNED,
            },
            last: (attribute % 2 == 0).then_some((100, -200)),
        })
        .collect();
    // of the marked ones some come too early, some have moved too little or
    // enough, and some are at their maximum; in a longer table these come again
    let asks = || {
        let each = attributes.clone().map(|attribute| Ask {
            key: key(attribute),
            now: 100 + 5 * u32::from(attribute % 16),
            value: -200 + 10 * i64::from(attribute % 16),
        });
        each.collect()
    };
    let row = |name, calls| Row {
        over,
        name,
        store: four(),
        table: table.clone(),
        calls,
    };
    vec![
        row("ask", Calls::Asks(asks())),
        row("mark", Calls::Marks(asks())),
    ]
}

#[cfg(test)]
mod tests;
