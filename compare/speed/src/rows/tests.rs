use std::collections::HashSet;

use cases::unmarked;
use reading::replies::{
    configuration_reply, configure_reply, discover_reply, read_reply, report_frame, write_reply,
};

use super::*;
use crate::agree::agree;
use crate::calls::ROOM;
use crate::old::Old;
use crate::side::{Said, Side};
use crate::stand_in::StandIn;

/// What the Rust says to the row's calls, the last frame that it writes, and
/// the Rust.
fn made(word: &str) -> (Vec<Said>, Vec<u8>, Old) {
    let row = named(word).expect("it is a row");
    let mut old = Old::new(&row.store, &row.table);
    let mut buffer = [0; ROOM];
    let calls = 0..row.calls.round();
    let said: Vec<Said> = calls
        .map(|at| row.calls.one(at, &mut old, &mut buffer))
        .collect();
    let used = match said.last() {
        Some(&Said::Frame(used)) => used,
        _ => 0,
    };
    (said, buffer[..used].to_vec(), old)
}

#[test]
fn every_word_is_of_one_row() {
    let words: HashSet<String> = rows().iter().map(Row::word).collect();
    assert_eq!((words.len(), rows().len()), (22, 22));
    assert!(named("64/read").is_none());
}

#[test]
fn every_row_repeats() {
    for row in rows() {
        let mut old = Old::new(&row.store, &row.table);
        let mut new = StandIn::new(&row.store, &row.table);
        assert_eq!(agree(&row, &mut old, &mut new), Ok(()));
    }
}

#[test]
fn all_that_is_named_is_answered() {
    for (over, many) in [("4", 4), ("64", 64)] {
        let frame = |name: &str| made(&format!("{over}/{name}")).1;
        for (name, expected) in [("read-1", 1), ("read-10", 10)] {
            let records = read_reply(&frame(name)).expect("it is a reply");
            assert_eq!(records.len(), expected);
            assert!(records.iter().all(|record| record.status == 0));
        }
        let records = configuration_reply(&frame("read-configuration-10")).expect("it is a reply");
        assert_eq!(records.len(), 10);
        assert!(records.iter().all(|record| record.status == 0));
        let found = discover_reply(&frame("discover-64")).expect("it is a reply");
        assert_eq!((found.complete, found.attributes.len()), (true, many));
        let records = report_frame(&frame("report-10")).expect("it is a report");
        assert_eq!(records.len(), 10);
    }
}

#[test]
fn what_is_written_is_stored() {
    for over in ["4", "64"] {
        let word = format!("{over}/write-10");
        let (_, frame, old) = made(&word);
        assert_eq!(write_reply(&frame), Ok(Vec::new()), "no failures");
        let before = named(&word).expect("it is a row").store;
        assert_ne!(old.store(), before);
    }
}

/// All ten are answered from a full table, which stays as it is.
#[test]
fn over_a_full_table() {
    let row = named("full/configure-10").expect("it is a row");
    assert_eq!(row.table.len(), ENTRIES);
    let (_, frame, old) = made("full/configure-10");
    assert_eq!(configure_reply(&frame), Ok(Vec::new()), "no failures");
    assert_eq!(old.table(), Ok(unmarked(&row.table)));
    let (_, frame, _) = made("full/read-configuration-10");
    let records = configuration_reply(&frame).expect("it is a reply");
    assert_eq!(records.len(), 10);
    assert!(records.iter().all(|record| record.status == 0));
    // among the first ten, the last ten, and between
    let own = |entry: &Entry| entry.key.attribute < 0x4000;
    let places: Vec<usize> = (0..ENTRIES).filter(|&at| own(&row.table[at])).collect();
    assert_eq!(places.len(), 10);
    assert!(places[0] < 10 && places[9] >= ENTRIES - 10);
}

#[test]
fn configured_as_asked() {
    for over in ["4", "64"] {
        let (_, frame, old) = made(&format!("{over}/configure-10"));
        assert_eq!(configure_reply(&frame), Ok(Vec::new()), "no failures");
        let read = named(&format!("{over}/read-configuration-10")).expect("it is a row");
        assert_eq!(old.table(), Ok(unmarked(&read.table)));
    }
}

#[test]
fn refused_and_asked() {
    assert_eq!(made("64/refused").0, [Said::Refused; 5]);
    // of the marked ones, which are the even ones, five are due
    let due = [1, 3, 5, 6, 7, 8, 9, 10, 11, 12, 13, 14, 15];
    let expected: Vec<Said> = (0..16).map(|at| Said::Due(due.contains(&at))).collect();
    assert_eq!(made("table/ask").0, expected);
    assert_eq!(made("table/mark").0, [Said::Done; FORMER_ENTRIES]);
    assert_eq!(
        made("full/ask").0,
        expected.repeat(ENTRIES / FORMER_ENTRIES)
    );
    assert_eq!(made("full/mark").0, [Said::Done; ENTRIES]);
}
