//! How often each kind of call came.

use std::collections::BTreeMap;

use reading::commands::Turned;
use reading::store::{cluster_of, find, is_store, number, value};
use reading::table::{Broken, Entry, Key, entries, place};

use crate::given::Given;

/// What was written of what was due,
const ALL_WRITTEN: &str = "0: all that was due";
const SOME_LEFT_OUT: &str = "0: some left out";
const EXACT: &str = "0: a buffer of the frame's length";
const LONGER: &str = "0: a longer buffer";
const WENT_ROUND: &str = "0: went round";
const NO_NUMBER: &str = "0: a value without a number";
const ONCE: &str = "0: an id once, whose key stands twice";
const GONE: &str = "0: passed over, as the attribute is gone";
const NOT_REPORTABLE: &str = "0: passed over, as it is not reportable";
const NOT_DUE: &str = "0: passed over, as it is not due";
const OTHER_CLUSTER: &str = "0: the id has an entry of another cluster too";

/// by the id that was handed in,
const FROM: [&str; 6] = [
    "0: from none, 10000",
    "0: from none, a number above",
    "0: from an id that is due",
    "0: from an id above all that are due",
    "0: from an id below all that are due",
    "0: from an id between",
];

/// and why nothing was.
const HEADER: [&str; 3] = [
    "5 for the header: no buffer at all",
    "5 for the header: one byte",
    "5 for the header: two bytes",
];
const HEADER_FIRST: &str = "5 for the header: before 6";
const A_BYTE_SHORT: &str = "5 for the first record: a byte short";
const SHORTER: &str = "5 for the first record: shorter";
const ANOTHER_FITS: &str = "5 for the first record: another would fit";
const NOTHING: [&str; 3] = [
    "6: no entry of the cluster",
    "6: every attribute is gone or not reportable",
    "6: none is due yet",
];
const IN_THREE_BYTES: &str = "6: in a buffer of three bytes";
const NO_STORE: &str = "7";
const STORE_FIRST: [&str; 2] = ["7: before 8", "7: before 5"];
const TABLE_FIRST: &str = "8: before 5";

/// What happens between turns.
pub const CONFIGURES: [&str; 2] = ["configured: no room", "configured"];
pub const CLEARED: &str = "cleared";
pub const ASKS: [&str; 2] = ["asked: no", "asked: yes"];
pub const REQUESTS: [&str; 4] = ["request 02", "request 03", "request 05", "request 06"];
pub const BACK: &str = "the clock goes back";

/// The two promises: how often they held, and how often with nothing to spare.
pub const FAIR: &str = "found due in n turns in a row at most, then written";
pub const FAIR_AT_LAST: &str = "written in the last of n turns that found it due";
pub const APART: &str = "two reports, at least m and at most M+nG-1 seconds apart";
pub const LEAST_APART: &str = "two reports, m seconds apart";
pub const MOST_APART: &str = "two reports, M+nG-1 seconds apart";
pub const TIMED: &str = "found due or not, as timed from the last report";

pub struct Counted {
    counts: BTreeMap<&'static str, usize>,
    /// Turns of all kinds.
    pub turns: usize,
}

impl Counted {
    pub fn new() -> Self {
        Self {
            counts: lines().into_iter().map(|line| (line, 0)).collect(),
            turns: 0,
        }
    }

    pub fn count(&mut self, line: &str) {
        let count = self.counts.get_mut(line);
        *count.unwrap_or_else(|| panic!("there is no line for {line}")) += 1;
    }

    fn count_if(&mut self, came: bool, line: &str) {
        if came {
            self.count(line);
        }
    }

    pub fn turn(&mut self, given: &Given, turned: &Turned) {
        self.turns += 1;
        let table = entries(&given.table);
        if !is_store(&given.store) {
            self.count(NO_STORE);
            self.count_if(table.is_err(), STORE_FIRST[0]);
            self.count_if(given.room < 3, STORE_FIRST[1]);
            return;
        }
        let table = match table {
            Ok(table) => table,
            Err(broken) => {
                self.count(no_table(broken));
                self.count_if(given.room < 3, TABLE_FIRST);
                return;
            }
        };
        let due = given.turn().found_due(&table);
        match turned.answer.number {
            0 => self.sent(given, turned, &table, &due),
            5 if given.room < 3 => {
                self.count(HEADER[given.room]);
                self.count_if(due.is_empty(), HEADER_FIRST);
            }
            5 => self.first_record(given, &due),
            6 => self.nothing(given, &table),
            number => panic!("a turn does not say {number}"),
        }
    }

    fn sent(&mut self, given: &Given, turned: &Turned, table: &[Entry], due: &[u16]) {
        let written = due.iter().take_while(|&&id| turned.last != u32::from(id));
        let (written, left_out) = due.split_at(written.count() + 1);
        self.count(match left_out {
            [] => ALL_WRITTEN,
            _ => SOME_LEFT_OUT,
        });
        self.count(match turned.answer.reply.len() {
            length if length == given.room => EXACT,
            _ => LONGER,
        });
        self.count(from(given.last, due));
        self.count_if(!written.is_sorted(), WENT_ROUND);
        let numberless = |&id: &u16| number(&given.store, id).is_err();
        self.count_if(written.iter().any(numberless), NO_NUMBER);
        self.passed_over(given, table, due);
        self.others(given, table, written);
    }

    /// Of the entries of the cluster that are not due.
    fn passed_over(&mut self, given: &Given, table: &[Entry], due: &[u16]) {
        for id in own(given, table) {
            match find(&given.store, id) {
                None => self.count(GONE),
                Some(attribute) if attribute.access & 2 == 0 => self.count(NOT_REPORTABLE),
                Some(_) => self.count_if(!due.contains(&id), NOT_DUE),
            }
        }
    }

    /// Of other entries with an id that was written.
    fn others(&mut self, given: &Given, table: &[Entry], written: &[u16]) {
        let cluster = cluster_of(&given.store).expect("a store");
        for (at, Entry { key, .. }) in table.iter().enumerate() {
            if written.contains(&key.attribute) {
                self.count_if(key.cluster != cluster, OTHER_CLUSTER);
                let twice = key.cluster == cluster && place(table, *key) != Some(at);
                self.count_if(twice, ONCE);
            }
        }
    }

    fn first_record(&mut self, given: &Given, due: &[u16]) {
        let needed = |&id: &u16| 3 + 3 + value(&given.store, id).expect("it is due").len();
        self.count(match needed(&due[0]) - given.room {
            1 => A_BYTE_SHORT,
            _ => SHORTER,
        });
        let fits = |id: &u16| needed(id) <= given.room;
        self.count_if(due.iter().any(fits), ANOTHER_FITS);
    }

    fn nothing(&mut self, given: &Given, table: &[Entry]) {
        let ids = own(given, table);
        let reportable = |&id: &u16| {
            let attribute = find(&given.store, id);
            attribute.is_some_and(|attribute| attribute.access & 2 != 0)
        };
        self.count(match ids.iter().any(reportable) {
            _ if ids.is_empty() => NOTHING[0],
            false => NOTHING[1],
            true => NOTHING[2],
        });
        self.count_if(given.room == 3, IN_THREE_BYTES);
    }

    /// A line for each kind.
    pub fn list(&self) -> String {
        let line = |line| format!("{:9}  {line}\n", self.counts[line]);
        lines().into_iter().map(line).collect()
    }

    /// What must come and never came.
    pub fn never(&self) -> Vec<&'static str> {
        let never = |line: &&str| self.counts[line] == 0;
        lines().into_iter().filter(never).collect()
    }

    pub fn of(&self, line: &str) -> usize {
        self.counts[line]
    }
}

/// The ids of the entries of the store's cluster.
fn own(given: &Given, table: &[Entry]) -> Vec<u16> {
    let own = cluster_of(&given.store).expect("a store");
    let id = |entry: &Entry| {
        let Key { cluster, attribute } = entry.key;
        (cluster == own).then_some(attribute)
    };
    table.iter().filter_map(id).collect()
}

/// Where the ids that are due start.
fn from(last: u32, due: &[u16]) -> &'static str {
    let ids = || due.iter().map(|&id| u32::from(id));
    match last {
        0x10000 => FROM[0],
        0x10001.. => FROM[1],
        _ if ids().any(|id| id == last) => FROM[2],
        _ if ids().all(|id| id < last) => FROM[3],
        _ if ids().all(|id| id > last) => FROM[4],
        _ => FROM[5],
    }
}

fn no_table(broken: Broken) -> &'static str {
    match broken {
        Broken::Length => "8: another length",
        Broken::Count => "8: a count above the most",
        Broken::Unused => "8: slot past the count",
        Broken::Mark => "8: mark",
        Broken::Flag => "8: flag",
        Broken::Unreported => "8: time or value under flag 0",
    }
}

/// All lines, in the order in which they are printed.
fn lines() -> Vec<&'static str> {
    let some = [ALL_WRITTEN, SOME_LEFT_OUT, EXACT, LONGER, WENT_ROUND];
    let passed = [GONE, NOT_REPORTABLE, NOT_DUE, OTHER_CLUSTER];
    let short = [HEADER_FIRST, A_BYTE_SHORT, SHORTER, ANOTHER_FITS];
    let lines: [&[&str]; 16] = [
        &some,
        &FROM,
        &[NO_NUMBER, ONCE],
        &passed,
        &HEADER,
        &short,
        &NOTHING,
        &[IN_THREE_BYTES, NO_STORE],
        &STORE_FIRST,
        &Broken::ALL.map(no_table),
        &[TABLE_FIRST],
        &CONFIGURES,
        &[CLEARED, BACK],
        &ASKS,
        &REQUESTS,
        &[FAIR, FAIR_AT_LAST, TIMED, APART, LEAST_APART, MOST_APART],
    ];
    lines.concat()
}

#[cfg(test)]
mod tests {
    use super::*;
    use std::collections::BTreeSet;

    #[test]
    fn what_never_came_is_named() {
        let mut counted = Counted::new();
        assert_eq!(counted.never(), lines());
        for line in lines() {
            counted.count(line);
        }
        assert!(counted.never().is_empty());
        counted.counts.insert(WENT_ROUND, 0);
        assert_eq!(counted.never(), [WENT_ROUND]);
    }

    #[test]
    fn each_line_once() {
        let all: BTreeSet<&str> = lines().into_iter().collect();
        assert_eq!(all.len(), lines().len());
    }

    #[test]
    #[should_panic(expected = "no line")]
    fn other_lines_are_not_counted() {
        Counted::new().count("any");
    }

    #[test]
    fn where_a_turn_starts() {
        let due = [3, 5, 9];
        for (last, line) in [
            (0x10000, FROM[0]),
            (0x10003, FROM[1]),
            (5, FROM[2]),
            (10, FROM[3]),
            (2, FROM[4]),
            (4, FROM[5]),
        ] {
            assert_eq!(from(last, &due), line);
        }
    }
}
