//! How often each kind of call came.

use std::collections::{BTreeSet, HashMap};

use reading::commands::Answer;
use reading::saved::{self, Fault, length, old_length};
use reading::table::{Broken, ENTRIES, Entry, FORMER_ENTRIES, UNSIGNED, entries};

/// What may be wrong with a table that is not written,
const UNWRITTEN: [Fault; 4] = [
    Fault::Repeated,
    Fault::NoReports,
    Fault::Neither,
    Fault::Crossed,
];

/// and besides with bytes that are not a saved form.
const UNREAD: [Fault; 4] = [Fault::Length, Fault::Count, Fault::Offset, Fault::Mark];

const SAVED: [&str; 2] = [
    "save 0: a buffer of the form's length",
    "save 0: a longer buffer",
];

const TOO_SHORT: [&str; 3] = [
    "save 5: no buffer at all",
    "save 5: a byte short",
    "save 5: shorter",
];

/// Where another refusal would be due as well.
const TABLE_FIRST: &str = "save 8: before 5";
const FORM_FIRST: &str = "save 13: before 5";

const RESTORED: [&str; 4] = [
    "restore 0: over a table with last reports",
    "restore 0: over a table without any",
    "restore 0: over an empty table",
    "restore 0: over bytes that are no table",
];

/// By what is told of the marks.
const MARKED: [&str; 3] = [
    "restore 0: a form with a mark of 1",
    "restore 0: a form with marks of 0 alone",
    "restore 0: a form without marks, read as signed",
];

/// By what a box says whose tables have room for sixteen: document 02, request 7.
const FORMER: [&str; 2] = [
    "restore 0: a form that a box of before reads alike",
    "restore 0: a form to which a box of before says 13, for its count",
];

const OTHER_LENGTH: [&str; 2] = ["restore 8: a saved form", "restore 8: before 13"];

const EMPTIED: [&str; 3] = [
    "restore 13: a table with entries becomes empty",
    "restore 13: an empty table stays so",
    "restore 13: bytes that are no table become empty",
];

/// The two sentences of the request.
pub const READ_BACK: [&str; 2] = [
    "saved, then restored: the same table, which had last reports",
    "saved, then restored: the same table, which had none",
];
pub const SAME_BYTES: &str = "restored, then saved: the same bytes";
/// and of request 6.
pub const NEW_BYTES: &str = "restored, then saved: a form without marks gets marks of 0";

pub struct Counted {
    counts: HashMap<String, usize>,
    /// How many entries the forms had.
    forms: BTreeSet<usize>,
    /// And those without marks.
    old_forms: BTreeSet<usize>,
}

impl Counted {
    pub fn new() -> Self {
        Self {
            counts: lines().into_iter().map(|line| (line, 0)).collect(),
            forms: BTreeSet::new(),
            old_forms: BTreeSet::new(),
        }
    }

    pub fn count(&mut self, line: &str) {
        let count = self.counts.get_mut(line);
        *count.unwrap_or_else(|| panic!("there is no line for {line}")) += 1;
    }

    pub fn save(&mut self, table: &[u8], room: usize, answer: &Answer) {
        let held = match entries(table) {
            Ok(held) => held,
            Err(broken) => {
                self.count(&no_table(broken));
                if room == 0 {
                    self.count(TABLE_FIRST);
                }
                return;
            }
        };
        let needed = length(held.len());
        if let Err(fault) = saved::write(&held) {
            self.count(&not_written(fault));
            if room < needed {
                self.count(FORM_FIRST);
            }
        } else if answer.number == 0 {
            self.forms.insert(held.len());
            self.count(SAVED[usize::from(room > needed)]);
        } else {
            self.count(match needed - room {
                _ if room == 0 => TOO_SHORT[0],
                1 => TOO_SHORT[1],
                _ => TOO_SHORT[2],
            });
        }
    }

    pub fn restore(&mut self, before: &[u8], form: &[u8], number: u8) {
        let read = saved::read(form);
        if number == 8 {
            self.count(OTHER_LENGTH[usize::from(read.is_err())]);
            return;
        }
        let before = entries(before);
        match read {
            Ok(read) => {
                self.count(match before {
                    Err(_) => RESTORED[3],
                    Ok(held) if held.is_empty() => RESTORED[2],
                    Ok(held) => RESTORED[usize::from(!reported(&held))],
                });
                self.marks(&read, form);
                self.former(&read, form);
            }
            Err(fault) => {
                self.count(&not_read(fault));
                self.count(match before {
                    Err(_) => EMPTIED[2],
                    Ok(held) => EMPTIED[usize::from(held.is_empty())],
                });
            }
        }
    }

    /// Of a form that was read as these entries.
    fn marks(&mut self, read: &[Entry], form: &[u8]) {
        if is_old(form) {
            self.old_forms.insert(read.len());
            self.count(MARKED[2]);
        } else if !read.is_empty() {
            let unsigned = |entry: &Entry| entry.config.mark == UNSIGNED;
            self.count(MARKED[usize::from(!read.iter().any(unsigned))]);
        }
    }

    /// Of a form that was read as these entries.
    fn former(&mut self, read: &[Entry], form: &[u8]) {
        let line = match saved::read_within(FORMER_ENTRIES, form) {
            Ok(former) if former == read => FORMER[0],
            Err(Fault::Count) if read.len() > FORMER_ENTRIES => FORMER[1],
            other => panic!("a box of before reads {other:?}"),
        };
        self.count(line);
    }

    /// A line for each kind.
    pub fn list(&self) -> String {
        let line = |line: String| format!("{:9}  {line}\n", self.counts[&line]);
        let lines: String = lines().into_iter().map(line).collect();
        let (here, all) = (self.forms.len(), ENTRIES + 1);
        let old = self.old_forms.len();
        lines
            + &format!("{here:9}  numbers of entries in forms, of {all}\n")
            + &format!("{old:9}  numbers of entries in forms without marks, of {ENTRIES}\n")
    }

    /// What must come and never came.
    pub fn never(&self) -> Vec<String> {
        let lines = lines().into_iter().filter(|line| self.counts[line] == 0);
        let forms = (0..=ENTRIES).filter(|entries| !self.forms.contains(entries));
        let old = (1..=ENTRIES).filter(|entries| !self.old_forms.contains(entries));
        lines
            .chain(forms.map(|entries| format!("a form of {entries} entries")))
            .chain(old.map(|entries| format!("a form of {entries} entries without marks")))
            .collect()
    }
}

/// Whether bytes have the length of a form without marks, of the entries that
/// they tell. A form of none is the same with and without.
pub fn is_old(form: &[u8]) -> bool {
    form.len() > 1 && form.len() == old_length(form[0].into())
}

/// Whether one of them has a last report.
pub fn reported(held: &[Entry]) -> bool {
    held.iter().any(|entry| entry.last.is_some())
}

/// All lines, in the order in which they are printed.
fn lines() -> Vec<String> {
    let owned = |lines: &[&str]| lines.iter().map(|&line| line.to_owned()).collect();
    let lines: [Vec<String>; 13] = [
        owned(&SAVED),
        owned(&TOO_SHORT),
        Broken::ALL.map(no_table).to_vec(),
        owned(&[TABLE_FIRST]),
        UNWRITTEN.map(not_written).to_vec(),
        owned(&[FORM_FIRST]),
        owned(&RESTORED),
        owned(&MARKED),
        owned(&FORMER),
        owned(&OTHER_LENGTH),
        UNREAD.into_iter().chain(UNWRITTEN).map(not_read).collect(),
        owned(&EMPTIED),
        owned(&[READ_BACK[0], READ_BACK[1], SAME_BYTES, NEW_BYTES]),
    ];
    lines.concat()
}

fn no_table(broken: Broken) -> String {
    let why = match broken {
        Broken::Length => "another length",
        Broken::Count => "count above the limit",
        Broken::Unused => "slot past the count",
        Broken::Mark => "mark",
        Broken::Flag => "flag",
        Broken::Unreported => "time or value under flag 0",
    };
    format!("save 8: {why}")
}

fn not_written(fault: Fault) -> String {
    format!("save 13: {}", why(fault))
}

fn not_read(fault: Fault) -> String {
    format!("restore 13: {}", why(fault))
}

fn why(fault: Fault) -> &'static str {
    match fault {
        Fault::Length => "another length",
        Fault::Count => "count above the limit",
        Fault::Offset => "an offset that does not follow on",
        Fault::Mark => "a mark that is neither 0 nor 1",
        Fault::Repeated => "a key twice",
        Fault::NoReports => "maximum ffff",
        Fault::Neither => "maximum 0 with minimum ffff",
        Fault::Crossed => "maximum below minimum",
    }
}

#[cfg(test)]
mod tests {
    use super::*;

    #[test]
    fn what_never_came_is_named() {
        let mut counted = Counted::new();
        assert_eq!(counted.never().len(), lines().len() + 2 * ENTRIES + 1);
        for line in lines() {
            counted.count(&line);
        }
        assert_eq!(counted.never().len(), 2 * ENTRIES + 1);
        counted.forms = (0..=ENTRIES).collect();
        assert_eq!(counted.never().len(), ENTRIES);
        counted.old_forms = (1..=ENTRIES).collect();
        assert!(counted.never().is_empty());
        let line = &lines()[7];
        counted.counts.insert(line.clone(), 0);
        assert_eq!(counted.never(), std::slice::from_ref(line));
    }

    #[test]
    fn each_line_once() {
        let all: BTreeSet<String> = lines().into_iter().collect();
        assert_eq!(all.len(), lines().len());
    }
    #[test]
    #[should_panic(expected = "no line")]
    fn other_lines_are_not_counted() {
        Counted::new().count("any");
    }
}
