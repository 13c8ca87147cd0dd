//! The Rust's table and that of the documents, and what ours is held to by them.

use std::fmt::Write;

use cases::histories::middle::{passed, without_marks};
use cases::histories::{Answer, Call, settings, shown};
use cases::unmarked;
use ours::Held;
use reading::table::{Entry, to_bytes};

use crate::call::{leaving, on};
use crate::former::Former;

pub struct Table {
    rust: oracle::Table,
    /// The Rust's with the limit of before.
    former: Former,
    /// By the documents. They are the Rust's but for the marks, which it does not
    /// have.
    entries: Vec<Entry>,
    /// What ours is lent. What it leaves is held to be the bytes of the entries,
    /// so they are its own.
    bytes: Vec<u8>,
}

/// A call that was made.
pub struct Given {
    pub before: Vec<Entry>,
    pub answer: Answer,
    /// The Rust's; nothing to a mark that it cannot be given.
    pub rust: Option<Answer>,
    /// Whether the Rust's table with the limit of before was given it too.
    pub former: bool,
    pub held: Held,
}

impl Table {
    pub fn new() -> Self {
        Self {
            rust: oracle::Table::default(),
            former: Former::new(),
            entries: Vec::new(),
            bytes: to_bytes(&[]),
        }
    }

    /// From a table's bytes.
    pub fn of(bytes: &[u8], entries: Vec<Entry>) -> Self {
        Self {
            rust: oracle::Table::of(&entries),
            former: Former::none(),
            entries,
            bytes: bytes.to_vec(),
        }
    }

    pub fn entries(&self) -> &[Entry] {
        &self.entries
    }

    pub fn bytes(&self) -> &[u8] {
        &self.bytes
    }

    /// Whether it had more entries at once than there was room for before.
    pub fn passed(&self) -> bool {
        self.former.passed()
    }

    /// Gives the Rust the call: ours is to say what the documents say, and to
    /// leave the bytes of their table. An error where the Rust says or leaves
    /// otherwise, but for the listed difference.
    pub fn give(&mut self, call: &Call) -> Result<Given, String> {
        let before = self.entries.clone();
        let lent = self.bytes.clone();
        let answer = call.document(&mut self.entries);
        self.bytes = to_bytes(&self.entries);
        let rust = (answer != Answer::NO_MARK).then(|| self.rust.call(call));
        let mut former = false;
        if let Some(rust) = &rust {
            self.stands(&before, call, &answer, rust)?;
            former = self.former.give(call, rust, || self.rust.entries())?;
        }
        let held = Held {
            call: on(call, &lent),
            answer: leaving(answer, &self.bytes),
        };
        Ok(Given {
            before,
            answer,
            rust,
            former,
            held,
        })
    }

    /// An error where the Rust says or leaves anything but what document 01 says,
    /// which has no marks, or where that is not what the documents say and the call
    /// is not under the listed difference.
    fn stands(
        &self,
        before: &[Entry],
        call: &Call,
        answer: &Answer,
        rust: &Answer,
    ) -> Result<(), String> {
        let lets = without_marks(before, call);
        let same = match call {
            // of a configuration it tells no mark
            Call::Configuration(_) => answer.written[..4] == rust.written[..4],
            _ => answer == rust,
        };
        if lets == (*rust, self.rust.entries())
            && lets.1 == unmarked(&self.entries)
            && (same || passed(before, call))
        {
            return Ok(());
        }
        Err(format!(
            "the Rust answers {rust:?} and leaves\n{}but by the documents it is {answer:?} and\n{}",
            list(&self.rust.entries()),
            list(&self.entries)
        ))
    }
}

/// A table, an entry a line.
pub fn list(entries: &[Entry]) -> String {
    let mut list = format!("  {} entries\n", entries.len());
    for entry in entries {
        let last = entry.last.map_or("never reported".to_owned(), |last| {
            format!("reported at {} {}", last.0, last.1)
        });
        let config = settings(entry.config);
        let _ = writeln!(list, "  {} {config} {last}", shown(entry.key));
    }
    list
}

#[cfg(test)]
mod tests {
    use cases::histories::middle::moving;
    use reading::table::{Config, Key, SIGNED, UNSIGNED};

    use super::*;

    /// Configured with this mark and change, reported, and asked: what the
    /// documents say, and the Rust.
    fn asked(mark: u8, change: u64, [reported, value]: [i64; 2]) -> [Answer; 2] {
        let [configure, report, ask] = moving(mark, change, reported, value);
        let mut table = Table::new();
        for call in [configure, report] {
            table.give(&call).expect("the Rust does so too");
        }
        let given = table.give(&ask).expect("it is listed");
        [given.answer, given.rust.expect("it is asked")]
    }

    #[test]
    fn the_listed_difference() {
        let [no, yes] = [false, true].map(Answer::yes);
        let (to_the_top, over_the_middle) = ([0, -1], [i64::MAX, i64::MIN]);
        assert_eq!(asked(UNSIGNED, 2, to_the_top), [yes, no]);
        assert_eq!(asked(UNSIGNED, 2, over_the_middle), [no, yes]);
        assert_eq!(asked(SIGNED, 2, to_the_top), [no; 2]);
        assert_eq!(asked(SIGNED, 2, over_the_middle), [yes; 2]);
        for change in [0, 1] {
            assert_eq!(asked(UNSIGNED, change, to_the_top), [yes; 2]);
            assert_eq!(asked(UNSIGNED, change, over_the_middle), [yes; 2]);
        }
    }

    /// What the Rust says is held to: an answer that it may not give is an error,
    /// under the listed difference too.
    #[test]
    fn an_answer_that_is_not_let() {
        let [no, yes] = [false, true].map(Answer::yes);
        for (mark, value, document, rust) in [
            (UNSIGNED, -1, yes, no),
            (UNSIGNED, 5, yes, yes),
            (UNSIGNED, 1, no, no),
            (SIGNED, -1, no, no),
            (SIGNED, -2, yes, yes),
        ] {
            let [configure, report, ask] = moving(mark, 2, 0, value);
            let mut table = Table::new();
            for call in [configure, report] {
                table.give(&call).expect("the Rust does so too");
            }
            let before = table.entries().to_vec();
            for said in [no, yes] {
                let stands = table.stands(&before, &ask, &document, &said);
                assert_eq!(stands.is_ok(), said == rust, "{mark} {value} {said:?}");
            }
        }
    }

    #[test]
    fn marks_that_are_none() {
        let key = Key {
            cluster: 0xfc21,
            attribute: 5,
        };
        let config = Config {
            minimum: 0,
            maximum: 60,
            change: 2,
            mark: 2,
        };
        let mut table = Table::new();
        let given = table.give(&Call::Configure(key, config));
        let given = given.expect("it is not asked");
        assert_eq!((given.answer, given.rust), (Answer::NO_MARK, None));
        assert_eq!(table.entries(), []);
    }
}
