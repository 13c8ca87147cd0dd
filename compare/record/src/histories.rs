//! Calls on the Rust's reporting table, from an empty one on, with every answer
//! and the table afterwards.

mod edges;

use cases::histories::kinds::{self, CALLS, Kinds};
use cases::histories::{Answer, Call, History};
use cases::{Random, hex};
use oracle::Table;
use reading::table::{Config, Entry, Key, SIGNED, SLOT, to_bytes};

use crate::rust::short;

/// A call of the list: how many entries there are is one too.
#[derive(Clone, Copy)]
enum Step {
    Call(Call),
    Len,
}

/// Random histories besides the edges.
const RANDOM: usize = 150;

pub fn lines() -> Result<(Vec<String>, Kinds), String> {
    let mut kinds = Kinds::default();
    let mut lines = Vec::new();
    for steps in edges::all() {
        let mut line = Line::default();
        for step in steps {
            line.give(step, &mut kinds)?;
        }
        lines.push(line.text());
    }
    let random = &mut Random::new(0x6d65_7468);
    for _ in 0..RANDOM {
        lines.push(at_random(random, &mut kinds)?);
    }
    let missing = kinds.missing(&CALLS);
    if !missing.is_empty() {
        return Err(format!("never reached: {}", missing.join("; ")));
    }
    Ok((lines, kinds))
}

fn at_random(random: &mut Random, kinds: &mut Kinds) -> Result<String, String> {
    let most = random.of(&[8, 20, 40, 80]);
    let length = 1 + random.below(most);
    let mut history = History::new(random);
    let mut line = Line::default();
    for _ in 0..length {
        let step = if random.one_in(16) {
            Step::Len
        } else {
            Step::Call(history.call(random, &line.entries))
        };
        line.give(step, kinds)?;
    }
    Ok(line.text())
}

/// A history so far.
#[derive(Default)]
struct Line {
    rust: Table,
    /// Document 01's table.
    entries: Vec<Entry>,
    calls: Vec<u8>,
    answers: Vec<u8>,
}

impl Line {
    /// One step more. An error where the Rust and document 01 answer or leave
    /// something else.
    fn give(&mut self, step: Step, kinds: &mut Kinds) -> Result<(), String> {
        let before = self.entries.clone();
        let theirs = match step {
            Step::Call(call) => answered(&call, &self.rust.call(&call)),
            Step::Len => vec![0, short(self.rust.count())],
        };
        let ours = self.document(step);
        self.calls.extend(encoded(step));
        self.answers.extend(&theirs);
        if ours != theirs || self.entries != self.rust.entries() {
            return Err(format!(
                "after the calls {}: document 01 {}, the Rust {}",
                hex(&self.calls),
                hex(&ours),
                hex(&theirs)
            ));
        }
        if let Step::Call(call) = step {
            let yes = Answer::yes(theirs[1] == 1);
            kinds.count(kinds::of(&before, &call, &yes));
        }
        Ok(())
    }

    /// Document 01's answer to a step.
    fn document(&mut self, step: Step) -> Vec<u8> {
        match step {
            Step::Call(call) => answered(&call, &call.document(&mut self.entries)),
            Step::Len => vec![0, short(self.entries.len())],
        }
    }

    /// The table is the Rust's, which is document 01's as well.
    fn text(&self) -> String {
        let entries = self.rust.entries();
        let table = &to_bytes(&entries)[..1 + SLOT * entries.len()];
        format!(
            "m {} {}{}",
            hex(&self.calls),
            hex(&self.answers),
            hex(table)
        )
    }
}

/// An answer in the list's form. All marks are those of the Rust: they are not
/// told. What is done without an answer is done.
fn answered(call: &Call, answer: &Answer) -> Vec<u8> {
    let [first, minimum, maximum, change, _] = answer.written;
    match call {
        Call::Configure(..) | Call::Ask(..) => vec![0, first.to_le_bytes()[0]],
        Call::Clear(_) | Call::Mark(..) => vec![0, 1],
        Call::Configuration(_) => {
            let config = Config {
                minimum: u16::try_from(minimum).expect("an interval"),
                maximum: u16::try_from(maximum).expect("an interval"),
                change,
                mark: SIGNED,
            };
            found((first == 1).then_some(config))
        }
    }
}

/// 00, 01 or 00 for a configuration or none, and its three numbers.
fn found(config: Option<Config>) -> Vec<u8> {
    let none = Config {
        minimum: 0,
        maximum: 0,
        change: 0,
        mark: SIGNED,
    };
    let numbers = settings(config.unwrap_or(none));
    [&[0, config.is_some().into()], &numbers[..]].concat()
}

fn settings(config: Config) -> Vec<u8> {
    let intervals = [config.minimum, config.maximum].map(u16::to_le_bytes);
    [&intervals.concat()[..], &config.change.to_le_bytes()].concat()
}

/// The operation, cluster, attribute, and twelve bytes.
fn encoded(step: Step) -> Vec<u8> {
    let (operation, key, more) = match step {
        Step::Call(Call::Configure(key, config)) => (0, Some(key), settings(config)),
        Step::Call(Call::Clear(key)) => (1, Some(key), vec![0; 12]),
        Step::Call(Call::Mark(key, now, value)) => (2, Some(key), report(now, value)),
        Step::Call(Call::Ask(key, now, value)) => (3, Some(key), report(now, value)),
        Step::Call(Call::Configuration(key)) => (4, Some(key), vec![0; 12]),
        Step::Len => (5, None, vec![0; 12]),
    };
    let none = Key {
        cluster: 0,
        attribute: 0,
    };
    let Key { cluster, attribute } = key.unwrap_or(none);
    let ids = [cluster, attribute].map(u16::to_le_bytes).concat();
    [&[operation], &ids[..], &more].concat()
}

fn report(now: u32, value: i64) -> Vec<u8> {
    [&now.to_le_bytes()[..], &value.to_le_bytes()].concat()
}

#[cfg(test)]
mod tests {
    use super::*;

    #[test]
    fn one_entry() {
        let key = Key {
            cluster: 0xfc21,
            attribute: 5,
        };
        let config = Config {
            minimum: 10,
            maximum: 60,
            change: 2,
            mark: SIGNED,
        };
        let calls = [
            Call::Configure(key, config),
            Call::Mark(key, 100, -5),
            Call::Ask(key, 110, -7),
            Call::Configuration(key),
        ];
        let mut line = Line::default();
        for step in calls.map(Step::Call).into_iter().chain([Step::Len]) {
            line.give(step, &mut Kinds::default()).expect("an answer");
        }
        let (id, settings) = ("21fc0500", "0a003c000200000000000000");
        let (marked, asked) = ("64000000fbffffffffffffff", "6e000000f9ffffffffffffff");
        let none = "00".repeat(12);
        let calls =
            format!("00{id}{settings} 02{id}{marked} 03{id}{asked} 04{id}{none} 0500000000{none}");
        let answers = format!("0001 0001 0001 0001{settings} 0001 01{id}{settings}0001{marked}");
        let expected = [calls, answers].map(|field| field.replace(' ', ""));
        assert_eq!(line.text(), format!("m {}", expected.join(" ")));
    }
}
