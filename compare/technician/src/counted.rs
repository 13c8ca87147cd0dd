//! How many frames of each command went how.

use std::collections::HashMap;

use cases::Difference;

use crate::commands::Command;
use crate::sides::Ran;
use crate::verdict::Verdict;

/// So many unlisted differences are shown whole.
const SHOWN: usize = 10;

/// The frames of one command, or of all.
#[derive(Debug, Clone, Default, PartialEq, Eq)]
pub struct Row {
    pub frames: usize,
    pub equal: usize,
    pub listed: HashMap<Difference, usize>,
    pub no_counterpart: usize,
    pub unlisted: usize,
}

#[derive(Default)]
pub struct Counted {
    rows: [Row; Command::ALL.len()],
    /// The first unlisted differences, whole.
    pub shown: Vec<String>,
}

impl Row {
    pub const HEAD: [&'static str; 6] = [
        "command",
        "frames",
        "equal",
        "differ as listed",
        "no counterpart",
        "differ otherwise",
    ];

    pub fn all_listed(&self) -> usize {
        self.listed.values().sum()
    }

    /// As HEAD has it.
    pub fn cells(&self, name: &str) -> Vec<String> {
        let numbers = [
            self.frames,
            self.equal,
            self.all_listed(),
            self.no_counterpart,
            self.unlisted,
        ];
        let numbers = numbers.map(|number| number.to_string());
        [name.to_owned()].into_iter().chain(numbers).collect()
    }

    fn count(&mut self, verdict: &Verdict) {
        self.frames += 1;
        match verdict {
            Verdict::Equal => self.equal += 1,
            Verdict::Listed(difference) => *self.listed.entry(*difference).or_default() += 1,
            Verdict::NoCounterpart => self.no_counterpart += 1,
            Verdict::Unlisted(_) => self.unlisted += 1,
        }
    }

    fn add(&mut self, other: &Self) {
        self.frames += other.frames;
        self.equal += other.equal;
        for (&difference, many) in &other.listed {
            *self.listed.entry(difference).or_default() += many;
        }
        self.no_counterpart += other.no_counterpart;
        self.unlisted += other.unlisted;
    }
}

impl Counted {
    pub fn count(&mut self, ran: &Ran) {
        let verdict = ran.verdict();
        let command = Command::of(&ran.frame.case.request);
        let place = Command::ALL.iter().position(|&one| one == command);
        self.rows[place.expect("every command has its row")].count(&verdict);
        if let Verdict::Unlisted(text) = verdict
            && self.shown.len() < SHOWN
        {
            self.shown.push(text);
        }
    }

    /// Each command with its row.
    pub fn rows(&self) -> impl Iterator<Item = (Command, &Row)> {
        Command::ALL.into_iter().zip(&self.rows)
    }

    pub fn all(&self) -> Row {
        let mut all = Row::default();
        self.rows.iter().for_each(|row| all.add(row));
        all
    }

    /// How often each listed difference came, by command: where it came.
    pub fn listed(&self) -> Vec<(Command, Difference, usize)> {
        let mut listed = Vec::new();
        for (command, row) in self.rows() {
            let came = Difference::all().filter_map(|one| Some((one, *row.listed.get(&one)?)));
            listed.extend(came.map(|(one, many)| (command, one, many)));
        }
        listed
    }
}
