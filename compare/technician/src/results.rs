//! All that a run gave.

use std::fmt::Write;

use crate::counted::{Counted, Row};
use crate::counter::Counter;
use crate::listed::Listed;
use crate::sides::Ran;

pub struct Results {
    /// What makes them again.
    pub command: String,
    pub counted: Counted,
    pub counters: Vec<Counter>,
    pub listed: Vec<Listed>,
    pub buffers: [(&'static str, Ran); 2],
}

impl Results {
    /// Whatever is not equal and not listed: of the frames, and of those that
    /// the page shows besides.
    pub fn troubles(&self) -> Vec<String> {
        let counters = self.counters.iter().filter_map(Counter::trouble);
        let listed = self.listed.iter().filter_map(Listed::trouble);
        let shown = self.counted.shown.iter().cloned();
        shown.chain(counters).chain(listed).collect()
    }

    /// In plain text: a line for each command, and for each listed difference.
    pub fn table(&self) -> String {
        let mut text = line(&Row::HEAD.map(str::to_owned));
        for (command, row) in self.counted.rows() {
            text += &line(&row.cells(command.name()));
        }
        text += &line(&self.counted.all().cells("all"));
        for (command, difference, many) in self.counted.listed() {
            let _ = writeln!(text, "{many:9}  {}: {}", command.name(), difference.name());
        }
        text
    }
}

fn line(cells: &[String]) -> String {
    let (name, numbers) = cells.split_first().expect("a name");
    let numbers: String = numbers.iter().map(|cell| format!("  {cell:>16}")).collect();
    format!("{name:32}{numbers}\n")
}
