//! How many frames each reader read and refused, and how many records it gave.

use std::collections::HashMap;

use cases::kinds::READERS;
use reading::replies::{Read, Readings};

/// What a reader may say.
const NUMBERS: [u8; 4] = [0, 2, 4, 10];

#[derive(Default)]
pub struct Counted {
    pub frames: usize,
    said: HashMap<(&'static str, u8), usize>,
    records: HashMap<&'static str, usize>,
}

impl Counted {
    pub fn count(&mut self, readings: &Readings) {
        self.frames += 1;
        for (reader, number) in READERS.into_iter().zip(readings.numbers()) {
            *self.said.entry((reader, number)).or_default() += 1;
        }
        for (reader, records) in READERS.into_iter().zip(records(readings)) {
            *self.records.entry(reader).or_default() += records;
        }
    }

    /// A line for each reader.
    pub fn list(&self) -> String {
        let line = |reader| {
            let said = NUMBERS.map(|number| format!("{number}: {:6}", self.said(reader, number)));
            let records = self.records[reader];
            format!("{reader:19}  {}, records: {records}\n", said.join(", "))
        };
        READERS.into_iter().map(line).collect()
    }

    fn said(&self, reader: &'static str, number: u8) -> usize {
        self.said.get(&(reader, number)).copied().unwrap_or(0)
    }

    /// What never came.
    pub fn missing(&self) -> Vec<String> {
        let pairs = READERS.map(|reader| NUMBERS.map(|number| (reader, number)));
        let never = pairs.into_iter().flatten().filter(|&(reader, number)| {
            self.said(reader, number) == 0 || self.records.get(reader).is_none_or(|&n| n == 0)
        });
        never
            .map(|(reader, number)| format!("{reader}: {number}, with records"))
            .collect()
    }
}

/// How many records each gives; a Default Response is one.
fn records(readings: &Readings) -> [usize; 7] {
    [
        of(&readings.read, Vec::len),
        of(&readings.write, Vec::len),
        of(&readings.configure, Vec::len),
        of(&readings.configuration, Vec::len),
        of(&readings.discover, |found| found.attributes.len()),
        of(&readings.default_response, |_| 1),
        of(&readings.report, Vec::len),
    ]
}

fn of<T>(read: &Read<T>, count: impl Fn(&T) -> usize) -> usize {
    read.as_ref().map_or(0, count)
}
