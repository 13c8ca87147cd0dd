//! Frames that are given to all seven readers, ours and the reading's.

use cases::hex;
use cases::kinds::{Kinds, of_readings};
use ours::{Driver, Held, Row, wrong_rows};
use reading::replies::Readings;

use crate::counted::Counted;
use crate::rows::rows;

/// So many are given to ours at a time.
const BATCH: usize = 1000;

pub struct Frames {
    pub driver: Driver,
    pub kinds: Kinds,
    pub counted: Counted,
    waiting: Vec<(Vec<u8>, Vec<Row>)>,
}

impl Frames {
    pub fn new(driver: Driver) -> Self {
        Self {
            driver,
            kinds: Kinds::default(),
            counted: Counted::default(),
            waiting: Vec::new(),
        }
    }

    /// Gives a frame to the reading; ours has its turn later.
    pub fn give(&mut self, frame: &[u8]) -> Result<Readings, String> {
        let readings = Readings::of(frame);
        self.counted.count(&readings);
        self.kinds
            .count(&of_readings(frame, &readings))
            .map_err(|trouble| format!("{trouble}: {}", hex(frame)))?;
        self.waiting.push((frame.to_vec(), rows(&readings)));
        if self.waiting.len() >= BATCH {
            self.compare()?;
        }
        Ok(readings)
    }

    /// Gives ours all frames that wait. An error at the first of which it says
    /// otherwise.
    pub fn compare(&mut self) -> Result<(), String> {
        let waiting = std::mem::take(&mut self.waiting);
        let held: Vec<Held> = waiting
            .iter()
            .map(|(frame, rows)| Held::read(frame, rows))
            .collect();
        let Some((at, trouble)) = self.driver.first_wrong(&held)? else {
            return Ok(());
        };
        let (frame, rows) = &waiting[at];
        let said = match self.driver.answer(&held[at].call) {
            Ok(answer) => wrong_rows(rows, &answer).join("\n  "),
            Err(_) => trouble,
        };
        Err(format!("a disagreement on {}\n  {said}", hex(frame)))
    }
}
