//! A turn with all that it is handed.

use ours::Answer;
use reading::commands::{Turn, Turned};

#[derive(Debug, Clone)]
pub struct Given {
    pub store: Vec<u8>,
    pub table: Vec<u8>,
    pub sequence: u8,
    pub now: u32,
    pub last: u32,
    pub room: usize,
}

impl Given {
    pub fn turn(&self) -> Turn<'_> {
        Turn {
            store: &self.store,
            sequence: self.sequence,
            now: self.now,
            last: self.last,
            room: self.room,
        }
    }

    /// What comes of it by the reading, and the table that it leaves.
    pub fn document(&self) -> (Turned, Vec<u8>) {
        let mut table = self.table.clone();
        let turned = self.turn().lent(&mut table);
        (turned, table)
    }

    pub fn on_ours(&self) -> ours::Call {
        ours::Call::report_turn(&self.turn(), &self.table)
    }

    /// What can be seen of it where this comes of it: the number, the frame's
    /// length, the id given back, and all bytes of store, table and buffer.
    pub fn seen(&self, turned: &Turned, table: &[u8]) -> Answer {
        let mut seen = ours::replied(&turned.answer, self.room, [&self.store, table]);
        seen.results[1] = turned.last.into();
        seen
    }
}
