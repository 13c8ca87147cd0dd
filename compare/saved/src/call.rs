//! The two calls, and what the reading of the documents answers to them.

use ours::{Answer, Asked};
#[cfg(test)]
use reading::saved;

#[derive(Debug, Clone)]
pub enum Call {
    Save {
        table: Vec<u8>,
        room: usize,
    },
    /// The table's bytes before may be any.
    Restore {
        table: Vec<u8>,
        saved: Vec<u8>,
    },
}

impl Call {
    pub fn on_ours(&self) -> ours::Call {
        match self {
            Self::Save { table, room } => ours::Call::save(table, *room),
            Self::Restore { table, saved } => ours::Call::restore(table, saved),
        }
    }

    /// For servers that are no archive.
    #[cfg(test)]
    pub fn document(&self) -> Answer {
        match self {
            Self::Save { table, room } => saves(table, &saved::save(table, *room), *room),
            Self::Restore { table, saved } => {
                let mut table = table.clone();
                let number = saved::restore(&mut table, saved);
                restores(number, &table, saved)
            }
        }
    }
}

/// A call, and the answer that it is to have.
#[derive(Debug)]
pub struct Given {
    pub call: Call,
    pub answer: Answer,
}

impl Asked for Given {
    fn on_ours(&self) -> ours::Call {
        self.call.on_ours()
    }

    fn answer(&self) -> &Answer {
        &self.answer
    }
}

/// The answer to a save, which leaves the table as it was, with the whole buffer.
pub fn saves(table: &[u8], answer: &reading::commands::Answer, room: usize) -> Answer {
    let used = answer.reply.len() as u64;
    Answer::new(answer.number, &[used], &[table, &answer.buffer(room)])
}

/// The answer to a restore, which leaves this table.
pub fn restores(number: u8, table: &[u8], saved: &[u8]) -> Answer {
    Answer::new(number, &[], &[table, saved])
}
