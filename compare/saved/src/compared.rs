//! Calls that a server is given, and held to the reading's answers.

use ours::{Server, Waiting};
use reading::saved;

use crate::call::{Call, Given, restores, saves};
use crate::counted::Counted;

pub struct Compared<'a, S> {
    waiting: Waiting<'a, S, Given>,
    pub counted: Counted,
}

impl<'a, S: Server<Given>> Compared<'a, S> {
    pub fn new(server: &'a mut S) -> Self {
        Self {
            waiting: Waiting::new(server),
            counted: Counted::new(),
        }
    }

    /// Saves a table. Gives the form, where the reading writes one; the server
    /// has its turn later.
    pub fn save(&mut self, table: &[u8], room: usize) -> Result<Option<Vec<u8>>, String> {
        let says = saved::save(table, room);
        self.counted.save(table, room, &says);
        let answer = saves(table, &says, room);
        let table = table.to_vec();
        let call = Call::Save { table, room };
        self.waiting.give(Given { call, answer })?;
        Ok((says.number == 0).then_some(says.reply))
    }

    /// Restores a form over these bytes. Gives the number and the bytes that the
    /// reading leaves.
    pub fn restore(&mut self, before: &[u8], form: &[u8]) -> Result<(u8, Vec<u8>), String> {
        let mut left = before.to_vec();
        let number = saved::restore(&mut left, form);
        self.counted.restore(before, form, number);
        let answer = restores(number, &left, form);
        let (table, saved) = (before.to_vec(), form.to_vec());
        let call = Call::Restore { table, saved };
        self.waiting.give(Given { call, answer })?;
        Ok((number, left))
    }

    /// What was counted, once all are compared.
    pub fn end(mut self) -> Result<Counted, String> {
        self.waiting.compare()?;
        Ok(self.counted)
    }
}
