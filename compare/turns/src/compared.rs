//! Calls that a server is given, and held to the reading's answers.

use ours::{Held, Server, Waiting};
use reading::commands::Turned;

use crate::call::Call;
use crate::counted::Counted;
use crate::given::Given;

pub struct Compared<'a, S> {
    waiting: Waiting<'a, S, Call>,
    pub counted: Counted,
}

impl<'a, S: Server<Call>> Compared<'a, S> {
    pub fn new(server: &'a mut S) -> Self {
        Self {
            waiting: Waiting::new(server),
            counted: Counted::new(),
        }
    }

    /// Takes a turn. Gives what comes of it by the reading, and the table that it
    /// leaves; the server has its turn later.
    pub fn turn(&mut self, given: Given) -> Result<(Turned, Vec<u8>), String> {
        let (turned, table) = given.document();
        self.counted.turn(&given, &turned);
        let answer = given.seen(&turned, &table);
        self.waiting.give(Call::Turn(given, answer))?;
        Ok((turned, table))
    }

    /// Makes a call between turns.
    pub fn between(&mut self, line: &str, held: Held) -> Result<(), String> {
        self.counted.count(line);
        self.waiting.give(Call::Other(held))
    }

    /// What was counted, once all are compared.
    pub fn end(mut self) -> Result<Counted, String> {
        self.waiting.compare()?;
        Ok(self.counted)
    }
}
