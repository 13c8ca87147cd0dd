//! Old and new on the same frames.

use cases::Seen;
use frames::sides::asked;
use oracle::{Oracle, Outcome};
use ours::{Call, Driver, served, value_number};

use crate::frame::Frame;

/// What the old one makes of a frame.
pub enum Old {
    /// Its store or table has no counterpart there.
    NoCounterpart,
    Said(Outcome),
    /// With the trouble.
    Panicked(String),
}

/// A frame that was run.
pub struct Ran {
    pub frame: Frame,
    pub old: Old,
    /// An error where it wrote what it is not to write.
    pub new: Result<Seen, String>,
}

pub struct Sides {
    oracle: Oracle,
    driver: Driver,
}

impl Sides {
    /// The driver is the command that `HINGEDRIFT_DRIVER` names.
    pub fn start() -> Result<Self, String> {
        Ok(Self {
            oracle: Oracle::default(),
            driver: Driver::start()?,
        })
    }

    /// Both on each of these. An error where the driver ended.
    pub fn run(&mut self, frames: Vec<Frame>) -> Result<Vec<Ran>, String> {
        let calls: Vec<Call> = frames
            .iter()
            .map(|frame| Call::request(&frame.case))
            .collect();
        let calls: Vec<&Call> = calls.iter().collect();
        let answers = self.driver.answers(&calls)?;
        let both = frames.into_iter().zip(answers);
        Ok(both
            .map(|(frame, answer)| Ran {
                old: self.old(&frame),
                new: answer.and_then(|answer| served(&answer)),
                frame,
            })
            .collect())
    }

    /// Both on this one.
    pub fn one(&mut self, frame: Frame) -> Result<Ran, String> {
        let mut ran = self.run(vec![frame])?;
        Ok(ran.pop().expect("one was run"))
    }

    fn old(&mut self, frame: &Frame) -> Old {
        match asked(&mut self.oracle, &frame.case) {
            Ok(None) => Old::NoCounterpart,
            Ok(Some(outcome)) => Old::Said(outcome),
            Err(trouble) => Old::Panicked(trouble),
        }
    }

    /// The new one's number of an attribute's value: the number that it
    /// returned, and the value's.
    pub fn number(&mut self, store: &[u8], attribute: u16) -> Result<(u8, i64), String> {
        let answer = self.driver.answer(&Call::number(store, attribute))?;
        Ok((answer.number, answer.results[0].cast_signed()))
    }

    /// The number of the value that the reply to a read begins with, as the
    /// new one's reader gives it: what it returned, and the number.
    pub fn number_read(&mut self, reply: &[u8]) -> Result<(u8, i64), String> {
        let answer = self.driver.answer(&Call::read_record(reply, 0))?;
        Ok(value_number(&answer))
    }
}
