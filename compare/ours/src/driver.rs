//! The driver: a process that makes the calls.

use std::env;
use std::io::{self, BufReader, BufWriter, Write};
use std::process::{Child, ChildStdin, ChildStdout, Command, Stdio};

use crate::answer::Answer;
use crate::call::{Call, END};
use crate::held::Held;

/// Names the command that starts it.
const VARIABLE: &str = "HINGEDRIFT_DRIVER";

/// A batch is ended when its calls have so many bytes: their answers are no
/// more than the driver can keep.
const BATCH: usize = 1 << 20;

/// A call with a table is longer than what is buffered by default.
const BUFFERED: usize = 1 << 16;

pub struct Driver {
    process: Child,
    calls: BufWriter<ChildStdin>,
    answers: BufReader<ChildStdout>,
    made: usize,
}

impl Driver {
    /// Starts the command that `HINGEDRIFT_DRIVER` names, its words parted by
    /// spaces.
    pub fn start() -> Result<Self, String> {
        let command = env::var(VARIABLE).unwrap_or_default();
        Self::of(&command)
    }

    fn of(command: &str) -> Result<Self, String> {
        let mut words = command.split_whitespace();
        let program = words.next().ok_or_else(|| {
            format!("{VARIABLE} is to name the command that calls our archive, and is empty (.ci/driver makes one)")
        })?;
        let mut process = Command::new(program)
            .args(words)
            .stdin(Stdio::piped())
            .stdout(Stdio::piped())
            .spawn()
            .map_err(|trouble| format!("the driver `{command}` does not start: {trouble}"))?;
        let calls = process.stdin.take().expect("it is piped");
        let answers = process.stdout.take().expect("it is piped");
        Ok(Self {
            process,
            calls: BufWriter::with_capacity(BUFFERED, calls),
            answers: BufReader::with_capacity(BUFFERED, answers),
            made: 0,
        })
    }

    /// How many calls were answered.
    pub fn made(&self) -> usize {
        self.made
    }

    /// The answer to a call; an error, too, where ours wrote what it is not to
    /// write.
    pub fn answer(&mut self, call: &Call) -> Result<Answer, String> {
        let mut answers = self.answers(&[call])?;
        answers.pop().expect("one is answered")
    }

    /// An error at the first call that has another answer than it is to have.
    pub fn agree(&mut self, held: &[Held]) -> Result<(), String> {
        match self.first_wrong(held)? {
            None => Ok(()),
            Some((at, trouble)) => Err(format!("a disagreement on\n{}{trouble}", held[at].call)),
        }
    }

    /// The place of the first call that has another answer than it is to have,
    /// and both answers.
    pub fn first_wrong(&mut self, held: &[Held]) -> Result<Option<(usize, String)>, String> {
        let calls: Vec<&Call> = held.iter().map(|held| &held.call).collect();
        let answers = self.answers(&calls)?;
        let troubles = answers.into_iter().zip(held).map(|(answer, held)| {
            let expected = &held.answer;
            match answer {
                Ok(answer) if answer == *expected => None,
                Ok(answer) => Some(format!("expected:\n{expected}ours:\n{answer}")),
                Err(trouble) => Some(format!("expected:\n{expected}{trouble}\n")),
            }
        });
        let mut wrong = troubles.enumerate();
        Ok(wrong.find_map(|(at, trouble)| Some((at, trouble?))))
    }

    /// The answers to all of these, in their order; an error inside where ours
    /// wrote what it is not to write.
    pub fn answers(&mut self, calls: &[&Call]) -> Result<Vec<Result<Answer, String>>, String> {
        let mut answers = Vec::with_capacity(calls.len());
        let mut calls = calls.iter();
        while !calls.as_slice().is_empty() {
            self.batch(&mut calls, &mut answers)
                .map_err(|trouble| self.ended(&trouble))?;
        }
        self.made += answers.len();
        Ok(answers)
    }

    /// Makes a batch of the next calls.
    fn batch(
        &mut self,
        calls: &mut std::slice::Iter<'_, &Call>,
        answers: &mut Vec<Result<Answer, String>>,
    ) -> io::Result<()> {
        let mut written = 0;
        let mut waiting = Vec::new();
        while written < BATCH
            && let Some(call) = calls.next()
        {
            written += call.write(&mut self.calls)?;
            waiting.push(call);
        }
        self.calls.write_all(&END)?;
        self.calls.flush()?;
        for call in waiting {
            answers.push(Answer::read(call, &mut self.answers)?);
        }
        Ok(())
    }

    /// What is said where the pipe is broken.
    fn ended(&mut self, trouble: &io::Error) -> String {
        let status = self.process.try_wait();
        let status = status.map_or_else(
            |trouble| trouble.to_string(),
            |status| format!("{status:?}"),
        );
        format!("the driver does not answer: {trouble} ({status})")
    }
}

#[cfg(test)]
mod tests {
    use reading::table::SIZE;

    use super::*;

    #[test]
    fn no_driver() {
        let trouble = Driver::of("").err().expect("there is none");
        assert!(trouble.contains(VARIABLE));
        assert!(Driver::of("/no/such/driver").is_err());
    }

    #[test]
    fn no_answer() {
        let mut driver = Driver::of("true").expect("it starts");
        let trouble = driver.answer(&Call::table_new(&[0; SIZE]));
        let trouble = trouble.expect_err("nothing came");
        assert!(trouble.contains("does not answer"), "{trouble}");
    }
}
