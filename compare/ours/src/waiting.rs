//! Calls that wait for a server, and are held to the answers that they are to have.

use crate::answer::Answer;
use crate::call::Call;
use crate::driver::Driver;

/// Ours is called over a pipe: so many calls are made at a time.
const BATCH: usize = 10;

/// What is asked of a server.
pub trait Asked {
    fn on_ours(&self) -> Call;

    /// The answer that it is to have, by the documents: it was made with the call.
    fn answer(&self) -> &Answer;
}

/// Who is held to the answers.
pub trait Server<C> {
    /// The answer to each of these calls; an error inside where it wrote what it
    /// is not to write.
    fn serve(&mut self, calls: &[C]) -> Result<Vec<Result<Answer, String>>, String>;
}

/// Our archive.
impl<C: Asked> Server<C> for Driver {
    fn serve(&mut self, calls: &[C]) -> Result<Vec<Result<Answer, String>>, String> {
        let calls: Vec<Call> = calls.iter().map(Asked::on_ours).collect();
        self.answers(&calls.iter().collect::<Vec<&Call>>())
    }
}

pub struct Waiting<'a, S, C> {
    server: &'a mut S,
    calls: Vec<C>,
}

impl<'a, C: Asked, S: Server<C>> Waiting<'a, S, C> {
    pub fn new(server: &'a mut S) -> Self {
        let calls = Vec::new();
        Self { server, calls }
    }

    /// The server has its turn later. An error at the first call of those before
    /// that it answers otherwise.
    pub fn give(&mut self, call: C) -> Result<(), String> {
        self.calls.push(call);
        if self.calls.len() >= BATCH {
            self.compare()?;
        }
        Ok(())
    }

    /// Gives the server all calls that wait.
    pub fn compare(&mut self) -> Result<(), String> {
        let calls = std::mem::take(&mut self.calls);
        for (call, answer) in calls.iter().zip(self.server.serve(&calls)?) {
            agree(call, answer)?;
        }
        Ok(())
    }
}

fn agree(call: &impl Asked, answer: Result<Answer, String>) -> Result<(), String> {
    let expected = call.answer();
    let said = match answer {
        Ok(answer) if answer == *expected => return Ok(()),
        Ok(answer) => format!("ours:\n{answer}"),
        Err(trouble) => trouble,
    };
    let call = call.on_ours();
    Err(format!(
        "a disagreement on\n{call}expected:\n{expected}{said}"
    ))
}

#[cfg(test)]
mod tests {
    use super::*;

    /// The number of no bytes, which are no store: its answer.
    struct Number(Answer);

    impl Asked for Number {
        fn on_ours(&self) -> Call {
            Call::number(&[], 0)
        }

        fn answer(&self) -> &Answer {
            &self.0
        }
    }

    /// Gives so many right answers, then a wrong one.
    struct Right(usize);

    impl Server<Number> for Right {
        fn serve(&mut self, calls: &[Number]) -> Result<Vec<Result<Answer, String>>, String> {
            let answer = |call: &Number| match self.0.checked_sub(1) {
                Some(left) => {
                    self.0 = left;
                    Ok(call.0.clone())
                }
                None => Err("it wrote outside".to_owned()),
            };
            Ok(calls.iter().map(answer).collect())
        }
    }

    /// Whether so many calls agree, where the server answers so many right.
    fn agrees(right: usize, calls: usize) -> Result<(), String> {
        let server = &mut Right(right);
        let mut waiting = Waiting::new(server);
        for _ in 0..calls {
            waiting.give(Number(Answer::new(7, &[], &[])))?;
        }
        waiting.compare()
    }

    #[test]
    fn the_last_call_is_compared_too() {
        for calls in [1, 2, BATCH - 1, BATCH, BATCH + 1, 2 * BATCH + 1] {
            assert_eq!(agrees(calls, calls), Ok(()));
            let trouble = agrees(calls - 1, calls).expect_err("the last is wrong");
            assert!(trouble.starts_with("a disagreement on\n  number "));
            assert!(trouble.ends_with("it wrote outside"));
        }
    }
}
