//! Takes report turns (document 02, request 3), by our archive and by the reading of
//! the documents, and compares after every call the number, the frame's length, the
//! id given back, and all bytes of frame buffer, table and store. The turns are
//! taken in histories over one store and one table, which requests and direct calls
//! change between; some are over damaged bytes. Two runs make the same calls.
//!
//! Other histories keep the terms of the request's two promises, and are held to
//! these; they are met with nothing to spare.
//!
//! It prints how often each kind of call came, and fails at the first
//! disagreement, with its bytes, and where a kind never came.

mod call;
mod compared;
mod counted;
#[cfg(test)]
mod fakes;
mod given;
mod histories;
mod made;
mod promises;
mod watched;

use std::process::ExitCode;
use std::time::Instant;

use cases::Random;
use ours::{Driver, Server};

use call::Call;
use compared::Compared;
use counted::Counted;
use watched::Spared;

/// So many turns at least.
const ENOUGH: usize = 200_000;

fn main() -> ExitCode {
    match run() {
        Ok(()) => ExitCode::SUCCESS,
        Err(trouble) => {
            eprintln!("turns: {trouble}");
            ExitCode::FAILURE
        }
    }
}

fn run() -> Result<(), String> {
    let start = Instant::now();
    let mut ours = Driver::start()?;
    let counted = all(&mut ours)?;
    let (turns, calls) = (counted.turns, ours.made());
    let seconds = start.elapsed().as_secs_f64();

    print!("{}", counted.list());
    println!(
        "turns: {turns} turns and {} other calls agree, {seconds:.1} s",
        calls - turns
    );
    enough(&counted)
}

/// An error where the run has shown too little.
fn enough(counted: &Counted) -> Result<(), String> {
    let (never, turns) = (counted.never(), counted.turns);
    if !never.is_empty() {
        Err(format!("never reached: {}", never.join("; ")))
    } else if turns < ENOUGH {
        Err(format!("{turns} turns are too few"))
    } else {
        Ok(())
    }
}

/// Holds one side to the reading.
fn all(server: &mut impl Server<Call>) -> Result<Counted, String> {
    let random = &mut Random::new(0x7475_726e_7321);
    let mut compared = Compared::new(server);
    histories::compare(&mut compared, random)?;
    promises::compare(&mut compared, random, Spared::default())?;
    compared.end()
}

#[cfg(test)]
mod tests {
    use super::*;
    use crate::fakes::{self, Fake};
    use ours::Answer;

    #[test]
    fn a_run_shows_enough() {
        let counted = all(&mut Fake(None)).expect("it agrees");
        println!("{}", counted.list());
        assert_eq!(enough(&counted), Ok(()));
        assert!(enough(&Counted::new()).is_err());
    }

    #[test]
    fn wrong_servers_are_caught() {
        for wrong in fakes::ALL {
            let trouble = all(&mut Fake(Some(wrong))).err();
            let trouble = trouble.unwrap_or_else(|| panic!("{wrong:?} is not seen"));
            let said = "a disagreement on\n  report_turn ";
            assert!(trouble.starts_with(said), "{wrong:?}: {trouble}");
        }
    }

    #[test]
    fn a_write_outside_is_seen() {
        struct Outside;
        impl Server<Call> for Outside {
            fn serve(&mut self, calls: &[Call]) -> Result<Vec<Result<Answer, String>>, String> {
                let outside = |_: &Call| Err("ours wrote outside".to_owned());
                Ok(calls.iter().map(outside).collect())
            }
        }
        let trouble = all(&mut Outside).err().expect("it is seen");
        assert!(trouble.contains("ours wrote outside"), "{trouble}");
    }
}
