//! Saves and restores reporting tables (document 02, requests 5, 6 and 7), by our
//! archive and by the reading of the documents, and compares after every call the
//! number, the length and all bytes of buffer and table. The tables are random, as
//! direct calls make them, and damaged; the forms are theirs, every damage of one
//! byte of a few, some of a full one, and any bytes that look like one. Two runs
//! make the same calls.
//!
//! What is restored is held to be the table that was saved without its last
//! reports, and what is saved again to be the same bytes. A form that was saved
//! before there were marks is held to be read as signed, and to have marks of 0
//! when it is saved again.
//!
//! It prints how often each kind of call came, and fails at the first
//! disagreement, with its bytes, and where a kind never came.

mod call;
mod compared;
mod counted;
#[cfg(test)]
mod fakes;
mod forms;
mod made;
mod round_trip;
mod tables;

use std::process::ExitCode;
use std::time::Instant;

use cases::Random;
use ours::{Driver, Server};

use call::Given;
use compared::Compared;
use counted::Counted;

fn main() -> ExitCode {
    match run() {
        Ok(()) => ExitCode::SUCCESS,
        Err(trouble) => {
            eprintln!("saved: {trouble}");
            ExitCode::FAILURE
        }
    }
}

fn run() -> Result<(), String> {
    let start = Instant::now();
    let mut ours = Driver::start()?;
    let counted = all(&mut ours)?;
    let seconds = start.elapsed().as_secs_f64();

    print!("{}", counted.list());
    println!("saved: {} calls agree, {seconds:.1} s", ours.made());
    enough(&counted)
}

/// An error where the run has shown too little.
fn enough(counted: &Counted) -> Result<(), String> {
    let never = counted.never();
    if never.is_empty() {
        Ok(())
    } else {
        Err(format!("never reached: {}", never.join("; ")))
    }
}

/// Holds one side to the reading.
fn all(server: &mut impl Server<Given>) -> Result<Counted, String> {
    let random = &mut Random::new(0x0073_6176_6564);
    let mut compared = Compared::new(server);
    tables::compare(&mut compared, random)?;
    round_trip::compare(&mut compared, random)?;
    forms::compare_damaged(&mut compared, random)?;
    forms::compare_any(&mut compared, random)?;
    compared.end()
}

#[cfg(test)]
mod tests {
    use super::*;
    use crate::call::Call;
    use crate::fakes::{self, Fake};
    use ours::Answer;

    #[test]
    fn a_run_shows_enough() {
        let counted = all(&mut Fake(Call::document)).expect("it agrees with itself");
        assert_eq!(enough(&counted), Ok(()));
        assert!(enough(&Counted::new()).is_err());
    }

    #[test]
    fn wrong_servers_are_caught() {
        for (place, (function, wrong)) in fakes::ALL.into_iter().enumerate() {
            let trouble = all(&mut Fake(wrong)).err();
            let trouble = trouble.unwrap_or_else(|| panic!("fake {place} is not seen"));
            let said = format!("a disagreement on\n  {function} ");
            assert!(trouble.starts_with(&said), "fake {place}: {trouble}");
        }
    }

    #[test]
    fn a_write_outside_is_seen() {
        struct Outside;
        impl Server<Given> for Outside {
            fn serve(&mut self, calls: &[Given]) -> Result<Vec<Result<Answer, String>>, String> {
                let outside = |_: &Given| Err("ours wrote outside".to_owned());
                Ok(calls.iter().map(outside).collect())
            }
        }
        let trouble = all(&mut Outside).err().expect("it is seen");
        assert!(trouble.contains("ours wrote outside"), "{trouble}");
    }
}
