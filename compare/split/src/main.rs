//! Holds our archive to the laws of lists (document 02, request 4), over random
//! stores and tables. Joining: a list of writes or of configurations, cut in two
//! and sent in two calls, leaves what one call leaves. Order: two lists of writes
//! that name no attribute in common leave one store, whichever is sent first. The
//! reading of document 01 is held to the same. Two runs make the same lists.
//!
//! It prints how often each law held and with what besides, and fails at the first
//! list for which one does not, with as short a list as it finds; where a kind of
//! list never came, lists among them that change something; and where, for a reason
//! why a law says nothing, none was seen to fail.

mod counted;
#[cfg(test)]
mod fakes;
mod join;
mod kinds;
mod lists;
mod made;
mod order;
mod places;
mod sent;
mod server;
mod shorten;
mod smallest;

use std::process::ExitCode;
use std::time::Instant;

use cases::Random;
use ours::Driver;

use counted::Counted;
use server::{Document, Ours, Server};

/// Ours is called over a pipe: so many lists are made at a time,
const BATCH: usize = 1000;

/// so often lists that are cut in two, so often undivided ones,
const SPLITS: usize = 80;
const UNDIVIDED: usize = 2;

/// and so often pairs without an attribute in common, and any pairs.
const PAIRS: usize = 20;

/// At least so many must be of those of which the laws speak.
const JOINED: usize = 50_000;
const ORDERED: usize = 20_000;

fn main() -> ExitCode {
    match run() {
        Ok(()) => ExitCode::SUCCESS,
        Err(trouble) => {
            eprintln!("split: {trouble}");
            ExitCode::FAILURE
        }
    }
}

fn run() -> Result<(), String> {
    let start = Instant::now();
    let mut ours = Ours(Driver::start()?);
    let said_of = |whose| move |trouble| format!("{whose}: {trouble}");
    let counted = all(&mut ours).map_err(said_of("ours"))?;
    let document = all(&mut Document).map_err(said_of("document 01"))?;
    let smallest = smallest::fail(&mut ours).map_err(said_of("ours"))?;
    smallest::fail(&mut Document).map_err(said_of("document 01"))?;
    let seconds = start.elapsed().as_secs_f64();

    println!("     ours  document");
    print!("{}", counted.beside(&document));
    println!("{smallest:9}  {smallest:9}  small lists for which a law fails as said");
    println!("{:9}             calls of ours", ours.0.made());
    println!(
        "split: {} lists leave joined what they leave apart, {} pairs the same in either order, {seconds:.1} s",
        counted.joined, counted.ordered
    );
    enough(&counted, &document)
}

/// An error where the run has shown too little.
fn enough(counted: &Counted, document: &Counted) -> Result<(), String> {
    let never = counted.never();
    if !never.is_empty() {
        return Err(format!("never reached: {}", never.join("; ")));
    }
    let Counted {
        joined, ordered, ..
    } = *counted;
    if joined < JOINED || ordered < ORDERED {
        return Err(format!("only {joined} lists and {ordered} pairs"));
    }
    if counted != document {
        return Err("the same lists are of other kinds by document 01".to_owned());
    }
    Ok(())
}

/// Holds one side to the laws.
fn all(server: &mut impl Server) -> Result<Counted, String> {
    let random = &mut Random::new(0x0073_706c_6974);
    let mut counted = Counted::new();
    for _ in 0..SPLITS {
        let splits = batch(|| made::split(random));
        join::hold(server, &splits, |split, ran, verdict| {
            counted.split(split, ran, verdict);
        })?;
    }
    for _ in 0..UNDIVIDED {
        let splits = batch(|| made::split_by(random, [0x03; 3]));
        join::hold(server, &splits, |split, ran, verdict| {
            counted.split(split, ran, verdict);
        })?;
    }
    for _ in 0..PAIRS {
        let pairs = batch(|| made::disjoint(random));
        order::hold(server, &pairs, |pair, ran, verdict| {
            counted.pair(pair, ran, verdict, kinds::MADE);
        })?;
        let pairs = batch(|| made::pair(random));
        order::hold(server, &pairs, |pair, ran, verdict| {
            counted.pair(pair, ran, verdict, kinds::BY_CHANCE);
        })?;
    }
    places::hold_every(server, random, &mut counted)?;
    Ok(counted)
}

fn batch<T>(one: impl FnMut() -> T) -> Vec<T> {
    std::iter::repeat_with(one).take(BATCH).collect()
}

#[cfg(test)]
mod tests {
    use super::*;

    #[test]
    fn a_run_shows_enough() {
        let counted = all(&mut Document).expect("the laws are document 01's");
        assert_eq!(enough(&counted, &counted), Ok(()));
        assert!(enough(&Counted::new(), &counted).is_err());
        assert!(enough(&counted, &Counted::new()).is_err());
    }
}
