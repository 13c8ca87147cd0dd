//! Frames that read, write and discover, at every room, with the whole store
//! afterwards.

mod answers;
mod buffers;
mod damaged;
mod differences;
mod discovers;
mod line;
mod random;
mod reads;
pub mod smallest;
mod undivided;
mod writes;

use std::collections::HashMap;

use cases::kinds::{Kinds, VALUES};
use cases::stores::word;
use cases::{Condition, Difference};
use oracle::Oracle;

use crate::lines::Inputs;

/// Frames over stores, each pair once. An input is the store's length, the
/// store and the frame.
#[derive(Default)]
pub struct Frames(Inputs);

impl Frames {
    pub fn add(&mut self, store: &[u8], request: &[u8]) {
        self.0
            .add([&word(store.len())[..], store, request].concat());
    }

    /// A frame without a manufacturer code; its sequence number is made from
    /// its place in the list, so that it varies.
    pub fn add_body(&mut self, store: &[u8], command: u8, body: &[u8]) {
        let control = [0x00, 0x10, 0x08, 0x18][self.0.len() % 4];
        let sequence = (self.0.len() % 251).to_le_bytes()[0];
        let request = [&[control, sequence, command], body].concat();
        self.add(store, &request);
    }

    /// The same body in each of the three writes.
    pub fn add_writes(&mut self, store: &[u8], body: &[u8]) {
        for command in [0x02, 0x03, 0x05] {
            self.add_body(store, command, body);
        }
    }
}

/// What the lines count: answers by their kinds, and the frames on which a
/// listed difference is one, by command.
#[derive(Default)]
pub struct Counts {
    kinds: Kinds,
    differences: HashMap<(Difference, u8), u64>,
}

/// The listed differences of these commands, and the commands of each.
fn listed() -> Vec<(Difference, u8)> {
    let writes = |condition| [0x02, 0x03, 0x05].map(|code| (Difference::Value(condition), code));
    let values = Condition::ALL.into_iter().flat_map(writes);
    values.chain([(Difference::Divided, 0x03)]).collect()
}

pub fn lines() -> Result<(Vec<String>, Counts), String> {
    let mut counts = Counts::default();
    let mut oracle = Oracle::default();
    let lines = inputs()
        .iter()
        .map(|input| line::line(input, &mut oracle, &mut counts))
        .collect::<Result<Vec<String>, String>>()?;
    counts.complete()?;
    Ok((lines, counts))
}

fn inputs() -> Vec<Vec<u8>> {
    let mut frames = Frames::default();
    reads::add(&mut frames);
    writes::add(&mut frames);
    discovers::add(&mut frames);
    damaged::add(&mut frames);
    differences::add(&mut frames);
    random::add(&mut frames);
    undivided::add(&mut frames);
    frames.0.into_vec()
}

impl Counts {
    /// An error where something was never reached.
    fn complete(&self) -> Result<(), String> {
        let missing = self.kinds.missing(&VALUES);
        if !missing.is_empty() {
            return Err(format!("never reached: {}", missing.join("; ")));
        }
        for (difference, command) in listed() {
            if !self.differences.contains_key(&(difference, command)) {
                return Err(format!(
                    "{} never makes a difference in command {command:02x}",
                    difference.name()
                ));
            }
        }
        Ok(())
    }

    /// How often each came.
    pub fn list(&self) -> String {
        let mut list = self.kinds.list(&VALUES);
        for (difference, command) in listed() {
            let count = self.differences.get(&(difference, command)).unwrap_or(&0);
            let name = difference.name();
            list += &format!("{count:9}  lines of {name}, command {command:02x}\n");
        }
        list
    }
}
