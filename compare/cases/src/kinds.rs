//! Answers by command, number and what more there is to say, and how often
//! each came.

mod allowed;
mod bodies;
mod others;
mod read_back;
mod readers;
mod reporting;
mod served;
mod writes;

use std::collections::HashMap;
use std::fmt;

pub use allowed::{ALLOWED, OTHERS, SERVED, VALUES};
pub use others::{of_number, of_report, of_unsupported};
pub use read_back::of_readings;
pub use readers::READERS;
pub use served::{Call, of};

/// What there is to say besides command and number. An answer may have several.
#[derive(Debug, Clone, Copy, PartialEq, Eq, Hash)]
pub enum Detail {
    /// The first record of the reply has this status.
    First(u8),
    /// Another record has.
    Later(u8),
    /// The reply is this status alone.
    Alone(u8),
    Said(&'static str),
}

/// A command, a number and a detail.
pub type Kind = (&'static str, u8, Detail);

#[derive(Default)]
pub struct Kinds(HashMap<Kind, u64>);

impl Kinds {
    /// Counts the kinds of one answer; an error where document 01 allows one
    /// of them not.
    pub fn count(&mut self, kinds: &[Kind]) -> Result<(), String> {
        if kinds.is_empty() {
            return Err("an answer of no kind".to_owned());
        }
        for &kind in kinds {
            if !allowed::allows(kind) {
                return Err(format!("document 01 does not allow {}", Line(kind)));
            }
            *self.0.entry(kind).or_default() += 1;
        }
        Ok(())
    }

    /// The kinds of these commands that document 01 allows and that never came.
    pub fn missing(&self, commands: &[&str]) -> Vec<String> {
        allowed::kinds(commands)
            .filter(|kind| !self.0.contains_key(kind))
            .map(|kind| Line(kind).to_string())
            .collect()
    }

    /// A line for each kind of these commands.
    pub fn list(&self, commands: &[&str]) -> String {
        allowed::kinds(commands)
            .map(|kind| {
                let count = self.0.get(&kind).copied().unwrap_or(0);
                format!("{count:9}  {}\n", Line(kind))
            })
            .collect()
    }
}

struct Line(Kind);

impl fmt::Display for Line {
    fn fmt(&self, f: &mut fmt::Formatter<'_>) -> fmt::Result {
        let (command, number, detail) = self.0;
        write!(f, "{command}: {number}, ")?;
        match detail {
            Detail::First(status) => write!(f, "{status:02x} first"),
            Detail::Later(status) => write!(f, "{status:02x} later"),
            Detail::Alone(status) => write!(f, "{status:02x} alone"),
            Detail::Said(said) => write!(f, "{said}"),
        }
    }
}
