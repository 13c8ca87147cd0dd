//! A server that is timed: the old one or the new one.

use reading::table::Entry;

use crate::calls::{Ask, Report, Request};

/// What a call says.
#[derive(Debug, Clone, Copy, PartialEq, Eq)]
pub enum Said {
    Refused,
    /// A reply or a report, of so many bytes.
    Frame(usize),
    /// An ask's answer.
    Due(bool),
    /// A mark, which says nothing.
    Done,
}

pub trait Side {
    /// Over a store and a table of these entries.
    fn new(store: &[u8], table: &[Entry]) -> Self;

    fn request(&mut self, request: &Request, reply: &mut [u8]) -> Said;
    fn report(&mut self, report: &Report, frame: &mut [u8]) -> Said;
    fn ask(&mut self, ask: &Ask) -> Said;
    fn mark(&mut self, mark: &Ask) -> Said;

    /// The store as it is now,
    fn store(&self) -> Vec<u8>;
    /// and the entries of the table, in their order; an error where it is none.
    fn table(&self) -> Result<Vec<Entry>, String>;
}
