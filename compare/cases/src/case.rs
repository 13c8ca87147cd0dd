//! A frame that all sides are given, and what a side says and leaves.

use std::fmt;

use reading::commands::serve_lent;
use reading::store::cluster_of;
use reading::table::{Entry, SIGNED, entries, to_bytes};

use crate::hex::hex;

#[derive(Debug, Clone, PartialEq, Eq)]
pub struct Case {
    pub store: Vec<u8>,
    /// As it is lent.
    pub table: Vec<u8>,
    pub cluster: u16,
    /// 0, or anything else for unicast.
    pub unicast: u8,
    pub request: Vec<u8>,
    pub room: usize,
}

/// All that can be seen of a call afterwards.
#[derive(Debug, Clone, PartialEq, Eq)]
pub struct Seen {
    pub number: u8,
    /// The reply's length.
    pub used: usize,
    /// The whole reply buffer.
    pub buffer: Vec<u8>,
    pub store: Vec<u8>,
    pub table: Vec<u8>,
}

impl Case {
    /// A unicast request to the store's own cluster, with an empty table.
    pub fn over(store: &[u8], request: &[u8], room: usize) -> Self {
        Self {
            store: store.to_vec(),
            table: to_bytes(&[]),
            cluster: cluster_of(store).unwrap_or(0),
            unicast: 1,
            request: request.to_vec(),
            room,
        }
    }

    /// Document 01's answer.
    pub fn document(&self) -> Seen {
        let mut store = self.store.clone();
        let mut table = self.table.clone();
        let unicast = self.unicast != 0;
        let answer = serve_lent(
            &mut store,
            &mut table,
            self.cluster,
            unicast,
            &self.request,
            self.room,
        );
        Seen {
            number: answer.number,
            used: answer.reply.len(),
            buffer: answer.buffer(self.room),
            store,
            table,
        }
    }
}

impl Seen {
    /// The reply; nothing where there is none.
    pub fn reply(&self) -> &[u8] {
        &self.buffer[..self.used]
    }
}

/// In the form of compare/FRAMES.md.
impl fmt::Display for Case {
    fn fmt(&self, f: &mut fmt::Formatter<'_>) -> fmt::Result {
        writeln!(f, "  store    {}", or_none(&self.store))?;
        writeln!(f, "  table    {}", shown(&self.table))?;
        writeln!(f, "  cluster  {:04x}", self.cluster)?;
        writeln!(f, "  unicast  {}", self.unicast)?;
        writeln!(f, "  room     {}", self.room)?;
        writeln!(f, "  request  {}", or_none(&self.request))
    }
}

impl fmt::Display for Seen {
    fn fmt(&self, f: &mut fmt::Formatter<'_>) -> fmt::Result {
        writeln!(f, "  number   {}", self.number)?;
        writeln!(f, "  reply    {} of {}", self.used, hex(&self.buffer))?;
        writeln!(f, "  store    {}", hex(&self.store))?;
        writeln!(f, "  table    {}", shown(&self.table))
    }
}

/// A table's used bytes, or all where they are no table.
pub fn shown(table: &[u8]) -> String {
    match entries(table) {
        Ok(entries) => {
            let used = 1 + reading::table::SLOT * entries.len();
            format!("{}, then zeros", hex(&table[..used]))
        }
        Err(broken) => format!("{}  # {broken:?}", or_none(table)),
    }
}

/// A table's entries as the Rust has them, which knows no marks.
pub fn unmarked(entries: &[Entry]) -> Vec<Entry> {
    let mut unmarked = entries.to_vec();
    for entry in &mut unmarked {
        entry.config.mark = SIGNED;
    }
    unmarked
}

fn or_none(bytes: &[u8]) -> String {
    match bytes {
        [] => "none".to_owned(),
        _ => hex(bytes),
    }
}
