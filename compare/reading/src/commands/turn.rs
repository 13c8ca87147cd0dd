//! A report turn: one frame for all that is due. Document 02, request 3.

use std::collections::BTreeSet;

use super::answer::{Answer, Refusal, Served};
use super::reply::Reply;
use super::report::record;
use crate::store::{cluster_of, is_store, number};
use crate::table::{self, Entry, Key, ask, entries, place};

/// What a turn is handed, beside the table.
#[derive(Debug, Clone, Copy, PartialEq, Eq)]
pub struct Turn<'a> {
    pub store: &'a [u8],
    pub sequence: u8,
    pub now: u32,
    /// The last id reported; none where it is no id, above ffff.
    pub last: u32,
    /// The bytes of the frame buffer.
    pub room: usize,
}

/// What comes of it, beside the table.
#[derive(Debug, Clone, PartialEq, Eq)]
pub struct Turned {
    /// The frame is its reply.
    pub answer: Answer,
    /// The last id that it wrote or, if none, the one handed in.
    pub last: u32,
}

/// A frame, and the ids of its records, in their order.
type Written = (Vec<u8>, Vec<u16>);

impl Turn<'_> {
    /// The turn over a table, given as its bytes.
    pub fn lent(&self, table: &mut [u8]) -> Turned {
        match self.marked(table) {
            Ok((reply, ids)) => Turned {
                answer: Answer { number: 0, reply },
                last: ids.last().map_or(self.last, |&id| id.into()),
            },
            Err(refusal) => Turned {
                answer: Served::Err(refusal).into(),
                last: self.last,
            },
        }
    }

    /// Writes the frame, and marks what stands in it.
    fn marked(&self, table: &mut [u8]) -> Result<Written, Refusal> {
        if !is_store(self.store) {
            return Err(Refusal::NoStore);
        }
        let mut entries = entries(table).map_err(|_| Refusal::NoTable)?;
        let (frame, ids) = self.written(&entries)?;
        for &id in &ids {
            if let Some(place) = place(&entries, self.key(id)) {
                entries[place].last = Some((self.now, self.value(id)));
            }
        }
        table.copy_from_slice(&table::to_bytes(&entries));
        Ok((frame, ids))
    }

    /// The due records, up to the first that does not fit.
    fn written(&self, table: &[Entry]) -> Result<Written, Refusal> {
        let mut frame = Reply::begun(self.sequence, 0x0a, self.room)?;
        let due = self.found_due(table);
        if due.is_empty() {
            return Err(Refusal::NothingToSend);
        }
        let mut ids = Vec::new();
        for id in due {
            let record = record(self.store, id).expect("it was found due");
            if !frame.fits(record.len()) {
                break;
            }
            frame.put(&record)?;
            ids.push(id);
        }
        if ids.is_empty() {
            return Err(Refusal::DoesNotFit);
        }
        Ok((frame.done()?, ids))
    }

    /// The ids found due, in their order: those above the last id, then the others.
    pub fn found_due(&self, table: &[Entry]) -> Vec<u16> {
        let above = |&id: &u16| self.last > 0xffff || self.last < id.into();
        let ascending = self.ascending(table).into_iter();
        let (first, then): (Vec<u16>, Vec<u16>) = ascending.partition(above);
        [first, then].concat()
    }

    /// The ids of the due entries of the store's cluster, each once. An entry whose
    /// attribute is gone or not reportable is passed over.
    fn ascending(&self, table: &[Entry]) -> BTreeSet<u16> {
        let ids = table.iter().map(|entry| entry.key.attribute);
        ids.filter(|&id| record(self.store, id).is_some())
            .filter(|&id| ask(table, self.key(id), self.now, self.value(id)).is_due())
            .collect()
    }

    /// The number of an attribute's value. No number counts as 0.
    fn value(&self, id: u16) -> i64 {
        number(self.store, id).unwrap_or(0)
    }

    fn key(&self, attribute: u16) -> Key {
        let cluster = cluster_of(self.store).expect("a store has its cluster");
        Key { cluster, attribute }
    }
}
