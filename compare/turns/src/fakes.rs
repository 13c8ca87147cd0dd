//! Servers that are wrong, each in its way.

use std::collections::BTreeSet;

use ours::{Answer, Server};
use reading::commands::Turned;
use reading::store::{cluster_of, find, is_store, number, value};
use reading::table::{Entry, Key, ask, entries, to_bytes};

use crate::call::Call;
use crate::given::Given;

/// What is wrong with a server's turns.
#[derive(Debug, Clone, Copy, PartialEq, Eq)]
pub enum Wrong {
    /// It starts at the lowest id, whatever was handed in,
    FromTheLowest,
    /// or at the last id itself,
    AtTheLast,
    /// or takes 10000 for 0.
    LastCut,
    /// It does not go round.
    NotRound,
    /// It takes the entries in the table's order.
    TableOrder,
    /// It writes an id for each entry of its key,
    EachEntry,
    /// or goes by the last entry of a key.
    LastEntry,
    /// It looks at entries of every cluster.
    AnyCluster,
    /// It tries the records behind one that does not fit.
    GoesOn,
    /// It writes what is not reportable.
    NotReportable,
    /// An attribute that is gone ends the turn.
    GoneEnds,
    /// What has no number is not due,
    NumberlessNotDue,
    /// or is not marked.
    NumberlessNotMarked,
    /// It marks all that is due,
    MarksAll,
    /// or none,
    MarksNone,
    /// or marks with a time a second later.
    MarksLater,
    /// It says 6 before 5 for the header,
    NothingFirst,
    /// or 8 before 7,
    TableFirst,
    /// or sends a header without records.
    HeaderAlone,
    /// A refusal gives 0 back,
    LastForgotten,
    /// or leaves bytes in the buffer.
    LeavesBytes,
}

pub const ALL: [Wrong; 21] = [
    Wrong::FromTheLowest,
    Wrong::AtTheLast,
    Wrong::LastCut,
    Wrong::NotRound,
    Wrong::TableOrder,
    Wrong::EachEntry,
    Wrong::LastEntry,
    Wrong::AnyCluster,
    Wrong::GoesOn,
    Wrong::NotReportable,
    Wrong::GoneEnds,
    Wrong::NumberlessNotDue,
    Wrong::NumberlessNotMarked,
    Wrong::MarksAll,
    Wrong::MarksNone,
    Wrong::MarksLater,
    Wrong::NothingFirst,
    Wrong::TableFirst,
    Wrong::HeaderAlone,
    Wrong::LastForgotten,
    Wrong::LeavesBytes,
];

/// With nothing wrong it is right.
pub struct Fake(pub Option<Wrong>);

impl Server<Call> for Fake {
    fn serve(&mut self, calls: &[Call]) -> Result<Vec<Result<Answer, String>>, String> {
        let answer = |call: &Call| match call {
            Call::Turn(given, _) => self.turn(given),
            Call::Other(held) => held.answer.clone(),
        };
        Ok(calls.iter().map(answer).map(Ok).collect())
    }
}

/// A frame, and the table and the last id behind it.
struct Sent {
    frame: Vec<u8>,
    table: Vec<u8>,
    last: u32,
}

impl Fake {
    fn is(&self, wrong: Wrong) -> bool {
        self.0 == Some(wrong)
    }

    fn turn(&self, given: &Given) -> Answer {
        let answered = |number, reply: &[u8], last, table: &[u8]| {
            let reply = reply.to_vec();
            let answer = reading::commands::Answer { number, reply };
            given.seen(&Turned { answer, last }, table)
        };
        match self.sent(given) {
            Ok(Sent { frame, table, last }) => answered(0, &frame, last, &table),
            Err(number) if self.is(Wrong::LastForgotten) => answered(number, &[], 0, &given.table),
            Err(number) if self.is(Wrong::LeavesBytes) && given.room > 0 => {
                let mut left = answered(number, &[0xa5], given.last, &given.table);
                left.results[0] = 0;
                left
            }
            Err(number) => answered(number, &[], given.last, &given.table),
        }
    }

    fn sent(&self, given: &Given) -> Result<Sent, u8> {
        let store = if is_store(&given.store) {
            Ok(())
        } else {
            Err(7)
        };
        let table = entries(&given.table).map_err(|_| 8);
        let table = match self.is(Wrong::TableFirst) {
            true => table.and_then(|table| store.map(|()| table))?,
            false => store.and(table)?,
        };
        let due = self.due(given, &table);
        let header = if given.room < 3 { Err(5) } else { Ok(()) };
        let some = if due.is_empty() { Err(6) } else { Ok(()) };
        match self.is(Wrong::NothingFirst) {
            true => some.and(header)?,
            false => header.and(some)?,
        }
        let (frame, written) = self.written(given, &due);
        if written.is_empty() && !self.is(Wrong::HeaderAlone) {
            return Err(5);
        }
        let marked = match self.0 {
            Some(Wrong::MarksAll) => &due,
            Some(Wrong::MarksNone) => &vec![],
            _ => &written,
        };
        Ok(Sent {
            frame,
            table: to_bytes(&self.marked(given, table, marked)),
            last: written.last().map_or(given.last, |&id| id.into()),
        })
    }

    /// The ids found due, in the order in which they are taken.
    fn due(&self, given: &Given, table: &[Entry]) -> Vec<u16> {
        let mut ids: Vec<u16> = table.iter().map(|entry| entry.key.attribute).collect();
        let cluster = cluster_of(&given.store);
        if self.is(Wrong::EachEntry) {
            let own = table
                .iter()
                .filter(|entry| Some(entry.key.cluster) == cluster);
            ids = own.map(|entry| entry.key.attribute).collect();
            ids.sort();
        } else if self.is(Wrong::TableOrder) {
            let mut seen = BTreeSet::new();
            ids.retain(|&id| seen.insert(id));
        } else {
            ids = BTreeSet::from_iter(ids).into_iter().collect();
        }
        if self.is(Wrong::GoneEnds) {
            let gone = |&id: &u16| find(&given.store, id).is_none();
            let until = ids.iter().position(gone).unwrap_or(ids.len());
            ids.truncate(until);
        }
        ids.retain(|&id| self.is_due(given, table, id));
        let none = self.is(Wrong::FromTheLowest) || given.last > 0xffff;
        let last = match self.0 {
            Some(Wrong::LastCut) if given.last > 0xffff => Some(0),
            Some(Wrong::AtTheLast) if !none => given.last.checked_sub(1),
            _ => (!none).then_some(given.last),
        };
        let above = |&id: &u16| last.is_none_or(|last| u32::from(id) > last);
        let (first, then): (Vec<u16>, Vec<u16>) = ids.into_iter().partition(above);
        match self.is(Wrong::NotRound) {
            true => first,
            false => [first, then].concat(),
        }
    }

    fn is_due(&self, given: &Given, table: &[Entry], id: u16) -> bool {
        let Some(attribute) = find(&given.store, id) else {
            return false;
        };
        let reportable = attribute.access & 2 != 0 || self.is(Wrong::NotReportable);
        let numbered = number(&given.store, id);
        let counts = numbered.is_ok() || !self.is(Wrong::NumberlessNotDue);
        let value = numbered.unwrap_or(0);
        let asked = |entry: &Entry| ask(&[*entry], entry.key, given.now, value).is_due();
        let due = self.entry(given, table, id);
        reportable && counts && due.is_some_and(|place| asked(&table[place]))
    }

    /// The place of the entry that counts.
    fn entry(&self, given: &Given, table: &[Entry], id: u16) -> Option<usize> {
        let cluster = cluster_of(&given.store).expect("a store");
        let key = Key {
            cluster,
            attribute: id,
        };
        let counts = |entry: &Entry| {
            entry.key == key || self.is(Wrong::AnyCluster) && entry.key.attribute == id
        };
        match self.is(Wrong::LastEntry) {
            true => table.iter().rposition(counts),
            false => table.iter().position(counts),
        }
    }

    fn written(&self, given: &Given, due: &[u16]) -> (Vec<u8>, Vec<u16>) {
        let (mut frame, mut written) = (vec![0x18, given.sequence, 0x0a], Vec::new());
        for &id in due {
            let code = find(&given.store, id).expect("it is due").type_code;
            let value = value(&given.store, id).expect("it is due");
            let record = [&id.to_le_bytes()[..], &[code], value].concat();
            if frame.len() + record.len() <= given.room {
                frame.extend(record);
                written.push(id);
            } else if !self.is(Wrong::GoesOn) {
                break;
            }
        }
        (frame, written)
    }

    fn marked(&self, given: &Given, mut table: Vec<Entry>, ids: &[u16]) -> Vec<Entry> {
        for &id in ids {
            let numbered = number(&given.store, id);
            if numbered.is_err() && self.is(Wrong::NumberlessNotMarked) {
                continue;
            }
            let later = u32::from(self.is(Wrong::MarksLater));
            let place = self.entry(given, &table, id).expect("it was due");
            table[place].last = Some((given.now.wrapping_add(later), numbered.unwrap_or(0)));
        }
        table
    }
}
