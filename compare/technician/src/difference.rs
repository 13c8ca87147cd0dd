//! The first place in which two answers differ.

use std::fmt;

use cases::{Seen, hex, shown, unmarked};
use oracle::Outcome;
use reading::table::{entries, to_bytes};

/// What a side says and leaves.
#[derive(Clone)]
pub struct Side {
    name: &'static str,
    /// The old one has none.
    number: Option<u8>,
    reply: Option<Vec<u8>>,
    /// The bytes behind the reply, which the old one is not held to.
    behind: Option<Vec<u8>>,
    store: Vec<u8>,
    table: Vec<u8>,
}

impl Side {
    pub fn of_seen(name: &'static str, seen: &Seen) -> Self {
        Self {
            name,
            number: Some(seen.number),
            reply: (seen.number == 0).then(|| seen.reply().to_vec()),
            behind: Some(seen.buffer[seen.used..].to_vec()),
            store: seen.store.clone(),
            table: seen.table.clone(),
        }
    }

    pub fn of_outcome(name: &'static str, outcome: &Outcome) -> Self {
        Self {
            name,
            number: None,
            reply: outcome.reply.clone(),
            behind: None,
            store: outcome.store.clone(),
            table: to_bytes(&outcome.table),
        }
    }

    /// With a table as the old one has it, which knows no marks.
    pub fn unmarked(&self) -> Self {
        let mut side = self.clone();
        if let Ok(entries) = entries(&side.table) {
            side.table = to_bytes(&unmarked(&entries));
        }
        side
    }
}

impl fmt::Display for Side {
    fn fmt(&self, f: &mut fmt::Formatter<'_>) -> fmt::Result {
        writeln!(f, "{}:", self.name)?;
        if let Some(number) = self.number {
            writeln!(f, "  number   {number}")?;
        }
        let reply = self.reply.as_ref().map(|reply| hex(reply));
        writeln!(f, "  reply    {}", reply.as_deref().unwrap_or("none"))?;
        writeln!(f, "  store    {}", hex(&self.store))?;
        writeln!(f, "  table    {}", shown(&self.table))
    }
}

/// Where two sides first differ, in words. What a side does not have is not
/// compared.
pub fn first(one: &Side, other: &Side) -> Option<String> {
    let names = [one.name, other.name];
    let there = |bytes: &Option<Vec<u8>>| {
        if bytes.is_some() {
            "a reply"
        } else {
            "no reply"
        }
    };
    let reply = match (&one.reply, &other.reply) {
        (Some(one), Some(other)) => bytes("reply", names, one, other),
        (None, None) => None,
        (one, other) => Some(said("the reply", names, [there(one), there(other)])),
    };
    let number = match (one.number, other.number) {
        (Some(one), Some(other)) if one != other => {
            let numbers = [one, other].map(|number| number.to_string());
            Some(said("the number", names, [&numbers[0], &numbers[1]]))
        }
        _ => None,
    };
    let behind = match (&one.behind, &other.behind) {
        (Some(one), Some(other)) => bytes("behind the reply", names, one, other),
        _ => None,
    };
    number
        .or(reply)
        .or_else(|| bytes("store", names, &one.store, &other.store))
        .or_else(|| bytes("table", names, &one.table, &other.table))
        .or(behind)
}

/// The first byte in which these differ, counted from 0.
fn bytes(what: &str, names: [&str; 2], one: &[u8], other: &[u8]) -> Option<String> {
    let at = (0..one.len().max(other.len())).find(|&at| one.get(at) != other.get(at))?;
    let byte = |bytes: &[u8]| match bytes.get(at) {
        Some(byte) => format!("{byte:02x}"),
        None => "ends".to_owned(),
    };
    let [one, other] = [byte(one), byte(other)];
    Some(said(&format!("{what}, byte {at}"), names, [&one, &other]))
}

fn said(what: &str, [one, other]: [&str; 2], [first, second]: [&str; 2]) -> String {
    format!("{what}: {one} {first}, {other} {second}")
}

#[cfg(test)]
mod tests {
    use super::*;

    fn side(name: &'static str, reply: Option<&[u8]>, store: &[u8]) -> Side {
        Side {
            name,
            number: None,
            reply: reply.map(<[u8]>::to_vec),
            behind: None,
            store: store.to_vec(),
            table: to_bytes(&[]),
        }
    }

    fn between(old: Side, new: Side) -> String {
        first(&old, &new).unwrap_or_default()
    }

    #[test]
    fn the_first_byte() {
        let old = || side("old", Some(&[0x18, 0x2a, 0x01]), &[7, 8]);
        let new = |reply, store| between(old(), side("new", reply, store));
        assert_eq!(new(Some(&[0x18, 0x2a, 0x01]), &[7, 8]), "");
        assert_eq!(
            new(Some(&[0x18, 0x2b, 0x02]), &[7, 8]),
            "reply, byte 1: old 2a, new 2b"
        );
        assert_eq!(
            new(Some(&[0x18, 0x2a]), &[9, 8]),
            "reply, byte 2: old 01, new ends"
        );
        assert_eq!(
            new(Some(&[0x18, 0x2a, 0x01, 0]), &[7, 8]),
            "reply, byte 3: old ends, new 00"
        );
        assert_eq!(new(None, &[7, 8]), "the reply: old a reply, new no reply");
        assert_eq!(
            new(Some(&[0x18, 0x2a, 0x01]), &[7, 9]),
            "store, byte 1: old 08, new 09"
        );
    }

    #[test]
    fn a_table() {
        let mut new = side("new", None, &[]);
        new.table[480] = 1;
        assert_eq!(
            between(side("old", None, &[]), new),
            "table, byte 480: old 00, new 01"
        );
    }

    #[test]
    fn what_only_document_01_has() {
        let both = |number, behind: &[u8]| {
            let mut side = side("new", None, &[]);
            (side.number, side.behind) = (Some(number), Some(behind.to_vec()));
            side
        };
        assert_eq!(between(both(4, &[0]), both(4, &[0])), "");
        assert_eq!(
            between(both(4, &[0]), both(5, &[0])),
            "the number: new 4, new 5"
        );
        assert_eq!(
            between(both(4, &[0]), both(4, &[1])),
            "behind the reply, byte 0: new 00, new 01"
        );
        assert_eq!(between(side("old", None, &[]), both(4, &[1])), "");
    }
}
