//! Lists, what they meet, and how they are sent.

use cases::{Case, Seen};

/// What a call meets.
#[derive(Debug, Clone, PartialEq, Eq)]
pub struct Before {
    pub store: Vec<u8>,
    pub table: Vec<u8>,
    pub cluster: u16,
}

impl Before {
    /// What the next call meets.
    pub fn after(&self, seen: &Seen) -> Self {
        Self {
            store: seen.store.clone(),
            table: seen.table.clone(),
            cluster: self.cluster,
        }
    }

    /// Whether a call changed store or table.
    pub fn changed(&self, seen: &Seen) -> bool {
        self.store != seen.store || self.table != seen.table
    }
}

/// Whether two calls left the same store and the same table.
pub fn same(one: &Seen, other: &Seen) -> bool {
    one.store == other.store && one.table == other.table
}

/// All of a call but what it meets and its list.
#[derive(Debug, Clone, PartialEq, Eq)]
pub struct Way {
    /// The request's header.
    pub head: Vec<u8>,
    pub unicast: u8,
    pub room: usize,
}

impl Way {
    /// With nothing in the header but the command.
    pub fn plain(command: u8, room: usize) -> Self {
        Self {
            head: vec![0x00, 0x00, command],
            unicast: 1,
            room,
        }
    }

    pub fn command(&self) -> u8 {
        *self.head.last().expect("a header ends in the command")
    }

    /// The call.
    pub fn case(&self, before: &Before, list: &[u8]) -> Case {
        Case {
            store: before.store.clone(),
            table: before.table.clone(),
            cluster: before.cluster,
            unicast: self.unicast,
            request: [&self.head, list].concat(),
            room: self.room,
        }
    }
}

/// Two lists, and as many ways of sending as a law speaks of.
#[derive(Debug, Clone, PartialEq, Eq)]
pub struct Lists<const N: usize> {
    pub before: Before,
    pub lists: [Vec<u8>; 2],
    pub ways: [Way; N],
}
