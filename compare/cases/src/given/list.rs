//! Lists of attributes to report.

use std::fmt;

use reading::commands::{Answer, report};
use reading::store::attributes;

use super::stores;
use crate::hex::hex;
use crate::random::Random;

/// A report frame that is asked for.
#[derive(Debug, Clone, PartialEq, Eq)]
pub struct List {
    pub store: Vec<u8>,
    pub sequence: u8,
    pub ids: Vec<u16>,
    pub room: usize,
}

impl List {
    pub fn any(random: &mut Random) -> Self {
        let store = stores::any(random);
        let many = random.of(&[0, 1, 1, 2, 3, 6]);
        let ids = (0..many).map(|_| id(random, &store)).collect();
        let (sequence, room) = (random.byte(), small_room(random));
        Self {
            store,
            sequence,
            ids,
            room,
        }
    }

    /// Document 01's answer.
    pub fn document(&self) -> Answer {
        report(&self.store, self.sequence, &self.ids, self.room)
    }
}

/// A room, mostly small.
pub fn small_room(random: &mut Random) -> usize {
    match random.below(4) {
        0 => random.below(4),
        1 => random.below(8),
        _ => random.below(48),
    }
}

/// An id of the store, or any.
pub fn id(random: &mut Random, store: &[u8]) -> u16 {
    match attributes(store) {
        Some(attributes) if !attributes.is_empty() && !random.one_in(12) => {
            random.of(&attributes).id
        }
        _ => random.short(),
    }
}

impl fmt::Display for List {
    fn fmt(&self, f: &mut fmt::Formatter<'_>) -> fmt::Result {
        let Self {
            store,
            sequence,
            ids,
            room,
        } = self;
        let store = hex(store);
        write!(
            f,
            "report {ids:04x?}, sequence {sequence:02x}, room {room}, over {store}"
        )
    }
}
