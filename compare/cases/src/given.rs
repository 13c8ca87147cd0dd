//! The frames: each over the store and the table that the frames before it
//! left, and now and then over new ones.

mod list;
pub mod stores;
pub mod tables;

use reading::commands::serve_lent;
use reading::store::{attributes, cluster_of};

use crate::case::{Case, Seen};
use crate::random::Random;
use crate::records::body_of;
use crate::requests::{header, request};

pub use list::{List, id, small_room};

const COMMANDS: [u8; 7] = [0x00, 0x02, 0x03, 0x05, 0x06, 0x08, 0x0c];

/// Frames over one store and one table, as long as they last.
const FRAMES: usize = 40;

/// What the next frame meets.
#[derive(Default)]
pub struct Given {
    store: Vec<u8>,
    table: Vec<u8>,
    left: usize,
}

impl Given {
    pub fn next(&mut self, random: &mut Random) -> Case {
        if self.left == 0 {
            self.store = stores::any(random);
            let attributes = attributes(&self.store).unwrap_or_default();
            let cluster = cluster_of(&self.store).unwrap_or(0);
            self.table = tables::any(random, cluster, &attributes);
            self.left = FRAMES;
        }
        self.left -= 1;
        let own = cluster_of(&self.store).unwrap_or(0);
        let mut case = Case {
            store: self.store.clone(),
            table: self.table.clone(),
            cluster: match random.below(40) {
                0 => own.swap_bytes(),
                1 => own.wrapping_add(random.of(&[1, 0x0100])),
                _ => own,
            },
            unicast: random.of(&[0, 1, 1, 0x80]),
            request: frame(random, &self.store),
            room: 0,
        };
        case.room = room(random, &case);
        case
    }

    /// What this one left is what the next one meets. A damaged pair is given
    /// a few frames and no more.
    pub fn go_on(&mut self, seen: &Seen) {
        self.store.clone_from(&seen.store);
        self.table.clone_from(&seen.table);
        if matches!(seen.number, 7 | 8) {
            self.left = self.left.min(4);
        }
    }
}

fn frame(random: &mut Random, store: &[u8]) -> Vec<u8> {
    let attributes = attributes(store).unwrap_or_default();
    let command = random.of(&COMMANDS);
    match random.below(32) {
        // another global command, a received Default Response among them
        0 => {
            let command = match random.below(4) {
                0 => 0x0b,
                1 => random.byte(),
                _ => random.of(&[0x01, 0x04, 0x07, 0x09, 0x0a, 0x0d, 0x0e]),
            };
            request(random, &attributes, command)
        }
        // a cluster command, a reserved type
        1 => {
            let control = random.of(&[0x01, 0x05, 0x09, 0x11, 0x19, 0x02, 0x03, 0x06]);
            let more = random.below(4);
            [header(random, control, command), random.bytes(more)].concat()
        }
        // no whole header
        2 => {
            let control = random.byte();
            let head = header(random, control, command);
            head[..random.below(head.len())].to_vec()
        }
        3 => {
            let length = random.below(20);
            random.bytes(length)
        }
        // with many records
        4 => {
            let first = request(random, &attributes, command);
            let bodies = (0..20).flat_map(|_| {
                let next = request(random, &attributes, command);
                body_of(&next).map_or(Vec::new(), |(_, body)| body.to_vec())
            });
            first.iter().copied().chain(bodies).collect()
        }
        _ => request(random, &attributes, command),
    }
}

/// Around the length of the reply that all the room in the world would give,
/// or small, or any.
fn room(random: &mut Random, case: &Case) -> usize {
    match random.below(8) {
        0 => random.below(8),
        1 => random.below(40),
        2 => random.below(400),
        3 => 64,
        _ => {
            let (store, table) = (&mut case.store.clone(), &mut case.table.clone());
            let unicast = case.unicast != 0;
            let ample = serve_lent(store, table, case.cluster, unicast, &case.request, 8192);
            match random.below(3) {
                0 => random.below(ample.reply.len() + 1),
                1 => ample.reply.len(),
                _ => (ample.reply.len() + 1).saturating_sub(random.below(5)),
            }
        }
    }
}
