//! Requests made by hand, over bench store T: of its four attributes 0 and 5
//! can be reported.

use cases::Case;
use cases::stores::bench;
use reading::table::{Config, ENTRIES, Entry, FORMER_ENTRIES, Key, SIGNED, UNSIGNED};

use super::{CONFIGURE, READ, RECEIVED, over};

const CLUSTER: u16 = 0xfc21;

pub fn all() -> Vec<Case> {
    let mut cases = Vec::new();
    for table in tables() {
        for (command, body) in bodies() {
            cases.push(asked(&table, command, &body, 64));
        }
    }
    for table in full() {
        for (command, body) in few_bodies() {
            cases.push(asked(&table, command, &body, 64));
        }
    }
    for room in 0..=24 {
        cases.push(asked(&[], CONFIGURE, &record(5, 10, 60), room));
        let body = [record(5, 10, 60), record(9, 10, 60), record(1, 10, 60)].concat();
        cases.push(asked(&[], CONFIGURE, &body, room));
        let ids = [0, 5, 0, 0, 0, 0, 0, 9, 0];
        cases.push(asked(&of(&[0, 5]), READ, &ids, room));
    }
    cases.extend(received());
    cases
}

/// Default Responses, empty, cut, whole and longer, to the server and to the
/// client, with a manufacturer code and without; and cluster commands of their
/// number.
fn received() -> Vec<Case> {
    let heads: [&[u8]; 6] = [
        &[0x00, 0x00],
        &[0x00, 0x2a],
        &[0x18, 0x2a],
        &[0x10, 0xff],
        &[0x0c, 0x34, 0x12, 0x2a],
        &[0x01, 0x2a],
    ];
    let bodies: [&[u8]; 4] = [&[], &[0x00], &[0x0b, 0x81], &[0x00, 0x00, 0x01]];
    let mut cases = Vec::new();
    for (head, body) in heads
        .iter()
        .flat_map(|&head| bodies.map(|body| (head, body)))
    {
        let frame = [head, &[RECEIVED], body].concat();
        for room in [0, 4, 5, 64] {
            cases.push(over(&bench(), &of(&[5]), &frame, room));
        }
    }
    cases
}

fn asked(table: &[Entry], command: u8, body: &[u8], room: usize) -> Case {
    let frame = [&[0x00, 0x2a, command], body].concat();
    over(&bench(), table, &frame, room)
}

/// Attributes that T does not have.
fn others(many: usize) -> Vec<u16> {
    (100..).take(many).collect()
}

/// Full: an own key among the others, and last; and none.
fn full() -> [Vec<Entry>; 3] {
    let others = of(&others(ENTRIES));
    let [mut own, mut last] = [others.clone(), others.clone()];
    own[7] = entry(5, Some((0, 0)));
    last[ENTRIES - 1] = entry(5, None);
    [own, last, others]
}

/// What is said of a full table, in few lines since they are long.
fn few_bodies() -> [(u8, Vec<u8>); 4] {
    let one = record(5, 10, 60);
    let other = record(0, 1, 2);
    let room_first = [&record(5, 1, 0xffff)[..], &other].concat();
    let reads = vec![0, 5, 0, 0, 0, 0, 0, 100, 0];
    [
        (CONFIGURE, one.clone()),
        (CONFIGURE, [other, one].concat()),
        (CONFIGURE, room_first),
        (READ, reads),
    ]
}

/// Empty; one entry, reported, and not and with another mark than its type's;
/// some; as many as there was room for before document 02's request 7, with an own
/// key among the others and with none; a key twice.
fn tables() -> Vec<Vec<Entry>> {
    let others = others(FORMER_ENTRIES);
    let mut own = of(&others);
    own[7] = entry(5, Some((0, 0)));
    let mut quiet = vec![entry(5, None)];
    quiet[0].config.mark = UNSIGNED;
    let twice = vec![entry(5, Some((7, -7))), entry(0, None), entry(5, None)];
    vec![
        Vec::new(),
        of(&[5]),
        quiet,
        of(&others[..8]),
        own,
        of(&others),
        twice,
    ]
}

/// Every second one was reported.
fn of(attributes: &[u16]) -> Vec<Entry> {
    attributes
        .iter()
        .map(|&attribute| {
            entry(
                attribute,
                (attribute % 2 == 1).then_some((u32::MAX, i64::MIN)),
            )
        })
        .collect()
}

fn entry(attribute: u16, last: Option<(u32, i64)>) -> Entry {
    Entry {
        key: Key {
            cluster: CLUSTER,
            attribute,
        },
        config: Config {
            minimum: attribute,
            maximum: 0xff00 + attribute,
            change: u64::MAX - u64::from(attribute),
            mark: if attribute.is_multiple_of(3) {
                UNSIGNED
            } else {
                SIGNED
            },
        },
        last,
    }
}

/// A record of an attribute of T, with its own type.
fn record(id: u16, minimum: u16, maximum: u16) -> Vec<u8> {
    let (code, change): (u8, &[u8]) = match id {
        0 => (0x23, &[1, 0, 0, 0x80]),
        1 => (0x20, &[1]),
        7 => (0x42, &[]),
        _ => (0x29, &[0xff, 0xff]),
    };
    let numbers = [minimum, maximum].map(u16::to_le_bytes).concat();
    [&[0], &id.to_le_bytes()[..], &[code], &numbers, change].concat()
}

fn bodies() -> Vec<(u8, Vec<u8>)> {
    let mut configures: Vec<Vec<u8>> =
        [(0, 0), (60, 10), (0, 0xffff), (0xffff, 0xffff), (0xffff, 0)]
            .map(|(minimum, maximum)| record(5, minimum, maximum))
            .to_vec();
    let right = record(5, 10, 60);
    let other_type = [0, 5, 0, 0x21, 10, 0, 60, 0, 1, 0].to_vec();
    let received = [1, 5, 0, 60, 0].to_vec();
    configures.extend([
        Vec::new(),
        right.clone(),
        [&right[..], &record(0, 1, 2)].concat(),
        [&right[..], &record(5, 1, 0xffff)].concat(),
        [record(0, 1, 0xffff), record(5, 1, 0xffff)].concat(),
        [
            &record(9, 1, 2)[..],
            &right,
            &record(7, 1, 2),
            &record(1, 1, 2),
        ]
        .concat(),
        [&other_type[..], &received, &record(5, 2, 1)].concat(),
        [&received[..], &other_type].concat(),
        right[..right.len() - 1].to_vec(),
        [&right[..], &record(0, 1, 2)[..5]].concat(),
    ]);
    let reads: [&[u8]; 8] = [
        &[],
        &[0, 5, 0],
        &[0, 0, 0, 0, 5, 0],
        &[0, 1, 0, 0, 9, 0, 1, 5, 0],
        &[0, 7, 0, 0, 5, 0, 0, 100, 0],
        &[1, 9, 0, 0, 0, 0],
        &[0, 5],
        &[0, 5, 0, 0],
    ];
    let configures = configures.into_iter().map(|body| (CONFIGURE, body));
    configures
        .chain(reads.map(|body| (READ, body.to_vec())))
        .collect()
}
