//! A report turn, sentence by sentence.

mod common;

use std::collections::HashMap;

use common::{CLUSTER, bench, bytes, hex};
use reading::commands::{Turn, Turned};
use reading::store::is_store;
use reading::table::{Config, ENTRIES, Entry, Key, SIGNED, SIZE, UNSIGNED, entries, to_bytes};

const NO_ID: u32 = 0x10000;
const NOW: u32 = 100;

/// A Uint8 0, an Int16 2, a string 4, 16 bytes 6, a Uint8 8 that is not
/// reportable, and a Uint64 ffff.
fn store() -> Vec<u8> {
    let store = bytes(
        "21fc0600 0000200234000100 0200290235000200 0400420237000500
         0600f1023c001000 080020014c000100 ffff27024d000800
         07 feff 0254560000 000102030405060708090a0b0c0d0e0f 08 ffffffffffffffff",
    );
    assert!(is_store(&store));
    store
}

/// The store's records, as they are sent.
fn record(id: u16) -> &'static str {
    match id {
        0 => "0000 20 07",
        2 => "0200 29 feff",
        4 => "0400 42 025456",
        6 => "0600 f1 000102030405060708090a0b0c0d0e0f",
        0xffff => "ffff 27 ffffffffffffffff",
        _ => panic!("no record"),
    }
}

fn frame(ids: &[u16]) -> Vec<u8> {
    let records = ids.iter().flat_map(|&id| bytes(record(id)));
    [0x18, 0x2a, 0x0a].into_iter().chain(records).collect()
}

/// Every 0 to 60 seconds, for any move; never reported.
fn entry(attribute: u16) -> Entry {
    Entry {
        key: Key {
            cluster: CLUSTER,
            attribute,
        },
        config: Config {
            minimum: 0,
            maximum: 60,
            change: 1,
            mark: SIGNED,
        },
        last: None,
    }
}

/// Last reported at this time, with this value.
fn reported(attribute: u16, time: u32, value: i64) -> Entry {
    Entry {
        last: Some((time, value)),
        ..entry(attribute)
    }
}

fn turn(store: &[u8], last: u32, room: usize) -> Turn<'_> {
    Turn {
        store,
        sequence: 0x2a,
        now: NOW,
        last,
        room,
    }
}

/// A turn from no id, with this room.
fn taken(table: &[Entry], room: usize) -> (Turned, Vec<Entry>) {
    on(&store(), table, NO_ID, room)
}

fn on(store: &[u8], table: &[Entry], last: u32, room: usize) -> (Turned, Vec<Entry>) {
    let mut lent = to_bytes(table);
    let turned = turn(store, last, room).lent(&mut lent);
    assert_eq!(turned.answer.number == 0, !turned.answer.reply.is_empty());
    (turned, entries(&lent).expect("it is a table still"))
}

/// The frame of these ids, the last of which is given back, and these are marked.
#[track_caller]
fn writes(table: &[Entry], last: u32, room: usize, ids: &[u16]) {
    let (turned, left) = on(&store(), table, last, room);
    assert_eq!(hex(&turned.answer.reply), hex(&frame(ids)));
    assert_eq!(turned.answer.number, 0);
    assert_eq!(turned.last, (*ids.last().expect("some")).into());
    let marked: Vec<Entry> = table.iter().map(|&entry| marked(entry, ids)).collect();
    assert_eq!(left, marked);
}

/// As a turn leaves it that writes these ids of S.
fn marked(mut entry: Entry, ids: &[u16]) -> Entry {
    if ids.contains(&entry.key.attribute) {
        let value = match entry.key.attribute {
            0 => 7,
            2 => -2,
            0xffff => -1,
            _ => 0,
        };
        entry.last = Some((NOW, value));
    }
    entry
}

/// The refusal, which leaves the table and gives back the id handed in.
#[track_caller]
fn refuses(table: &[Entry], last: u32, room: usize, number: u8) {
    let (turned, left) = on(&store(), table, last, room);
    assert_eq!(turned.answer.number, number);
    assert_eq!(turned.answer.buffer(room), vec![0; room]);
    assert_eq!((turned.last, left), (last, table.to_vec()));
}

#[test]
fn all_that_is_due_in_ascending_order() {
    let ascending = [0, 2, 4, 6, 0xffff];
    for table in [ascending, [0xffff, 6, 4, 2, 0], [4, 0xffff, 0, 6, 2]] {
        writes(&table.map(entry), NO_ID, 100, &ascending);
    }
}

#[test]
fn the_frame_is_of_that_sequence_and_followed_by_zeros() {
    for sequence in [0, 1, 0xff] {
        let store = store();
        let turn = Turn {
            sequence,
            ..turn(&store, NO_ID, 9)
        };
        let turned = turn.lent(&mut to_bytes(&[entry(0)]));
        let whole = [0x18, sequence, 0x0a, 0, 0, 0x20, 7, 0, 0];
        assert_eq!(turned.answer.buffer(9), whole);
        assert_eq!(turned.answer.reply.len(), 7);
    }
}

#[test]
fn marked_with_the_time_and_the_number() {
    let (_, left) = taken(&[0, 2, 0xffff].map(entry), 100);
    let last: Vec<_> = left.iter().map(|entry| entry.last).collect();
    assert_eq!(last, [7, -2, -1].map(|value| Some((NOW, value))));
}

#[test]
fn every_room() {
    let table = [0, 2, 4].map(entry);
    for room in 0..30 {
        match room {
            0..=6 => refuses(&table, NO_ID, room, 5),
            7..=11 => writes(&table, NO_ID, room, &[0]),
            12..=17 => writes(&table, NO_ID, room, &[0, 2]),
            _ => writes(&table, NO_ID, room, &[0, 2, 4]),
        }
    }
}

#[test]
fn stops_at_the_first_that_does_not_fit() {
    // ffff would fit behind 0, where 6 does not
    let table = [0, 6, 0xffff].map(entry);
    writes(&table, NO_ID, 3 + 4 + 11, &[0]);
    writes(&table, NO_ID, 3 + 4 + 19 + 10, &[0, 6]);
    refuses(&[6, 0xffff].map(entry), NO_ID, 3 + 18, 5);
    writes(&[6, 0xffff].map(entry), 6, 3 + 18, &[0xffff]);
}

#[test]
fn from_above_the_last_id_and_round() {
    let table = [0, 2, 4, 0xffff].map(entry);
    for (last, ids) in [
        (NO_ID, [0, 2, 4, 0xffff]),
        (NO_ID + 1, [0, 2, 4, 0xffff]),
        (u32::MAX, [0, 2, 4, 0xffff]),
        (0xffff, [0, 2, 4, 0xffff]),
        (0, [2, 4, 0xffff, 0]),
        (1, [2, 4, 0xffff, 0]),
        (2, [4, 0xffff, 0, 2]),
        (3, [4, 0xffff, 0, 2]),
        (4, [0xffff, 0, 2, 4]),
        (0xfffe, [0xffff, 0, 2, 4]),
    ] {
        writes(&table, last, 100, &ids);
    }
}

#[test]
fn the_last_id_alone_is_due() {
    for (id, last) in [(0, 0), (2, 2), (0xffff, 0xffff)] {
        writes(&[entry(id)], last, 100, &[id]);
    }
}

#[test]
fn turn_by_turn_all_are_written() {
    let store = store();
    let (mut table, mut last) = (to_bytes(&[4, 0, 2].map(entry)), NO_ID);
    for (id, number) in [(0, 0), (2, 0), (4, 0), (4, 6), (4, 6)] {
        let turned = turn(&store, last, 9).lent(&mut table);
        assert_eq!((turned.answer.number, turned.last), (number, id));
        last = turned.last;
    }
}

#[test]
fn a_key_twice_is_its_first_entry() {
    let (old, new) = (reported(0, 0, 7), reported(0, NOW, 7));
    let (turned, left) = taken(&[old, new], 100);
    assert_eq!(turned.answer.reply, frame(&[0]));
    assert_eq!(left, [new, new]);
    refuses(&[new, old], NO_ID, 100, 6);
    refuses(&[new, entry(0)], NO_ID, 100, 6);

    let (turned, left) = taken(&[old, entry(2), old], 100);
    assert_eq!(turned.answer.reply, frame(&[0, 2]));
    assert_eq!(left, [new, reported(2, NOW, -2), old]);
}

#[test]
fn gone_or_not_reportable_is_passed_over() {
    for passed in [1, 3, 7, 8, 0xfffe] {
        refuses(&[entry(passed)], NO_ID, 100, 6);
        writes(&[passed, 0].map(entry), NO_ID, 7, &[0]);
        writes(&[2, passed, 0].map(entry), 0, 100, &[2, 0]);
    }
}

#[test]
fn no_number_is_marked_as_0() {
    let (turned, left) = taken(&[4, 6].map(entry), 100);
    assert_eq!(turned.answer.reply, frame(&[4, 6]));
    assert_eq!(left, [reported(4, NOW, 0), reported(6, NOW, 0)]);
}

#[test]
fn no_number_is_asked_as_0() {
    for id in [4, 6] {
        // moved, from 5 or -5 to 0
        writes(&[reported(id, NOW, 5)], NO_ID, 100, &[id]);
        writes(&[reported(id, NOW, -5)], NO_ID, 100, &[id]);
        // not moved: by the maximum alone
        refuses(&[reported(id, NOW - 59, 0)], NO_ID, 100, 6);
        writes(&[reported(id, NOW - 60, 0)], NO_ID, 100, &[id]);
    }
}

#[test]
fn another_string_is_not_due() {
    let (_, left) = taken(&[entry(4)], 100);
    let mut store = store();
    store[0x38..0x3a].copy_from_slice(b"PC");
    let (turned, same) = on(&store, &left, 4, 100);
    assert_eq!((turned.answer.number, turned.last, &same), (6, 4, &left));
}

#[test]
fn a_string_of_ff_is_one_byte() {
    let mut store = store();
    store[0x37..0x3c].copy_from_slice(&[0xff, 0, 0, 0, 0]);
    let (turned, _) = on(&store, &[entry(4)], NO_ID, 7);
    assert_eq!(turned.answer.reply, bytes("182a0a 0400 42 ff"));
    let (turned, _) = on(&store, &[entry(4)], NO_ID, 6);
    assert_eq!(turned.answer.number, 5);
}

#[test]
fn other_clusters_are_not_looked_at() {
    let mut other = entry(0);
    for cluster in [0x21fc, 0xfc20, 0, 0xffff] {
        other.key.cluster = cluster;
        refuses(&[other], NO_ID, 100, 6);
        let (turned, left) = taken(&[other, entry(0), other], 100);
        assert_eq!(turned.answer.reply, frame(&[0]));
        assert_eq!(left, [other, reported(0, NOW, 7), other]);
    }
}

#[test]
fn a_full_table() {
    let mut other = entry(0);
    other.key.cluster = 0x21fc;
    let mut table = vec![other; ENTRIES];
    refuses(&table, NO_ID, 100, 6);
    table[ENTRIES - 1] = entry(2);
    let (turned, left) = taken(&table, 100);
    assert_eq!(turned.answer.reply, frame(&[2]));
    table[ENTRIES - 1] = reported(2, NOW, -2);
    assert_eq!(left, table);
}

/// The entry's intervals and change, its last report, and whether 7 is due.
#[test]
fn due_as_an_ask_says() {
    for (minimum, maximum, change, last, due) in [
        (10, 60, 50, None, true),
        (10, 60, 0, Some((91, 6)), false),
        (10, 60, 0, Some((90, 6)), true),
        (10, 60, 1, Some((90, 6)), true),
        (10, 60, 2, Some((90, 6)), false),
        (10, 60, 0, Some((90, 7)), false),
        (10, 60, 50, Some((40, 7)), true),
        (10, 60, 50, Some((41, 7)), false),
        (10, 0, 50, Some((0, 7)), false),
        (10, 0, 7, Some((0, 0)), true),
        (0, 0xffff, 0, None, false),
        (0, 0xffff, 0, Some((0, 0)), false),
        // the minimum above the maximum; a clock that went back
        (80, 60, 0, Some((30, 7)), false),
        (80, 60, 0, Some((20, 7)), true),
        (0, 1, 50, Some((101, 7)), false),
        (0, 1, 1, Some((101, 6)), true),
    ] {
        let mut entry = entry(0);
        (entry.config.minimum, entry.config.maximum) = (minimum, maximum);
        (entry.config.change, entry.last) = (change, last);
        match due {
            true => writes(&[entry], NO_ID, 7, &[0]),
            false => refuses(&[entry], NO_ID, 7, 6),
        }
    }
}

/// From 0 to its top a Uint64 has moved by 2^64 - 1, with a sign by 1.
#[test]
fn due_by_the_mark() {
    let mut meter = reported(0xffff, NOW, 0);
    meter.config.change = 2;
    refuses(&[meter], NO_ID, 100, 6);
    meter.config.mark = UNSIGNED;
    writes(&[meter], NO_ID, 100, &[0xffff]);
}

#[test]
fn nothing_due() {
    for room in 3..6 {
        refuses(&[], NO_ID, room, 6);
        refuses(&[reported(0, NOW, 7)], 0, room, 6);
        refuses(&[entry(8)], 0x1234_5678, room, 6);
    }
    let empty = bytes("21fc0000");
    let (turned, left) = on(&empty, &[entry(0)], 9, 3);
    let expected = (6, 9, vec![entry(0)]);
    assert_eq!((turned.answer.number, turned.last, left), expected);
}

#[test]
fn the_id_handed_in_is_given_back_as_it_came() {
    for last in [0, 5, 0xffff, NO_ID, NO_ID + 5, u32::MAX] {
        refuses(&[entry(0)], last, 2, 5);
        refuses(&[entry(0)], last, 6, 5);
        refuses(&[reported(0, NOW, 7)], last, 6, 6);
    }
}

/// 7, 8, 5 for the header, 6, 5 for the first record: each also where those behind
/// it would be due.
#[test]
fn the_order_of_refusals() {
    let due = to_bytes(&[entry(0)]);
    let mut broken = due.clone();
    broken[0] = 0xff;
    let (whole, cut) = (bench(), bench()[..47].to_vec());
    for (store, table, room, number) in [
        (&cut, &broken, 0, 7),
        (&cut, &broken, 100, 7),
        (&cut, &due, 2, 7),
        (&whole, &broken, 2, 8),
        (&whole, &broken, 100, 8),
        (&whole, &vec![0; SIZE - 1], 2, 8),
        (&whole, &vec![0; SIZE], 2, 5),
        (&whole, &due, 2, 5),
        (&whole, &vec![0; SIZE], 3, 6),
        (&whole, &due, 3, 5),
        (&whole, &due, 9, 5),
        (&whole, &due, 10, 0),
    ] {
        let mut left = table.clone();
        let turned = turn(store, 7, room).lent(&mut left);
        assert_eq!(turned.answer.number, number, "room {room}");
        if number != 0 {
            assert_eq!((turned.last, &left), (7, table));
        }
    }
}

#[test]
fn bytes_that_are_no_store() {
    for store in [&[][..], &[0x21], &[0x21, 0xfc, 0], &bytes("21fc000000")] {
        let mut table = to_bytes(&[entry(0)]);
        let turned = turn(store, 7, 100).lent(&mut table);
        assert_eq!((turned.answer.number, turned.last), (7, 7));
        assert_eq!(table, to_bytes(&[entry(0)]));
    }
}

/// What is found due is told in its order, whether or not it fits.
#[test]
fn found_due() {
    let table = [0xffff, 3, 8, 0, 2].map(entry);
    for room in [0, 3, 7, 100] {
        let store = store();
        for (last, found) in [(NO_ID, [0, 2, 0xffff]), (1, [2, 0xffff, 0])] {
            assert_eq!(turn(&store, last, room).found_due(&table), found);
        }
    }
}

/// Turns that find an attribute due and do not write it, the most in a row: over
/// every set of due attributes, and every number of records that fit.
struct Row {
    ids: Vec<u16>,
    store: Vec<u8>,
    /// The attribute that waits.
    waits: u16,
    /// By the last id.
    known: HashMap<u32, usize>,
}

impl Row {
    /// So many Uint8s, with the ids 1, 3, 5 and so on.
    fn new(many: u16, waits: u16) -> Self {
        let ids: Vec<u16> = (0..many).map(|place| 2 * place + 1).collect();
        let mut store = [CLUSTER, many].map(u16::to_le_bytes).concat();
        for (place, id) in (0..).zip(&ids) {
            store.extend(id.to_le_bytes());
            store.extend([0x20, 2]);
            store.extend(
                [4 + 8 * many + place, 1]
                    .map(u16::to_le_bytes)
                    .as_flattened(),
            );
        }
        store.extend(vec![7; many.into()]);
        assert!(is_store(&store));
        Self {
            ids,
            store,
            waits,
            known: HashMap::new(),
        }
    }

    /// At most so many, from this last id.
    fn longest(&mut self, last: u32, most: usize) -> usize {
        if let Some(&known) = self.known.get(&last) {
            return known;
        }
        let many = self.ids.len();
        let mut longest = 0;
        for due in 0..1 << many {
            for records in 1..=many {
                if let Some(last) = self.waiting(due, last, 3 + 4 * records) {
                    assert!(most > 0, "{} is never written", self.waits);
                    longest = longest.max(1 + self.longest(last, most - 1));
                }
            }
        }
        self.known.insert(last, longest);
        longest
    }

    /// The id given back by a turn that finds it due and does not write it.
    fn waiting(&self, due: usize, last: u32, room: usize) -> Option<u32> {
        let is_due = |place: usize| due >> place & 1 == 1;
        let entry = |(place, &id): (usize, &u16)| match is_due(place) {
            true => entry(id),
            false => reported(id, NOW, 7),
        };
        let table: Vec<Entry> = self.ids.iter().enumerate().map(entry).collect();
        let (turned, left) = on(&self.store, &table, last, room);
        let place = self.ids.iter().position(|&id| id == self.waits)?;
        (is_due(place) && left[place].last.is_none()).then_some(turned.last)
    }
}

/// Found due in each of n consecutive turns, an attribute is in one of those frames:
/// n - 1 is the longest row without it, for every n up to 5 and from every last id.
#[test]
fn found_due_in_n_turns_is_written() {
    for n in 1..=5 {
        for waits in (0..n).map(|place| 2 * place + 1) {
            let mut row = Row::new(n, waits);
            let lasts = (0..2 * u32::from(n) + 2).chain([NO_ID]);
            let longest = lasts.map(|last| row.longest(last, n.into())).max();
            assert_eq!(longest, Some(usize::from(n) - 1), "{waits} of {n}");
        }
    }
}
