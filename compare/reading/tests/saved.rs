//! The saved form of a table: its bytes, what is none, and the order of the
//! refusals.

mod common;

use common::{bytes, hex};
use reading::saved::Fault::{Count, Crossed, Length, Mark, Neither, NoReports, Offset, Repeated};
use reading::saved::{length, old_length, read, read_within, restore, save, write};
use reading::table::{
    Config, ENTRIES, Entry, FORMER_ENTRIES, Key, SIGNED, SIZE, SLOT, UNSIGNED, to_bytes,
};

const ONE: &str = "01 0204 0000 0700 0a00 2c01 3200000000000000 00";

const TWO: &str = "02 21fc 0500 0d00 0201 0403 1a00
                   0a00 3c00 3200000000000000 00 0605 0807 100f0e0d0c0b0a09 01";

/// As they were saved before there were marks.
const OLD_ONE: &str = "01 0204 0000 0700 0a00 2c01 3200000000000000";

const OLD_TWO: &str = "02 21fc 0500 0d00 0201 0403 1900
                       0a00 3c00 3200000000000000 0605 0807 100f0e0d0c0b0a09";

/// Of `ONE`, as it is read.
const FIRST: Entry = Entry {
    key: Key {
        cluster: 0x0402,
        attribute: 0,
    },
    config: Config {
        minimum: 10,
        maximum: 300,
        change: 50,
        mark: SIGNED,
    },
    last: None,
};

/// Last reported.
const REPORTED: Entry = Entry {
    last: Some((100_000, -5)),
    ..FIRST
};

fn with(minimum: u16, maximum: u16) -> Entry {
    let config = Config {
        minimum,
        maximum,
        ..FIRST.config
    };
    Entry { config, ..REPORTED }
}

/// So many entries, all with other keys.
fn many(count: usize) -> Vec<Entry> {
    let key = |place: usize| Key {
        attribute: place.try_into().expect("short"),
        ..FIRST.key
    };
    (0..count)
        .map(|place| Entry {
            key: key(place),
            ..REPORTED
        })
        .collect()
}

/// The number, the length and the buffer.
fn saves(table: &[u8], room: usize) -> (u8, usize, String) {
    let answer = save(table, room);
    (answer.number, answer.reply.len(), hex(&answer.buffer(room)))
}

/// The number and the table, which was full of reports before.
fn restores(saved: &[u8]) -> (u8, Vec<u8>) {
    let mut table = to_bytes(&many(ENTRIES));
    (restore(&mut table, saved), table)
}

/// `TWO` with the byte at `at` set.
fn two_with(at: usize, byte: u8) -> Vec<u8> {
    let mut two = bytes(TWO);
    assert_ne!(two[at], byte, "a change");
    two[at] = byte;
    two
}

#[test]
fn the_worked_example() {
    let table = to_bytes(&[REPORTED]);
    let form = hex(&bytes(ONE));
    assert_eq!(saves(&table, 20), (0, 20, form.clone()));
    assert_eq!(saves(&table, 22), (0, 20, form + "0000"));
    assert_eq!(read(&bytes(ONE)), Ok(vec![FIRST]));
    assert_eq!(restores(&bytes(ONE)), (0, to_bytes(&[FIRST])));
}

#[test]
fn none() {
    assert_eq!(saves(&[0; SIZE], 1), (0, 1, "00".to_owned()));
    assert_eq!(read(&[0]), Ok(vec![]));
    assert_eq!(restores(&[0]), (0, vec![0; SIZE]));
}

#[test]
fn two_in_order() {
    let entries = read(&bytes(TWO)).expect("a saved form");
    let [first, second] = entries[..] else {
        panic!("two entries");
    };
    assert_eq!((first.key.cluster, first.key.attribute), (0xfc21, 5));
    assert_eq!((second.key.cluster, second.key.attribute), (0x0102, 0x0304));
    assert_eq!((first.config.minimum, first.config.maximum), (10, 60));
    assert_eq!(
        (second.config.minimum, second.config.maximum),
        (0x0506, 0x0708)
    );
    assert_eq!(first.config.change, 50);
    assert_eq!(second.config.change, 0x090a_0b0c_0d0e_0f10);
    assert_eq!((first.config.mark, second.config.mark), (SIGNED, UNSIGNED));
    assert_eq!((first.last, second.last), (None, None));
    assert_eq!(write(&entries), Ok(bytes(TWO)));
}

#[test]
fn there_and_back() {
    for count in 0..=ENTRIES {
        let entries = many(count);
        let form = write(&entries).expect("it has one");
        assert_eq!(form.len(), length(entries.len()));
        let unreported = |entry: &Entry| Entry {
            last: None,
            ..*entry
        };
        let expected: Vec<Entry> = entries.iter().map(unreported).collect();
        assert_eq!(read(&form), Ok(expected.clone()));
        assert_eq!(write(&expected), Ok(form));
    }
    assert_eq!((length(16), length(ENTRIES)), (305, 2433));
    assert_eq!((old_length(16), old_length(ENTRIES)), (289, 2305));
}

/// A form tells nothing of the limit: what a box with less room has saved and
/// can read has the same bytes here, and the same entries.
#[test]
fn of_a_box_with_less_room() {
    for count in 0..=ENTRIES {
        let form = write(&many(count)).expect("it has one");
        for form in [old(&many(count)), form] {
            let expected = if count <= FORMER_ENTRIES {
                read(&form)
            } else {
                Err(Count)
            };
            assert_eq!(read_within(FORMER_ENTRIES, &form), expected, "{count}");
        }
    }
    // sixteen, the last body at 1 + 6 * 16 + 13 * 15
    let sixteen = write(&many(FORMER_ENTRIES)).expect("it has one");
    assert_eq!(hex(&sixteen[..7]), "10020400006100");
    assert_eq!(hex(&sixteen[91..97]), "02040f002401");
    assert_eq!(hex(&sixteen[292..]), "0a002c01320000000000000000");
}

/// A form without its marks, as it was written before there were any.
fn old(entries: &[Entry]) -> Vec<u8> {
    let form = write(entries).expect("it has one");
    let (contents, bodies) = form[1..].split_at(6 * entries.len());
    let mut old = vec![form[0]];
    for (place, content) in contents.chunks(6).enumerate() {
        let offset = 1 + 6 * entries.len() + 12 * place;
        old.extend(&content[..4]);
        old.extend(u16::try_from(offset).expect("short").to_le_bytes());
    }
    old.extend(bodies.chunks(13).flat_map(|body| &body[..12]));
    old
}

#[test]
fn without_marks() {
    assert_eq!(old(&[FIRST]), bytes(OLD_ONE));
    assert_eq!(read(&bytes(OLD_ONE)), Ok(vec![FIRST]));
    assert_eq!(restores(&bytes(OLD_ONE)), (0, to_bytes(&[FIRST])));
    let entries = read(&bytes(OLD_TWO)).expect("a saved form");
    assert_eq!(entries.len(), 2);
    assert!(entries.iter().all(|entry| entry.config.mark == SIGNED));
    // saved again it has them
    let mut marked = bytes(TWO);
    *marked.last_mut().expect("a mark") = SIGNED;
    assert_eq!(write(&entries), Ok(marked));
    for count in 0..=ENTRIES {
        let form = old(&many(count));
        assert_eq!(form.len(), old_length(count));
        let entries = read(&form).expect("a saved form");
        assert_eq!(entries.len(), count);
        assert_eq!(old(&entries), form);
    }
    // a length is told with its count: one entry more or less is none
    for count in 1..ENTRIES {
        for other in [count - 1, count + 1] {
            let mut form = old(&many(count));
            form[0] = other.try_into().expect("short");
            assert!(read(&form).is_err(), "{count} {other}");
        }
    }
    // offsets of the other form
    for (one, two) in [(OLD_TWO, TWO), (TWO, OLD_TWO)] {
        let mut mixed = bytes(one);
        mixed[11] = bytes(two)[11];
        assert_eq!(read(&mixed), Err(Offset));
    }
}

#[test]
fn marks() {
    let (first, second) = (13 + 12, 13 + 13 + 12);
    for mark in 2..=255 {
        assert_eq!(read(&two_with(first, mark)), Err(Mark), "{mark}");
        assert_eq!(read(&two_with(second, mark)), Err(Mark), "{mark}");
    }
    let marked = |at, mark| read(&two_with(at, mark)).expect("a saved form");
    assert_eq!(marked(first, 1)[0].config.mark, UNSIGNED);
    assert_eq!(marked(second, 0)[1].config.mark, SIGNED);
    assert_eq!(write(&marked(first, 1)), Ok(two_with(first, 1)));
    assert_eq!(restores(&two_with(first, 2)), (13, vec![0; SIZE]));
}

#[test]
fn other_lengths() {
    assert_eq!(read(&[]), Err(Length));
    let two = bytes(TWO);
    for end in 0..two.len() {
        // a form without marks would be as long, and have its second body earlier
        let fault = if end == old_length(2) { Offset } else { Length };
        assert_eq!(read(&two[..end]), Err(fault), "{end}");
    }
    // of one entry it is such a form that is left where the last byte is cut
    let one = bytes(ONE);
    assert_eq!(&one[..19], bytes(OLD_ONE));
    for end in 0..19 {
        assert_eq!(read(&one[..end]), Err(Length), "{end}");
    }
    for behind in [0, 1, 0xff] {
        assert_eq!(read(&[&two[..], &[behind]].concat()), Err(Length));
        assert_eq!(read(&[0, behind]), Err(Length));
    }
    // an entry more or less than the count says
    assert!(read(&two_with(0, 1)).is_err());
    assert!(read(&two_with(0, 3)).is_err());
}

#[test]
fn counts() {
    for limit in [FORMER_ENTRIES, ENTRIES] {
        let counting = |count: usize| {
            let form = [vec![count as u8], vec![0; 19 * count]].concat();
            read_within(limit, &form)
        };
        assert_eq!(counting(limit), Err(Offset));
        for count in limit + 1..=255 {
            assert_eq!(counting(count), Err(Count), "{count}");
        }
        assert_eq!(read_within(limit, &[0xff]), Err(Count));
    }
    assert_eq!(read(&[129]), Err(Count));
    assert_eq!(read(&[128]), Err(Length));
}

#[test]
fn offsets() {
    for at in [5, 6, 11, 12] {
        for byte in [0x01, 0x0c, 0x0e, 0x19, 0x31, 0xff] {
            assert_eq!(read(&two_with(at, byte)), Err(Offset), "{at} {byte:x}");
        }
    }
    // both to one body, or each to the other's
    assert_eq!(read(&two_with(11, 0x0d)), Err(Offset));
    let mut exchanged = two_with(11, 0x0d);
    exchanged[5] = 0x1a;
    assert_eq!(read(&exchanged), Err(Offset));
}

#[test]
fn keys() {
    let mut twice = bytes(TWO);
    twice.copy_within(1..5, 7);
    assert_eq!(read(&twice), Err(Repeated));
    // the same but for a byte is another
    for at in 7..11 {
        let mut beside = twice.clone();
        beside[at] ^= 1;
        assert!(read(&beside).is_ok(), "{at}");
    }
    for (one, other) in [(0, 15), (0, 16), (16, 127), (126, 127)] {
        let mut entries = many(ENTRIES);
        entries[other] = entries[one];
        assert_eq!(write(&entries), Err(Repeated), "{one} {other}");
    }
}

#[test]
fn intervals() {
    for (minimum, maximum, fault) in [
        (0, 0xffff, NoReports),
        (10, 0xffff, NoReports),
        (0xffff, 0xffff, NoReports),
        (0xffff, 0, Neither),
        (11, 10, Crossed),
        (0x0100, 0x00ff, Crossed),
        (0xffff, 1, Crossed),
        (0xffff, 0xfffe, Crossed),
    ] {
        assert_eq!(write(&[with(minimum, maximum)]), Err(fault));
        let mut form = bytes(ONE);
        form[7..9].copy_from_slice(&minimum.to_le_bytes());
        form[9..11].copy_from_slice(&maximum.to_le_bytes());
        assert_eq!(read(&form), Err(fault), "{minimum} {maximum}");
    }
    for (minimum, maximum) in [
        (0, 0),
        (1, 0),
        (0xfffe, 0),
        (0, 1),
        (10, 10),
        (0x00ff, 0x0100),
        (0xfffe, 0xfffe),
    ] {
        let form = write(&[with(minimum, maximum)]).expect("it has one");
        assert!(read(&form).is_ok(), "{minimum} {maximum}");
    }
}

#[test]
fn what_a_refused_save_leaves() {
    let zeros = |number, room| (number, 0, "00".repeat(room));
    let full = to_bytes(&many(ENTRIES));
    let ample = length(ENTRIES);
    for room in [0, 1, 19, length(16), ample - 1] {
        assert_eq!(saves(&full, room), zeros(5, room));
    }
    assert_eq!(saves(&full, ample).0, 0);
    let off = to_bytes(&[with(0, 0xffff)]);
    let twice = to_bytes(&[FIRST, REPORTED]);
    // 13 comes before 5
    for room in [0, 1, 39, ample] {
        assert_eq!(saves(&off, room), zeros(13, room));
        assert_eq!(saves(&twice, room), zeros(13, room));
    }
    // and 8 before both
    let slots = [16, 17, SLOT + 16, SLOT + 17, 16 * SLOT].map(|at| 1 + at);
    for at in [0, SIZE - 1].into_iter().chain(slots) {
        let mut broken = twice.clone();
        broken[at] = 0xff;
        assert_eq!(saves(&broken, ample), zeros(8, ample), "{at}");
        assert_eq!(saves(&broken, 0), zeros(8, 0), "{at}");
    }
    for other in [&full[..SIZE - 1], &[&full[..], &[0]].concat(), &[]] {
        assert_eq!(saves(other, ample), zeros(8, ample));
    }
}

#[test]
fn what_a_refused_restore_leaves() {
    for form in [&[][..], &[1], &bytes(ONE)[..18], &two_with(5, 0)] {
        assert_eq!(restores(form), (13, vec![0; SIZE]), "{}", hex(form));
    }
    // 8 comes before 13, and leaves the bytes
    for saved in [&bytes(ONE)[..], &[], &[0xff]] {
        for length in [0, SIZE - 1, SIZE + 1] {
            let mut table = vec![0xa5; length];
            assert_eq!(restore(&mut table, saved), 8, "{length}");
            assert_eq!(table, vec![0xa5; length]);
        }
    }
}

#[test]
fn over_any_bytes() {
    for before in [[0; SIZE], [0xa5; SIZE], [0xff; SIZE]] {
        let mut table = before;
        assert_eq!(restore(&mut table, &bytes(ONE)), 0);
        assert_eq!(table, to_bytes(&[FIRST])[..]);
    }
}
