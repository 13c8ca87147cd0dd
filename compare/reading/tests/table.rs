//! A table's bytes, what breaks them, and bench frame 11's asks.

use reading::table::Broken::{Count, Flag, Length, Mark, Unreported, Unused};
use reading::table::{
    Config, ENTRIES, Entry, FORMER_ENTRIES, Key, Reason, SIGNED, SIZE, SLOT, UNSIGNED, ask, clear,
    configure, configure_within, entries, is_table, moved, place, to_bytes,
};

const FIRST: Entry = Entry {
    key: Key {
        cluster: 0xfc21,
        attribute: 5,
    },
    config: Config {
        minimum: 10,
        maximum: 60,
        change: 50,
        mark: SIGNED,
    },
    last: Some((100, -200)),
};

const SECOND: Entry = Entry {
    key: Key {
        cluster: 0x0102,
        attribute: 0x0304,
    },
    config: Config {
        minimum: 0x0506,
        maximum: 0x0708,
        change: 0x090a_0b0c_0d0e_0f10,
        mark: UNSIGNED,
    },
    last: None,
};

fn bytes(hex: &str) -> Vec<u8> {
    let hex: String = hex.split_whitespace().collect();
    (0..hex.len() / 2)
        .map(|at| u8::from_str_radix(&hex[2 * at..2 * at + 2], 16).expect("hex"))
        .collect()
}

/// The bytes of the used slots of `two`.
const USED: usize = 1 + 2 * SLOT;

/// `FIRST` and `SECOND`, and the slots that are not in use.
fn two() -> Vec<u8> {
    let used = bytes(
        "02
         21fc 0500 0a00 3c00 3200000000000000 00 01 64000000 38ffffffffffffff
         0201 0403 0605 0807 100f0e0d0c0b0a09 01 00 00000000 0000000000000000",
    );
    assert_eq!(used.len(), USED);
    [used, vec![0; SIZE - USED]].concat()
}

/// Two entries with the byte at `at` set.
fn with(at: usize, byte: u8) -> Vec<u8> {
    let mut table = two();
    assert_ne!(table[at], byte, "a change");
    table[at] = byte;
    table
}

#[test]
fn two_entries_in_order() {
    assert_eq!(entries(&two()), Ok(vec![FIRST, SECOND]));
    assert!(is_table(&two()));
}

#[test]
fn the_sizes() {
    assert_eq!((ENTRIES, FORMER_ENTRIES), (128, 16));
    assert_eq!((SLOT, SIZE), (30, 3841));
}

/// A table with this count and `FIRST` in its first slots.
fn counting(count: u8, used: usize) -> Vec<u8> {
    let slots = two()[1..=SLOT].repeat(used);
    let blank = vec![0; SIZE - 1 - slots.len()];
    [vec![count], slots, blank].concat()
}

#[test]
fn none_and_all() {
    assert_eq!(entries(&[0; SIZE]), Ok(vec![]));
    for count in [1, 15, 16, 17, 127, 128] {
        let many = usize::from(count);
        assert_eq!(entries(&counting(count, many)), Ok(vec![FIRST; many]));
        let blank = entries(&counting(count, 0));
        assert_eq!(blank.map(|entries| entries.len()), Ok(many));
    }
    for count in 0..128 {
        assert_eq!(entries(&counting(count, ENTRIES)), Err(Unused), "{count}");
    }
    for count in 129..=255 {
        assert_eq!(entries(&counting(count, ENTRIES)), Err(Count), "{count}");
        assert_eq!(entries(&counting(count, 0)), Err(Count), "{count}");
    }
}

#[test]
fn other_lengths() {
    // that of the tables that had room for sixteen, too
    assert_eq!(1 + FORMER_ENTRIES * SLOT, 481);
    for length in (0..SIZE).chain([SIZE + 1, SIZE + SLOT, 2 * SIZE]) {
        let mut table = two();
        table.resize(length, 0);
        assert_eq!(entries(&table), Err(Length), "{length}");
    }
}

#[test]
fn counts() {
    assert_eq!(entries(&with(0, 0)), Err(Unused));
    assert_eq!(entries(&with(0, 1)), Err(Unused));
    let blank = Entry {
        key: Key {
            cluster: 0,
            attribute: 0,
        },
        config: Config {
            minimum: 0,
            maximum: 0,
            change: 0,
            mark: SIGNED,
        },
        last: None,
    };
    assert_eq!(entries(&with(0, 3)), Ok(vec![FIRST, SECOND, blank]));
    let blanks = |count: u8| entries(&with(0, count)).map(|entries| entries.len());
    assert_eq!((blanks(17), blanks(128)), (Ok(17), Ok(128)));
    assert_eq!(entries(&with(0, 129)), Err(Count));
    assert_eq!(entries(&with(0, 255)), Err(Count));
}

#[test]
fn slots_past_the_count() {
    for at in USED..SIZE {
        assert_eq!(entries(&with(at, 1)), Err(Unused), "{at}");
    }
}

/// Of a slot behind the sixteenth every byte counts as it does in the first.
#[test]
fn slots_behind_the_sixteenth() {
    for place in [FORMER_ENTRIES, ENTRIES - 1] {
        let table = |at: usize, byte: u8| {
            let mut table = counting(128, ENTRIES);
            table[1 + place * SLOT + at] = byte;
            entries(&table)
        };
        assert_eq!(
            table(0, 0x22).map(|held| held[place].key.cluster),
            Ok(0xfc22)
        );
        assert_eq!(table(16, 2), Err(Mark));
        assert_eq!(table(17, 2), Err(Flag));
        assert_eq!(table(17, 0), Err(Unreported));
    }
}

/// As many as there is room for, and no more; a cleared one makes room.
#[test]
fn full() {
    let key = |attribute| Key {
        attribute,
        ..FIRST.key
    };
    for limit in [FORMER_ENTRIES, ENTRIES] {
        let mut held = Vec::new();
        let limited = |held: &mut Vec<Entry>, attribute| {
            configure_within(limit, held, key(attribute), FIRST.config)
        };
        for attribute in 0..limit as u16 {
            assert!(limited(&mut held, attribute));
        }
        assert_eq!(held.len(), limit);
        let before = held.clone();
        assert!(!limited(&mut held, 0xffff));
        assert_eq!(held, before);
        assert!(limited(&mut held, 3), "one that stands");
        clear(&mut held, key(5));
        assert_eq!(held[5], before[limit - 1], "the last in the hole");
        assert!(limited(&mut held, 0xffff) && !limited(&mut held, 5));
        assert_eq!(entries(&to_bytes(&held)), Ok(held.clone()));
        let more = configure(&mut held, key(5), FIRST.config);
        assert_eq!(more, limit < ENTRIES, "the table's own limit");
    }
}

#[test]
fn flags() {
    for flag in 2..=255 {
        assert_eq!(entries(&with(18, flag)), Err(Flag), "{flag}");
        assert_eq!(entries(&with(48, flag)), Err(Flag), "{flag}");
    }
    assert_eq!(entries(&with(18, 0)), Err(Unreported));
    let marked = Entry {
        last: Some((0, 0)),
        ..SECOND
    };
    assert_eq!(entries(&with(48, 1)), Ok(vec![FIRST, marked]));
}

#[test]
fn marks() {
    for mark in 2..=255 {
        assert_eq!(entries(&with(17, mark)), Err(Mark), "{mark}");
        assert_eq!(entries(&with(47, mark)), Err(Mark), "{mark}");
    }
    let changed = |at, mark| entries(&with(at, mark)).expect("a table");
    assert_eq!(changed(17, 1)[0].config.mark, UNSIGNED);
    assert_eq!(changed(47, 0)[1].config.mark, SIGNED);
}

#[test]
fn unreported() {
    for at in 49..61 {
        assert_eq!(entries(&with(at, 1)), Err(Unreported), "{at}");
        assert_eq!(entries(&with(at, 0x80)), Err(Unreported), "{at}");
    }
}

/// Every byte of a key, an interval or a change counts, and none breaks it.
#[test]
fn any_numbers() {
    for at in (1..17).chain(19..31).chain(31..47) {
        let changed = entries(&with(at, 0xee)).expect("a table");
        assert_ne!(changed, [FIRST, SECOND], "{at}");
    }
    let time = entries(&with(22, 0x80)).expect("a table");
    assert_eq!(time[0].last, Some((0x8000_0064, -200)));
    let value = entries(&with(30, 0x7f)).expect("a table");
    assert_eq!(value[0].last, Some((100, i64::MAX - 199)));
}

#[test]
fn first_of_equal_keys() {
    let again = Entry {
        last: None,
        ..FIRST
    };
    let table = [SECOND, again, FIRST];
    assert_eq!(place(&table, FIRST.key), Some(1));
    assert_eq!(ask(&table, FIRST.key, 0, 0), Reason::NeverMarked);
    let exchanged = Key {
        cluster: 5,
        attribute: 0xfc21,
    };
    assert_eq!(place(&table, exchanged), None);
}

#[test]
fn bench_frame_11() {
    for (now, value, due, reason) in [
        (109, 0, false, Reason::BelowMinimum),
        (110, -151, false, Reason::MovedTooLittle),
        (110, -150, true, Reason::MovedEnough),
        (159, -200, false, Reason::NotMoved),
        (160, -200, true, Reason::AtMaximum),
        (90, 0, false, Reason::BelowMinimum),
    ] {
        let answer = ask(&[SECOND, FIRST], FIRST.key, now, value);
        assert_eq!(answer, reason, "{now} {value}");
        assert_eq!(answer.is_due(), due, "{now} {value}");
    }
}

#[test]
fn other_asks() {
    let of = |minimum, maximum, change, last| {
        let config = Config {
            minimum,
            maximum,
            change,
            mark: SIGNED,
        };
        [Entry {
            config,
            last,
            ..FIRST
        }]
    };
    let key = FIRST.key;
    assert_eq!(ask(&[], key, 0, 0), Reason::NoEntry);
    assert_eq!(ask(&of(0, 0xffff, 0, None), key, 0, 0), Reason::Disabled);
    assert_eq!(ask(&of(1, 60, 0, None), key, 0, 0), Reason::NeverMarked);

    let never = of(0, 0, 1, Some((0, 0)));
    assert_eq!(ask(&never, key, u32::MAX, 0), Reason::NotMoved);

    let crossed = of(61, 60, 0, Some((0, 0)));
    assert_eq!(ask(&crossed, key, 60, 9), Reason::BelowMinimum);
    assert_eq!(ask(&crossed, key, 61, 0), Reason::AtMaximum);

    let back = of(0, 1, 3, Some((100, 0)));
    assert_eq!(ask(&back, key, 0, 2), Reason::MovedTooLittle);
    assert_eq!(ask(&back, key, 99, -3), Reason::MovedEnough);

    let far = of(0, 0, u64::MAX, Some((0, i64::MIN)));
    assert_eq!(ask(&far, key, 0, i64::MAX), Reason::MovedEnough);
    assert_eq!(ask(&far, key, 0, i64::MAX - 1), Reason::MovedTooLittle);
    assert_eq!(moved(SIGNED, i64::MAX, i64::MIN), u64::MAX.into());
}

/// The sub-meter of request 6: from 0 to its top.
#[test]
fn without_a_sign() {
    let of = |mark, change, reported| {
        let config = Config {
            minimum: 0,
            maximum: 60,
            change,
            mark,
        };
        let last = Some((0, reported));
        [Entry {
            config,
            last,
            ..FIRST
        }]
    };
    let says = |mark, change, reported, value| {
        let table = of(mark, change, reported);
        ask(&table, FIRST.key, 0, value)
    };
    assert_eq!(says(SIGNED, 2, 0, -1), Reason::MovedTooLittle);
    assert_eq!(says(UNSIGNED, 2, 0, -1), Reason::MovedEnough);
    assert_eq!(says(UNSIGNED, 2, -1, 0), Reason::MovedEnough);
    assert_eq!(says(UNSIGNED, u64::MAX, 0, -1), Reason::MovedEnough);
    assert_eq!(says(UNSIGNED, u64::MAX, 0, -2), Reason::MovedTooLittle);
    // over the middle it is one step, and as far with a sign as can be
    let (below, above) = (i64::MAX, i64::MIN);
    assert_eq!(says(UNSIGNED, 2, below, above), Reason::MovedTooLittle);
    assert_eq!(says(SIGNED, u64::MAX, below, above), Reason::MovedEnough);
    assert_eq!(says(UNSIGNED, 0, -1, -1), Reason::NotMoved);
    // on one side of it both say the same
    for (value, reported) in [(0, 0), (0, i64::MAX), (7, 9), (-1, i64::MIN), (-9, -7)] {
        let [signed, unsigned] = [SIGNED, UNSIGNED].map(|mark| moved(mark, value, reported));
        assert_eq!(signed, unsigned, "{value} {reported}");
    }
    assert_eq!(moved(UNSIGNED, -1, 0), u64::MAX.into());
}
