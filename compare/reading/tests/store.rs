//! Bench store T, and what breaks it.

use reading::store::{attributes, find, is_store, number, value, write};

fn bytes(hex: &str) -> Vec<u8> {
    let hex: String = hex.split_whitespace().collect();
    (0..hex.len() / 2)
        .map(|at| u8::from_str_radix(&hex[2 * at..2 * at + 2], 16).expect("hex"))
        .collect()
}

/// Bench store T of document 01.
fn bench() -> Vec<u8> {
    bytes(
        "21fc0400 0000230224000400 0100200128000100 0500290329000200 070042012b000500
         00000080 07 38ff 0254560000",
    )
}

/// T with the byte at `at` set.
fn with(at: usize, byte: u8) -> Vec<u8> {
    let mut store = bench();
    assert_ne!(store[at], byte, "a change");
    store[at] = byte;
    store
}

/// A store of one attribute with id 1 and a body.
fn single(type_code: u8, access: u8, body: &[u8]) -> Vec<u8> {
    let [low, high] = u16::try_from(body.len()).expect("short").to_le_bytes();
    let entry = [1, 0, type_code, access, 12, 0, low, high];
    [&[0x21, 0xfc, 1, 0], &entry[..], body].concat()
}

#[test]
fn bench_store() {
    let store = bench();
    assert_eq!(store.len(), 48);
    assert!(is_store(&store));
    let ids: Vec<u16> = attributes(&store)
        .expect("four")
        .iter()
        .map(|entry| entry.id)
        .collect();
    assert_eq!(ids, [0, 1, 5, 7]);
    let last = find(&store, 7).expect("there");
    assert_eq!((last.type_code, last.access), (0x42, 1));
    assert_eq!((last.offset, last.room), (0x2b, 5));
    assert_eq!(find(&store, 9), None);
}

#[test]
fn no_attributes() {
    assert!(is_store(&[0x21, 0xfc, 0, 0]));
    assert!(!is_store(&[0x21, 0xfc, 0, 0, 1]));
}

#[test]
fn cut_or_longer() {
    for length in 0..48 {
        assert!(!is_store(&bench()[..length]), "{length}");
    }
    assert!(!is_store(&[bench(), vec![1]].concat()));
    assert!(!is_store(&[bench(), vec![0]].concat()));
}

#[test]
fn which_changes_of_the_lowest_bit_leave_a_store() {
    let mut free = Vec::new();
    free.extend([0, 1]); // the cluster
    free.extend([20, 28, 29]); // ids that still ascend
    free.extend([7, 15, 23, 31]); // access
    free.extend(36..=42); // values of fixed size
    free.extend(43..=45); // a length of 3, and the letters
    for at in 0..48 {
        let store = with(at, bench()[at] ^ 1);
        assert_eq!(is_store(&store), free.contains(&at), "{at}");
    }
}

#[test]
fn ids() {
    assert!(!is_store(&with(12, 0)), "two equal ids");
    assert!(!is_store(&with(20, 1)), "two equal ids");
    assert!(!is_store(&with(28, 4)), "the last below the one before");
    assert!(is_store(&with(28, 6)));
    assert!(!is_store(&with(5, 1)), "256, then 1");
    assert!(is_store(&with(29, 0xff)));
}

#[test]
fn access() {
    for access in 0..=0xff {
        assert_eq!(is_store(&single(0x20, access, &[9])), access < 4);
    }
}

#[test]
fn rooms() {
    for code in 0..=0xff {
        let kept: Vec<usize> = (0..300)
            .filter(|&room| is_store(&single(code, 3, &vec![0; room])))
            .collect();
        let expected: Vec<usize> = match reading::fixed_size(code) {
            None if matches!(code, 0x41 | 0x42) => (1..=255).collect(),
            None | Some(0) => Vec::new(),
            Some(size) => vec![size],
        };
        assert_eq!(kept, expected, "{code:02x}");
    }
}

#[test]
fn strings() {
    for code in [0x41, 0x42] {
        assert!(is_store(&single(code, 1, &[0])));
        assert!(is_store(&single(code, 1, &[0xff])));
        assert!(!is_store(&single(code, 1, &[1])));
        assert!(is_store(&single(code, 1, &[2, 0xff, 0xfe])));
        assert!(!is_store(&single(code, 1, &[3, 0xff, 0xfe])));
        assert!(is_store(&single(code, 1, &[1, 7, 0])));
        assert!(!is_store(&single(code, 1, &[1, 7, 1])));
        assert!(!is_store(&single(code, 1, &[0xff, 0, 1])));
        let mut longest = vec![5; 255];
        longest[0] = 0xfe;
        assert!(is_store(&single(code, 1, &longest)));
    }
}

#[test]
fn offsets() {
    for at in [8, 16, 24, 32] {
        let offset = bench()[at];
        assert!(!is_store(&with(at, offset - 1)));
        assert!(!is_store(&with(at, offset + 1)));
        assert!(!is_store(&with(at + 1, 1)));
    }
}

/// A store of octet strings with these rooms, all of them empty.
fn of_rooms(rooms: &[u8]) -> Vec<u8> {
    let mut offset = u16::try_from(4 + 8 * rooms.len()).expect("few");
    let mut store = vec![0, 0, u8::try_from(rooms.len()).expect("few"), 0];
    for (id, &room) in (0..).zip(rooms) {
        let [low, high] = offset.to_le_bytes();
        store.extend([id, 0, 0x41, 3, low, high, room, 0]);
        offset += u16::from(room);
    }
    store.resize(offset.into(), 0);
    store
}

#[test]
fn limits() {
    assert!(is_store(&of_rooms(&[1; 64])));
    assert!(!is_store(&of_rooms(&[1; 65])));
    let most = [vec![255; 15], vec![139]].concat();
    assert_eq!(of_rooms(&most).len(), 4096);
    assert!(is_store(&of_rooms(&most)));
    let more = [vec![255; 15], vec![140]].concat();
    assert!(!is_store(&of_rooms(&more)));
}

#[test]
fn what_is_sent() {
    let store = bench();
    assert_eq!(value(&store, 0), Some(&[0, 0, 0, 0x80][..]));
    assert_eq!(value(&store, 7), Some(&[2, 0x54, 0x56][..]));
    assert_eq!(value(&store, 9), None);
    let invalid = single(0x41, 0, &[0xff, 0, 0]);
    assert_eq!(value(&invalid, 1), Some(&[0xff][..]));
}

#[test]
fn bench_numbers() {
    assert_eq!(number(&bench(), 0), Ok(2_147_483_648));
    assert_eq!(number(&bench(), 1), Ok(7));
    assert_eq!(number(&bench(), 5), Ok(-200));
    assert_eq!(number(&bench(), 7), Err(9));
    assert_eq!(number(&bench(), 9), Err(9));
    assert_eq!(number(&bench()[..47], 0), Err(7));
    assert_eq!(number(&bench()[..47], 9), Err(7));
}

#[test]
fn numbers() {
    let of = |code, body: &[u8]| number(&single(code, 0, body), 1);
    assert_eq!(of(0x28, &[0x80]), Ok(-128));
    assert_eq!(of(0x20, &[0x80]), Ok(128));
    assert_eq!(of(0x2a, &[0xff; 3]), Ok(-1));
    assert_eq!(of(0x22, &[0xff; 3]), Ok(0xff_ffff));
    assert_eq!(of(0x2e, &[0, 0, 0, 0, 0, 0, 0x80]), Ok(-(1 << 55)));
    assert_eq!(of(0x26, &[0xff; 7]), Ok((1 << 56) - 1));
    assert_eq!(of(0x2f, &[0xff; 8]), Ok(-1));
    assert_eq!(of(0x27, &[0xff; 8]), Ok(-1));
    assert_eq!(of(0x39, &[0, 0, 0x80, 0xbf]), Ok(0xbf80_0000));
    assert_eq!(of(0x3a, &[0, 0, 0, 0, 0, 0, 0, 0x80]), Ok(i64::MIN));
    assert_eq!(of(0xf0, &[1, 0, 0, 0, 0, 0, 0, 0]), Ok(1));
    assert_eq!(of(0xf1, &[0; 16]), Err(9));
    assert_eq!(of(0x41, &[1, 7]), Err(9));
}

/// The status of a write to T, and the store afterwards.
fn written(id: u16, type_code: u8, value: &str) -> (u8, Vec<u8>) {
    let mut store = bench();
    let status = write(&mut store, id, type_code, &bytes(value));
    assert!(is_store(&store));
    (status, store)
}

#[test]
fn writes() {
    assert_eq!(written(1, 0x20, "09"), (0x00, with(40, 9)));
    let (status, store) = written(5, 0x29, "3412");
    assert_eq!((status, number(&store, 5)), (0, Ok(0x1234)));
    for text in ["00", "0141", "0441424344", "ff"] {
        let (status, store) = written(7, 0x42, text);
        assert_eq!((status, value(&store, 7)), (0, Some(&bytes(text)[..])));
    }
    assert_eq!(written(7, 0x42, "ff").1[43..], [0xff, 0, 0, 0, 0]);
    assert_eq!(written(7, 0x42, "0141").1[43..], [1, 0x41, 0, 0, 0]);
}

#[test]
fn four_checks_in_order() {
    let status_of = |id, type_code, value| {
        let (status, store) = written(id, type_code, value);
        assert_eq!(store, bench(), "nothing is stored");
        status
    };
    assert_eq!(status_of(9, 0x42, "054142434445"), 0x86);
    assert_eq!(status_of(0, 0x23, "01000000"), 0x88);
    assert_eq!(status_of(0, 0x42, "054142434445"), 0x88);
    assert_eq!(status_of(1, 0x21, "0100"), 0x8d);
    assert_eq!(status_of(7, 0x41, "054142434445"), 0x8d);
    assert_eq!(status_of(7, 0x42, "054142434445"), 0x87);
}
