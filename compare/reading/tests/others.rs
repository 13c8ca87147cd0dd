//! The order of refusals, Default Response, the responder, report frames.

mod common;

use common::{CLUSTER, bench, bytes, hex, reply, says};
use reading::commands::{Answer, report, serve, serve_lent, unsupported_cluster};
use reading::table::SIZE;

fn shown(answer: &Answer) -> String {
    match answer.number {
        0 => format!("0 {}", hex(&answer.reply)),
        number => number.to_string(),
    }
}

/// The answer over T with a new table's bytes, changed at `broken`.
fn lent(store: &[u8], broken: Option<usize>, cluster: u16, frame: &str) -> String {
    let mut store = store.to_vec();
    let mut table = vec![0; SIZE];
    if let Some(at) = broken {
        table[at] = 0xff;
    }
    let before = (store.clone(), table.clone());
    let answer = serve_lent(&mut store, &mut table, cluster, true, &bytes(frame), 64);
    assert_eq!((store, table), before);
    shown(&answer)
}

#[test]
fn order_7_8_1_2_3() {
    let store = bench();
    assert_eq!(lent(&store[..47], Some(0), 0, ""), "7");
    for broken in [0, 1, SIZE - 1] {
        assert_eq!(lent(&store, Some(broken), 0, ""), "8");
    }
    assert_eq!(lent(&store, None, 0x21fc, ""), "1");
    assert_eq!(lent(&store, None, CLUSTER, ""), "2");
    assert_eq!(lent(&store, None, CLUSTER, "02ff"), "2");
    assert_eq!(lent(&store, None, CLUSTER, "06000000"), "2");
    for control in ["02", "03", "fb"] {
        assert_eq!(
            lent(&store, None, CLUSTER, &format!("{control}00000000")),
            "3"
        );
    }
    assert_eq!(
        lent(&store, None, CLUSTER, "002c0c0800ff"),
        reply("182c0d01")
    );
}

#[test]
fn default_response() {
    // a report, an unknown command; cluster commands
    for frame in [
        "002a0a", "002aff00", "012a00", "192a02", "012a0b", "10 2a 0d",
    ] {
        let command = hex(&bytes(frame)[2..3]);
        let whole = reply(&format!("182a0b {command} 81"));
        assert_eq!(says(frame, 5), whole);
        for room in 0..5 {
            assert_eq!(says(frame, room), "5");
        }
        let (mut store, mut table) = (bench(), Vec::new());
        for room in [0, 64] {
            let frame = bytes(frame);
            let answer = serve(&mut store, &mut table, CLUSTER, false, &frame, room);
            assert_eq!(shown(&answer), "6");
        }
    }
    assert_eq!(says("05fffe2a02", 5), reply("182a0b0281"));
}

/// Whatever is in it, in any room, unicast or not.
#[test]
fn default_response_received() {
    for frame in [
        "002a0b",
        "002a0b0000",
        "182a0b000012",
        "102a0b0b81",
        "0cfffe2a0b",
    ] {
        let (mut store, mut table) = (bench(), Vec::new());
        for unicast in [false, true] {
            for room in 0..7 {
                let frame = bytes(frame);
                let answer = serve(&mut store, &mut table, CLUSTER, unicast, &frame, room);
                assert_eq!(shown(&answer), "6");
                assert_eq!(answer.buffer(room), vec![0; room]);
            }
        }
        assert_eq!((store, table), (bench(), Vec::new()));
    }
}

#[test]
fn reading_needs_no_unicast() {
    let (mut store, mut table) = (bench(), Vec::new());
    let frame = bytes("102a000100");
    let answer = serve(&mut store, &mut table, CLUSTER, false, &frame, 64);
    assert_eq!(shown(&answer), reply("182a01 0100002007"));
    assert_eq!(answer.buffer(10), bytes("182a01 0100002007 0000"));
}

#[test]
fn responder() {
    let asked = |served: &[u16], unicast, frame: &str, room| {
        shown(&unsupported_cluster(
            served,
            6,
            unicast,
            &bytes(frame),
            room,
        ))
    };
    assert_eq!(asked(&[5, 6], true, "", 64), "6");
    assert_eq!(asked(&[5, 0x0600], true, "0000", 64), "2");
    assert_eq!(asked(&[], false, "040000", 64), "2");
    assert_eq!(asked(&[], true, "002a0b", 64), "6");
    assert_eq!(asked(&[], false, "002a00", 0), "6");
    assert_eq!(asked(&[], true, "002a00", 4), "5");
    assert_eq!(asked(&[], true, "002a00", 5), reply("182a0b00c3"));
    assert_eq!(asked(&[], true, "012a0b", 5), reply("182a0b0bc3"));
    assert_eq!(
        asked(&[], true, "022a0b", 5),
        reply("182a0b0bc3"),
        "reserved"
    );
}

#[test]
fn report_frames() {
    let of = |ids: &[u16], room| shown(&report(&bench(), 0x2a, ids, room));
    assert_eq!(of(&[5, 0], 64), reply("182a0a 05002938ff 00002300000080"));
    assert_eq!(of(&[5, 5], 13), reply("182a0a 05002938ff 05002938ff"));
    assert_eq!(of(&[5, 0], 14), "5");
    assert_eq!(of(&[], 2), "5");
    assert_eq!(of(&[], 3), "11");
    assert_eq!(of(&[1], 64), "12", "not reportable");
    assert_eq!(of(&[9], 64), "12", "not found");
    assert_eq!(of(&[5, 9], 7), "5", "the first trouble");
    assert_eq!(of(&[5, 9], 8), "12");
    assert_eq!(shown(&report(&bench()[..47], 0, &[], 0)), "7");
}
