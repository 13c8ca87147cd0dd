//! Commands 00, 02, 03, 05 and 0c where they are easy to get wrong.

mod common;

use common::{Served, leaves, reply, says};

const REST: &str = "0738ff0254560000";

fn pair(said: &str, rest: &str) -> (String, String) {
    (said.to_owned(), rest.to_owned())
}

#[test]
fn read_asks_for_the_id_before_the_room() {
    assert_eq!(says("00000000", 3), "4");
    assert_eq!(says("000000000000", 3), "0 180001");
    assert_eq!(says("000000000000", 64), "4");
    assert_eq!(says("000000", 3), "0 180001");
    assert_eq!(says("00000000", 2), "5");
}

#[test]
fn read_at_the_last_byte_of_room() {
    // 3 for the header, 3 for a record without a value, 8 for attribute 0
    let frame = "00000000000100";
    assert_eq!(says(frame, 5), reply("180001"));
    assert_eq!(says(frame, 6), reply("180001 000089"));
    assert_eq!(says(frame, 8), reply("180001 000089"));
    assert_eq!(says(frame, 9), reply("180001 000089 010089"));
    assert_eq!(says(frame, 11), reply("180001 0000002300000080"));
    assert_eq!(says(frame, 15), reply("180001 0000002300000080 010089"));
    assert_eq!(says(frame, 16), reply("180001 0000002300000080 0100002007"));
    // a string without its unused bytes
    assert_eq!(says("0000000700", 64), reply("180001 07000042025456"));
}

#[test]
fn a_cut_record_comes_before_its_status() {
    // not found, read-only, other type: but cut, or without extent
    for record in [
        "0900 21 00",
        "0000 23 000000",
        "0100 21 00",
        "0900 07",
        "0900 ff",
    ] {
        for command in ["02", "03"] {
            let frame = format!("0000{command}{record}");
            assert_eq!(leaves(&frame, 64, 40), pair("4", REST), "{frame}");
        }
        let frame = format!("000005{record}");
        assert_eq!(leaves(&frame, 64, 40), pair("6", REST), "{frame}");
    }
}

#[test]
fn earlier_records_stay_done() {
    let stored = "0938ff0254560000";
    assert_eq!(leaves("000002 01002009 0500", 64, 40), pair("4", stored));
    assert_eq!(leaves("000005 01002009 0500", 64, 40), pair("6", stored));
    assert_eq!(leaves("000005 01002009 0500", 0, 40), pair("6", stored));
    assert_eq!(leaves("000003 01002009 0500", 64, 40), pair("4", REST));
    // the failure does not fit; what follows is not done
    let between = "000002 01002009 09002000 01002011";
    assert_eq!(leaves(between, 5, 40), pair("5", stored));
    let last = "1138ff0254560000";
    assert_eq!(leaves(between, 6, 40), pair("0 180004860900", last));
    assert_eq!(leaves("000002 01002009", 3, 40), pair("5", stored));
    assert_eq!(leaves("000002 01002009", 2, 40), pair("5", REST));
}

#[test]
fn undivided() {
    // a failure that does not fit comes before a later cut record
    for record in ["09002000", "070042054142434445"] {
        let frame = format!("000003 {record} 01");
        assert_eq!(leaves(&frame, 5, 40), pair("5", REST));
        assert_eq!(leaves(&frame, 6, 40), pair("4", REST));
    }
    // all four checks, none stored
    let frame = "000003 01002009 09002000 070042054142434445 00002000 0100210000";
    let listed = reply("180004 860900 870700 880000 8d0100");
    assert_eq!(leaves(frame, 15, 40), pair(&listed, REST));
    assert_eq!(leaves(frame, 14, 40), pair("5", REST));
}

#[test]
fn undivided_and_too_long() {
    let too_long = "070042054142434445";
    for (records, listed) in [
        (format!("{too_long} 09002000"), "180004 870700 860900"),
        (format!("09002000 {too_long}"), "180004 860900 870700"),
        (format!("{too_long} {too_long}"), "180004 870700 870700"),
    ] {
        let frame = format!("000003 {records}");
        assert_eq!(leaves(&frame, 9, 40), pair(&reply(listed), REST));
        for room in 3..9 {
            assert_eq!(leaves(&frame, room, 40), pair("5", REST));
        }
    }
    // before and behind it is what could be stored
    let frame = format!("000003 01002009 {too_long} 01002011");
    assert_eq!(leaves(&frame, 6, 40), pair("0 180004870700", REST));
    assert_eq!(leaves(&frame, 5, 40), pair("5", REST));
    // four letters are not too long: all is stored, also without room to say so
    let frame = "000003 01002009 0700420441424344";
    let stored = "0938ff0441424344";
    assert_eq!(leaves(frame, 4, 40), pair("0 18000400", stored));
    assert_eq!(leaves(frame, 3, 40), pair("5", stored));
    assert_eq!(leaves(frame, 2, 40), pair("5", REST));
}

#[test]
fn only_extents_are_checked() {
    for command in ["02", "03", "05"] {
        let mut boolean = Served {
            store: common::bytes("21fc0100 010010010c000100 00"),
            table: Vec::new(),
        };
        boolean.says(&format!("0000{command} 01001002"), 64);
        assert_eq!(boolean.store[12], 2);
        let (_, rest) = leaves(&format!("0000{command} 070042ff"), 64, 40);
        assert_eq!(rest, "0738ffff00000000");
        let (_, rest) = leaves(&format!("0000{command} 0700420180"), 64, 40);
        assert_eq!(rest, "0738ff0180000000");
    }
}

#[test]
fn a_collection_is_passed_over() {
    assert_eq!(says("000002 09004c0000", 64), reply("180004 860900"));
    assert_eq!(says("000003 000048200000", 64), reply("180004 880000"));
    let frame = "000005 01004807ffff 01002009";
    assert_eq!(leaves(frame, 0, 40), pair("6", "0938ff0254560000"));
    // 16 levels have no extent
    let deep = "480100".repeat(15);
    assert_eq!(says(&format!("000002 0900 48 {deep} 200000"), 64), "4");
    let deep = "480100".repeat(14);
    let frame = format!("000002 0900 48 {deep} 200000");
    assert_eq!(says(&frame, 64), reply("180004 860900"));
}

#[test]
fn discover_reads_its_body_first() {
    assert_eq!(says("00000c0000", 2), "4");
    assert_eq!(says("00000c000001", 2), "5");
    assert_eq!(says("00000c000001", 3), "5");
    assert_eq!(says("00000c000001", 4), "0 18000d00");
    assert_eq!(says("00000c000001", 6), "0 18000d00");
    assert_eq!(says("00000c000001", 7), "0 18000d00000023");
    assert_eq!(says("00000c0700ff", 6), "0 18000d00");
    assert_eq!(says("00000c0700ff", 7), "0 18000d01070042");
    assert_eq!(says("00000c070001ffff", 7), "0 18000d01070042");
    assert_eq!(says("00000c0800ff", 4), "0 18000d01");
}
