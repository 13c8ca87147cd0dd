//! Replies, read: hand-written frames of each reader.

mod common;

use common::bytes;
use reading::replies::{
    Discovery, Readings, Setting, SettingRecord, Unread, Value, Why, configuration_reply,
    configure_reply, default_response, discover_reply, read_reply, report_frame, write_reply,
};

fn numbers(frame: &str) -> [u8; 7] {
    Readings::of(&bytes(frame)).numbers()
}

/// What the one reader says whose command the frame has; the others say 10.
fn number(frame: &str) -> u8 {
    let command = bytes(frame)[2];
    let own = [0x01, 0x04, 0x07, 0x09, 0x0d, 0x0b, 0x0a]
        .iter()
        .position(|&code| code == command)
        .expect("a reply");
    let numbers = numbers(frame);
    for (at, &number) in numbers.iter().enumerate() {
        assert!(at == own || number == 10, "{frame}: {numbers:?}");
    }
    numbers[own]
}

fn values(frame: &str) -> Vec<Option<Value>> {
    let records = read_reply(&bytes(frame)).expect("a read reply");
    records.iter().map(|record| record.value).collect()
}

/// A value's number, read from a read reply and from a report.
fn number_of(code_and_value: &str) -> Option<i64> {
    let read = values(&format!("180001 341200 {code_and_value}"));
    let frame = bytes(&format!("18000a 3412 {code_and_value}"));
    let reported = report_frame(&frame).expect("a report");
    let [Some(one)] = read[..] else {
        panic!("one record");
    };
    assert_eq!(reported.len(), 1);
    assert_eq!(reported[0].id, 0x1234);
    assert_eq!(reported[0].value.number, one.number);
    assert_eq!(one.bytes(&[&[0], &frame[..]].concat()), &frame[6..]);
    one.number
}

fn why(unread: Unread) -> (Why, usize) {
    (unread.why, unread.behind)
}

#[test]
fn headers() {
    for short in ["", "18", "1800", "1c", "1c0000", "1c000000", "0200"] {
        assert_eq!(numbers(short), [2; 7], "{short}");
    }
    for other in [
        "190001",
        "1a0004",
        "1b000b0000",
        "180000",
        "180002",
        "18000c",
    ] {
        assert_eq!(numbers(other), [10; 7], "{other}");
    }
}

#[test]
fn a_manufacturer_code_is_passed_over() {
    assert_eq!(numbers("1c 3412 00 04 00"), [10, 0, 10, 10, 10, 10, 10]);
    let value = values("1c 3412 00 01 0000 00 20 07")[0].expect("a value");
    assert_eq!((value.start, value.length), (9, 1));
}

#[test]
fn the_bench_read_reply() {
    let frame = bytes("182a010000002300000080090086");
    let records = read_reply(&frame).expect("a read reply");
    let value = Value {
        type_code: 0x23,
        start: 7,
        length: 4,
        number: Some(2_147_483_648),
    };
    let read: Vec<_> = records
        .iter()
        .map(|record| (record.id, record.status, record.value))
        .collect();
    assert_eq!(read, [(0, 0x00, Some(value)), (9, 0x86, None)]);
}

#[test]
fn numbers_of_values() {
    assert_eq!(number_of("23 00000080"), Some(0x8000_0000), "not negative");
    assert_eq!(number_of("29 38ff"), Some(-200));
    assert_eq!(number_of("28 80"), Some(-128));
    assert_eq!(number_of("2f ffffffffffffffff"), Some(-1));
    assert_eq!(number_of("26 ffffffffffffff"), Some(0x00ff_ffff_ffff_ffff));
    assert_eq!(number_of("27 ffffffffffffffff"), Some(-1), "its bits");
    assert_eq!(number_of("39 000080bf"), Some(0xbf80_0000), "its bits");
    assert_eq!(number_of("00"), Some(0), "no bytes");
    assert_eq!(number_of("f1 00112233445566778899aabbccddeeff"), None);
    assert_eq!(number_of("42 025456"), None);
    assert_eq!(number_of("42 ff"), None);
    assert_eq!(number_of("48 20 0200 0102"), None);
}

#[test]
fn cut_records_with_values() {
    for cut in ["00", "0000", "000000", "00000023000000", "00000042025a"] {
        assert_eq!(number(&format!("180001 {cut}")), 4, "{cut}");
        assert_eq!(number(&format!("180001 090086 {cut}")), 4, "{cut}");
    }
    for cut in ["00", "0000", "000023", "000023000000"] {
        assert_eq!(number(&format!("18000a {cut}")), 4, "{cut}");
    }
    let unread = read_reply(&bytes("180001 090086 000000ff")).expect_err("no extent");
    assert_eq!(why(unread), (Why::WithoutExtent, 1));
    assert_eq!(unread.number(), 4);
    let unread = report_frame(&bytes("18000a 000001")).expect_err("no extent");
    assert_eq!(why(unread), (Why::WithoutExtent, 0));
}

#[test]
fn no_records() {
    for empty in ["180001", "180009", "18000a"] {
        assert_eq!(number(empty), 0, "{empty}");
    }
    for cut in ["180004", "180007", "18000d", "18000b", "18000b00"] {
        assert_eq!(number(cut), 4, "{cut}");
    }
}

#[test]
fn failures() {
    assert_eq!(write_reply(&bytes("18000400")), Ok(Vec::new()));
    assert_eq!(configure_reply(&bytes("18000700")), Ok(Vec::new()));
    let failures = write_reply(&bytes("180004 883412 ff7856")).expect("two");
    let read: Vec<_> = failures.iter().map(|one| (one.status, one.id)).collect();
    assert_eq!(read, [(0x88, 0x1234), (0xff, 0x5678)]);
    let failures = configure_reply(&bytes("180007 8c013412")).expect("one");
    let one = (failures[0].status, failures[0].direction, failures[0].id);
    assert_eq!(one, (0x8c, Some(0x01), 0x1234));
    for cut in ["86", "8600", "860000 86", "860000 8600"] {
        assert_eq!(number(&format!("180004 {cut}")), 4, "{cut}");
    }
    for cut in ["86", "8600", "860000", "86000000 860000"] {
        assert_eq!(number(&format!("180007 {cut}")), 4, "{cut}");
    }
}

#[test]
fn success_in_a_longer_list() {
    for list in ["0000", "86000000", "000000", "860000 000000"] {
        assert_eq!(number(&format!("180004 {list}")), 10, "{list}");
    }
    for list in ["0000", "8600000000", "00000000", "86000000 00000000"] {
        assert_eq!(number(&format!("180007 {list}")), 10, "{list}");
    }
}

#[test]
fn discovered() {
    let read = discover_reply(&bytes("182c0d00010020050029"));
    let attributes = vec![(1, 0x20), (5, 0x29)];
    let complete = false;
    assert_eq!(
        read,
        Ok(Discovery {
            complete,
            attributes
        })
    );
    assert_eq!(number("182c0d01"), 0);
    for cut in ["0001", "00010020 01", "01010020 0500"] {
        assert_eq!(number(&format!("18000d {cut}")), 4, "{cut}");
    }
    for above in ["02", "ff", "0201", "02010020"] {
        assert_eq!(number(&format!("18000d {above}")), 10, "{above}");
    }
}

#[test]
fn default_responses() {
    for behind in ["", "00", "0000000000"] {
        let read = default_response(&bytes(&format!("18000b 02c3 {behind}")));
        let read = read.expect("a Default Response");
        assert_eq!((read.command, read.status), (0x02, 0xc3));
    }
}

#[test]
fn configurations() {
    let read = |frame: &str| -> Vec<SettingRecord> {
        configuration_reply(&bytes(frame)).expect("a configuration reply")
    };
    let setting = |type_code, change| {
        Some(Setting {
            type_code,
            minimum: 10,
            maximum: 60,
            change,
        })
    };
    let records = read("180009 00000500 29 0a003c00 38ff 8b010900 00000600 42 0a003c00");
    let settings: Vec<_> = records.iter().map(|record| record.setting).collect();
    // no sign; and no change where the type is not analog
    assert_eq!(settings, [setting(0x29, 0xff38), None, setting(0x42, 0)]);
    let heads = records
        .iter()
        .map(|one| (one.status, one.direction, one.id));
    let heads: Vec<_> = heads.collect();
    assert_eq!(heads, [(0x00, 0, 5), (0x8b, 1, 9), (0x00, 0, 6)]);

    let other_direction = read("180009 00020500 20 0a003c00 07");
    assert_eq!(other_direction[0].setting, setting(0x20, 7));
    let unknown = read("180009 00000500 ff 0a003c00 86000000");
    assert_eq!(unknown[0].setting, setting(0xff, 0));
    assert_eq!(unknown[1].status, 0x86);
    for cut in ["00", "860000", "00000500", "0000050029 0a003c00 38"] {
        assert_eq!(number(&format!("180009 {cut}")), 4, "{cut}");
    }
}
