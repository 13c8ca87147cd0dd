//! Document 01's bench frames, by their numbers; 7 as request 2 of document 02
//! has it.

mod common;

use common::{Served, leaves, says};
use reading::table::{Config, Entry, Key, ask};

/// Attributes 1, 5 and 7 of T as they stand.
const REST: &str = "0738ff0254560000";
const WITH_9: &str = "0938ff0254560000";

fn pair(said: &str, rest: &str) -> (String, String) {
    (said.to_owned(), rest.to_owned())
}

#[test]
fn frames_1_to_4() {
    let frame = "002a0000000900";
    assert_eq!(says(frame, 14), "0 182a010000002300000080090086");
    assert_eq!(says(frame, 64), "0 182a010000002300000080090086");
    assert_eq!(says(frame, 13), "0 182a010000002300000080");
    assert_eq!(says(frame, 10), "0 182a01000089090086");
    assert_eq!(says(frame, 3), "0 182a01");
    assert_eq!(says(frame, 2), "5");
}

#[test]
fn frames_5_and_6() {
    assert_eq!(leaves("002b0201002009", 64, 40), pair("0 182b0400", WITH_9));
    let read_only = "002b0200002301000000";
    assert_eq!(leaves(read_only, 64, 40), pair("0 182b04880000", REST));
}

#[test]
fn frames_7_and_8() {
    let too_long = "002b03 01002009 070042054142434445";
    assert_eq!(leaves(too_long, 64, 40), pair("0 182b04870700", REST));
    assert_eq!(leaves(too_long, 5, 40), pair("5", REST));
    assert_eq!(leaves("002b0301002009", 3, 40), pair("5", WITH_9));
}

#[test]
fn frames_9_and_10() {
    assert_eq!(says("002c0c010002", 64), "0 182c0d00010020050029");
    assert_eq!(says("002c0c010003", 64), "0 182c0d01010020050029070042");
    assert_eq!(says("002c0c080000", 64), "0 182c0d01");
}

#[test]
fn frame_11() {
    let mut served = Served::bench();
    let frame = "002d0600050029 0a003c003200";
    assert_eq!(served.says(frame, 64), "0 182d0700");
    let key = Key {
        cluster: common::CLUSTER,
        attribute: 5,
    };
    let config = Config {
        minimum: 10,
        maximum: 60,
        change: 50,
        mark: 0,
    };
    let last = None;
    assert_eq!(served.table, [Entry { key, config, last }]);

    served.table[0].last = Some((100, -200));
    for (now, value, due) in [
        (109, 0, false),
        (110, -151, false),
        (110, -150, true),
        (159, -200, false),
        (160, -200, true),
        (90, 0, false),
    ] {
        let reason = ask(&served.table, key, now, value);
        assert_eq!(reason.is_due(), due, "{now} {value}");
    }
}

#[test]
fn what_is_no_store() {
    for store in ["21fc0400", "21fc000001", "21fc4100", ""] {
        let store = common::bytes(store);
        let mut served = Served {
            store: store.clone(),
            table: Vec::new(),
        };
        assert_eq!(served.says("002a00", 64), "7");
        assert_eq!(served.store, store);
    }
    let mut none = Served {
        store: common::bytes("21fc0000"),
        table: Vec::new(),
    };
    assert_eq!(none.says("002c0c000001", 64), "0 182c0d01");
}
