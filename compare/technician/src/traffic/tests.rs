//! What a file may say, and each line that is refused by its number.

use cases::stores::bench;
use cases::{Case, hex};
use reading::table::SIZE;

use super::*;

fn parsed(file: &str) -> Result<Traffic, String> {
    Traffic::parsed(file.as_bytes())
}

fn cases_of(file: &str) -> Vec<Case> {
    let traffic = parsed(file).expect("it is understood");
    traffic.frames().map(|frame| frame.case).collect()
}

/// A file over store T.
fn over_t(lines: &str) -> String {
    format!("store {}\n{lines}", hex(&bench()))
}

#[test]
fn defaults_and_comments() {
    let file = over_t("\n# a comment\n  request 00 2A 00 # frame 1\r\n");
    let [case] = &cases_of(&file)[..] else {
        panic!("one request");
    };
    assert_eq!(*case, Case::over(&bench(), &[0x00, 0x2a, 0x00], 64));
    assert_eq!((case.cluster, case.unicast), (0xfc21, 1));
}

#[test]
fn what_is_set_stays_set() {
    let file = over_t(
        "room 5\nunicast 0\ncluster 0006\nrequest none\nrequest 00\ncluster store\nrequest 00\n",
    );
    let cases = cases_of(&file);
    let set: Vec<_> = cases
        .iter()
        .map(|case| (case.room, case.unicast, case.cluster))
        .collect();
    assert_eq!(set, [(5, 0, 0x0006), (5, 0, 0x0006), (5, 0, 0xfc21)]);
    assert_eq!(cases[0].request, []);
}

#[test]
fn store_and_table_carry_on() {
    let write = "request 002b0201002009\n";
    let configure = "request 002d0600050029 0a003c003200\n";
    let store = over_t("");
    let file = over_t(&format!(
        "{write}{configure}request 00\n{store}request 00\ntable empty\nrequest 00\n"
    ));
    let cases = cases_of(&file);
    let left: Vec<_> = cases
        .iter()
        .map(|case| (case.store[40], case.table[0]))
        .collect();
    assert_eq!(left, [(7, 0), (9, 0), (9, 1), (7, 1), (7, 0)]);
}

#[test]
fn a_printed_frame_is_a_file() {
    let mut tried = 0;
    for frame in crate::frame::random(4000, 5) {
        if frame.case.table.len() == SIZE {
            assert_eq!(cases_of(&frame.case.to_string()), [frame.case]);
            tried += 1;
        }
    }
    assert!(tried > 3000);
}

#[test]
fn every_bad_line_is_named() {
    for (line, why) in [
        ("stor 00", "no word"),
        ("store", "missing"),
        ("store 0", "1 hex digits"),
        ("request 0g", "`g`"),
        ("request +1", "`+`"),
        ("request 00 2a 0", "5 hex digits"),
        ("table 00", "3841 bytes, these are 1"),
        ("table", "missing"),
        ("cluster fc", "four hex digits"),
        ("cluster 21fc00", "four hex digits"),
        ("unicast 256", "from 0 to 255"),
        ("unicast", "from 0 to 255"),
        ("table 0g, then zeros", "`g`"),
        ("room", "no number"),
        ("room -1", "no number"),
        ("room +1", "no number"),
        ("room 65536", "no number"),
    ] {
        let trouble = parsed(&over_t(&format!("# two\nrequest 00\n{line}\n"))).expect_err(line);
        assert!(trouble.starts_with("line 4: "), "{line}: {trouble}");
        assert!(trouble.contains(why), "{line}: {trouble}");
        assert_eq!(trouble.lines().count(), 1, "{trouble}");
    }
}

#[test]
fn all_bad_lines_at_once() {
    let trouble = parsed("request 00\nroom x\nstore 1\n").expect_err("two are bad");
    let lines: Vec<&str> = trouble.lines().map(|line| &line[..7]).collect();
    assert_eq!(lines, ["line 2:", "line 3:"]);
}

#[test]
fn what_is_no_traffic() {
    let long = format!("store {}\nrequest 00\n", "00".repeat(65_536));
    for (file, why) in [
        ("", "no request"),
        ("# nothing\n", "no request"),
        (&over_t(""), "no request"),
        (
            "request 00\nstore 00\n",
            "line 1: a request before any store",
        ),
        (&over_t("request 00"), "line 2: it does not end"),
        (&long, "line 1: more than 65535 bytes"),
    ] {
        let trouble = parsed(file).expect_err(why);
        assert!(trouble.contains(why), "{trouble}");
    }
    let trouble = Traffic::parsed(b"store 00\n\xff\n").expect_err("it is no text");
    assert!(trouble.starts_with("line 2: it is no text"), "{trouble}");
}
