//! The Rust answers document 01's bench frames, over T and an empty table.

use oracle::{Oracle, Outcome, Request};
use reading::table::{Config, Entry, Key};

fn bytes(hex: &str) -> Vec<u8> {
    let hex: String = hex.split_whitespace().collect();
    (0..hex.len() / 2)
        .map(|at| u8::from_str_radix(&hex[2 * at..2 * at + 2], 16).expect("hex"))
        .collect()
}

/// Bench store T of document 01.
fn bench() -> Vec<u8> {
    bytes(
        "21fc0400 0000230224000400 0100200128000100 0500290329000200 070042012b000500
         00000080 07 38ff 0254560000",
    )
}

fn handled(frame: &str, room: usize) -> Outcome {
    let frame = &bytes(frame);
    let request = Request {
        cluster: 0xfc21,
        unicast: true,
        frame,
        room,
    };
    let outcome = Oracle::default().handle(&bench(), &[], &request);
    outcome.expect("no panic")
}

/// The reply, and T's bytes from attribute 1 on afterwards.
fn says(frame: &str, room: usize) -> (Option<Vec<u8>>, Vec<u8>) {
    let outcome = handled(frame, room);
    assert_eq!(outcome.store[..40], bench()[..40]);
    (outcome.reply, outcome.store[40..].to_vec())
}

fn reply(hex: &str, rest: &str) -> (Option<Vec<u8>>, Vec<u8>) {
    (Some(bytes(hex)), bytes(rest))
}

const REST: &str = "0738ff0254560000";
const WITH_9: &str = "0938ff0254560000";

#[test]
fn reads() {
    let frame = "002a0000000900";
    let whole = "182a010000002300000080090086";
    assert_eq!(says(frame, 14), reply(whole, REST));
    assert_eq!(says(frame, 13), reply(&whole[..22], REST));
    assert_eq!(says(frame, 10), reply("182a01000089090086", REST));
    assert_eq!(says(frame, 3), reply("182a01", REST));
    assert_eq!(says(frame, 2), (None, bytes(REST)));
}

#[test]
fn writes() {
    assert_eq!(says("002b0201002009", 64), reply("182b0400", WITH_9));
    assert_eq!(
        says("002b0200002301000000", 64),
        reply("182b04880000", REST)
    );
    // it divides, as it did before request 2 of document 02
    let divided = "002b03 01002009 070042054142434445";
    assert_eq!(says(divided, 64), reply("182b04870700", WITH_9));
    assert_eq!(says("002b0301002009", 3), (None, bytes(WITH_9)));
    assert_eq!(says("002b0501002009", 0), (None, bytes(WITH_9)));
}

#[test]
fn discovers() {
    assert_eq!(
        says("002c0c010002", 64),
        reply("182c0d00010020050029", REST)
    );
    assert_eq!(says("002c0c080000", 64), reply("182c0d01", REST));
}

#[test]
fn configures() {
    let outcome = handled("002d0600050029 0a003c003200", 64);
    assert_eq!(outcome.reply, Some(bytes("182d0700")));
    let entry = Entry {
        key: Key {
            cluster: 0xfc21,
            attribute: 5,
        },
        config: Config {
            minimum: 10,
            maximum: 60,
            change: 50,
            mark: 0,
        },
        last: None,
    };
    assert_eq!(outcome.table, [entry]);
}
