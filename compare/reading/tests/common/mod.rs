//! Hex, the bench store, and one frame served over it.

#![allow(dead_code)] // no test takes all of them

use reading::commands::serve;
use reading::table::Entry;

pub const CLUSTER: u16 = 0xfc21;

pub fn bytes(hex: &str) -> Vec<u8> {
    let hex: String = hex.split_whitespace().collect();
    (0..hex.len() / 2)
        .map(|at| u8::from_str_radix(&hex[2 * at..2 * at + 2], 16).expect("hex"))
        .collect()
}

pub fn hex(bytes: &[u8]) -> String {
    bytes.iter().map(|byte| format!("{byte:02x}")).collect()
}

/// Bench store T of document 01.
pub fn bench() -> Vec<u8> {
    bytes(
        "21fc0400 0000230224000400 0100200128000100 0500290329000200 070042012b000500
         00000080 07 38ff 0254560000",
    )
}

/// A store and a table that frames are served over, unicast.
pub struct Served {
    pub store: Vec<u8>,
    pub table: Vec<Entry>,
}

impl Served {
    pub fn bench() -> Self {
        Self {
            store: bench(),
            table: Vec::new(),
        }
    }

    /// The answer in the bench program's form: number, and the reply's hex.
    pub fn says(&mut self, frame: &str, room: usize) -> String {
        let frame = bytes(frame);
        let (store, table) = (&mut self.store, &mut self.table);
        let answer = serve(store, table, CLUSTER, true, &frame, room);
        assert!(answer.reply.len() <= room);
        assert_eq!(answer.number == 0, !answer.reply.is_empty());
        match answer.number {
            0 => format!("0 {}", hex(&answer.reply)),
            number => number.to_string(),
        }
    }
}

/// A reply in that form; the hex may have spaces.
pub fn reply(spaced: &str) -> String {
    format!("0 {}", hex(&bytes(spaced)))
}

/// The answer over T and an empty table.
pub fn says(frame: &str, room: usize) -> String {
    Served::bench().says(frame, room)
}

/// The answer over T, and T's bytes from `at` on afterwards.
pub fn leaves(frame: &str, room: usize, at: usize) -> (String, String) {
    let mut served = Served::bench();
    let said = served.says(frame, room);
    assert_eq!(served.store[..at], bench()[..at]);
    (said, hex(&served.store[at..]))
}
