//! The rollback counter in frames, and as a number.

use cases::hex;

use super::answers::replies;
use super::block::{Block, Table, code, heading, text};
use crate::counter::Counter;
use crate::results::Results;

pub fn section(results: &Results) -> Vec<Block> {
    vec![
        heading("The rollback counter"),
        text(
            "The counter is an unsigned number of 32 bits (type 23). A read of it, around the value at which its top bit is set. Its four bytes stand at the \
             end of the reply, the lowest first:",
        ),
        served(results),
        text("The number that the head-end is to work with:"),
        numbers(results),
        text(
            "The bytes in the replies are right in both servers. What went wrong is the number that was made of them: the glue code read every integer \
             as signed. From `7fffffff` to `80000000` its number fell from 2147483647 to -2147483648, so that the older image passed for the newer one. \
             The glue code was not at hand; its column is what reading the same four bytes as signed gives. `hd_read_record` at the head-end and `hd_number` in \
             the box give the number by the type of the value: a signed type keeps its sign, and any other of up to 7 bytes has none. That both give the same, for every store \
             and every read that is answered, is proved (`HdReadNumber`). (An unsigned number of 8 bytes keeps its bits in a \
             signed number of 64 bits, as document 01 says: from `8000000000000000` on it reads as negative.)",
        ),
    ]
}

/// A read of it, by both.
fn served(results: &Results) -> Block {
    let rows = results.counters.iter().map(|row| {
        let [old, new] = replies(&row.ran);
        let request = code(&hex(&row.ran.frame.case.request));
        vec![name(row), request, old, new]
    });
    let head = ["counter", "request", "reply, old", "reply, new"];
    Table::of(&head, rows.collect())
}

/// Its number, by all.
fn numbers(results: &Results) -> Block {
    let rows = results.counters.iter().map(|row| {
        let [read, new] = [row.read, row.new].map(given);
        let [document, signed] = [row.document, row.signed().into()];
        vec![
            name(row),
            read,
            new,
            document.to_string(),
            signed.to_string(),
        ]
    });
    let head = [
        "counter",
        "read from the reply (`hd_read_record`)",
        "in the box (`hd_number`)",
        "independent reading",
        "the glue: as told, not run here",
    ];
    Table::of(&head, rows.collect())
}

/// A number, or that it was refused.
fn given(said: (u8, i64)) -> String {
    match said {
        (0, number) => number.to_string(),
        (refused, _) => format!("refused ({refused})"),
    }
}

fn name(row: &Counter) -> String {
    code(&format!("{:08x}", row.counter))
}
