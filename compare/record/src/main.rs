//! Writes the recorded list to standard output: inputs with the answers that
//! the held Rust gives, or document 01's own where the Rust has none (`s`, `v`
//! and `w`). Two runs write the same bytes.
//!
//! A case a line, fields parted by one space, bytes in lowercase hex:
//! - `t code size-analog-reportable`: the type table. Size ff where not fixed.
//! - `i count codes`: the types that have a name, by their codes, in the order
//!   of the Rust's enum.
//! - `h frame answer`: the header reader. Nothing where it refuses; else frame
//!   type, 01 or 00 for a manufacturer code or none, that code, sequence,
//!   command, the body's offset.
//! - `e value answer`: the value reader. The value is its type code and bytes;
//!   the answer 00 where it refuses, else 01 and how many bytes it took.
//! - `d value answer answer`: a listed difference, answers as in `e`, document
//!   01's first, then the Rust's.
//! - `s bytes answer`: 01 where the bytes are a store, 00 where not.
//! - `v question answer`: the number of a value. The question is an id in two
//!   bytes, then a store; the answer 00 and the number in eight bytes, two's
//!   complement, or the number of the refusal, 07 or 09.
//! - `w question answer`: one write. The question is an id in two bytes, a type
//!   code, the value's length in two bytes, the value, then a store; the answer
//!   the status and the whole store afterwards.
//! - `c input answers`: one frame over a store, at every room. The input is the
//!   last room in one byte, the store's length in two, the store, the request
//!   frame. The answers are those for room 0, 1 and so on up to the last: 00
//!   where answer and store are as at the room before; else 01, the number, the
//!   reply's length in one byte, the reply, and 00 where the store is as it was
//!   before the call, or 01 and the whole store. The number is document 01's,
//!   0 for a reply; reply and store are the Rust's as well, and the Rust has no
//!   reply exactly where the number is not 0.
//! - `x input answers answers`: a frame with a listed difference, input and
//!   answers as in `c`, document 01's first, then the Rust's, whose number is 6
//!   where it has no reply.
//! - `m calls answers`: calls on a reporting table, from an empty one on. A call
//!   is its operation (configure 00, clear 01, mark 02, ask 03, configuration
//!   04, len 05), the cluster and the attribute in two bytes each, and twelve
//!   bytes: minimum, maximum and change, or a time and a value, or zeros. All
//!   are configured with mark 0: the Rust compares with the sign. An
//!   answer is 00 and a byte: 01 where it was accepted or done, is due or was
//!   found, or how many entries there are; behind a configuration its minimum,
//!   maximum and change. Behind the answers comes the table, its count and its
//!   slots (docs/TABLE.md).
//! - `q input answer`: one frame of commands 06, 08 and 0b, or a cluster command
//!   0b, over a store and a table. The input is the room in one byte, the table's count and slots, the store's
//!   length in two bytes, the store, the request frame. The answer is 01, the
//!   number, the reply's length in one byte, the reply, and 00 where the table is
//!   as it was, or 01 and the table's count and slots. The number is document
//!   01's, as in `c`; reply and table are the Rust's as well, but for the marks
//!   in the slots, which are document 02's.
//! - `y input answer answer`: a frame of command 0b with a listed difference,
//!   input and answers as in `q`, document 01's first, then the Rust's, whose
//!   number is 0.
//! - `n count`: how many lines stand before this one, the last.
//!
//! The frames of `c` and `x` are global ones of commands 00, 02, 03, 05 and 0c
//! with a whole header, for the cluster of the store, which is one. The last
//! room is past the longest reply, at most 63, and where nothing changes any
//! more with a longer one.
//!
//! A difference that is not listed ends the program, with nothing written, and
//! so does an answer that document 01 allows to these commands, to 06 and 08 or
//! to a call on a table and that no line reaches, or a listed difference that no
//! frame shows.
//!
//! `record counts` writes instead how often each answer came in `c`, `x`, `m`, `q`
//! and `y` lines, `record smallest` the smallest frames that show each difference.

mod collections;
mod frames;
mod headers;
mod histories;
mod lines;
mod list;
mod numbers;
mod requests;
mod rust;
mod stores;
mod strings;
mod types;

use std::io::{Write, stdout};
use std::process::ExitCode;

use cases::histories::kinds::CALLS;

fn counts() -> Result<String, String> {
    let list = frames::lines()?.1.list();
    let calls = histories::lines()?.1.list(&CALLS);
    let requests = requests::lines()?.1.list(&requests::COMMANDS);
    Ok(list + &calls + &requests)
}

fn main() -> ExitCode {
    let asked = std::env::args().nth(1);
    let text = match asked.as_deref() {
        None => list::whole(),
        Some("counts") => counts(),
        Some("smallest") => frames::smallest::list(),
        Some(other) => Err(format!("{other}: not one of counts, smallest")),
    };
    let written = text.and_then(|text| {
        let mut out = stdout().lock();
        let written = out.write_all(text.as_bytes()).and_then(|()| out.flush());
        written.map_err(|trouble| trouble.to_string())
    });
    match written {
        Ok(()) => ExitCode::SUCCESS,
        Err(trouble) => {
            eprintln!("record: {trouble}");
            ExitCode::FAILURE
        }
    }
}
