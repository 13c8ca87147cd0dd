//! A call on ours, and the answer that it is held to.

use cases::histories::{Answer, Call};

/// The call on ours, which is lent these bytes.
pub fn on(call: &Call, table: &[u8]) -> ours::Call {
    match *call {
        Call::Configure(key, config) => ours::Call::configure(table, key, config),
        Call::Clear(key) => ours::Call::clear(table, key),
        Call::Configuration(key) => ours::Call::configuration(table, key),
        Call::Ask(key, now, value) => ours::Call::ask(table, key, now, value),
        Call::Mark(key, now, value) => ours::Call::mark(table, key, now, value),
    }
}

/// The answer of ours, which leaves these bytes.
pub fn leaving(answer: Answer, table: &[u8]) -> ours::Answer {
    ours::Answer::new(answer.number, &answer.written, &[table])
}
