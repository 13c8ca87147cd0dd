//! One frame given to the Rust and to the reading of document 01.

use cases::kinds::{self, Call, Kind};
use cases::{Case, Seen};
use frames::sides::{self, Stands};
use oracle::Oracle;
use reading::commands::Answer;
use reading::store::{attributes, is_store};
use reading::table::entries;

/// What came of it.
pub struct Compared {
    pub seen: Seen,
    pub rust: Stands,
}

/// Holds the Rust to document 01's answer but for the listed differences.
pub fn compare(oracle: &mut Oracle, case: &Case) -> Result<Compared, String> {
    let seen = case.document();
    let rust = sides::rust(oracle, case, &seen)?;
    // the store that the Rust is given is the reading's: what it keeps to is
    // looked at here
    if is_store(&case.store) && !still_sound(&case.store, &seen.store) {
        return Err(format!("no store is left, by document 01:\n{seen}"));
    }
    Ok(Compared { seen, rust })
}

/// Whether a store is one afterwards too, with the same contents.
fn still_sound(before: &[u8], after: &[u8]) -> bool {
    is_store(after) && attributes(before) == attributes(after)
}

/// The kinds of the answer.
pub fn kinds(case: &Case, seen: &Seen) -> Vec<Kind> {
    let answer = Answer {
        number: seen.number,
        reply: seen.reply().to_vec(),
    };
    kinds::of(&Call {
        store: &case.store,
        table: &entries(&case.table).unwrap_or_default(),
        unicast: case.unicast != 0,
        request: &case.request,
        room: case.room,
        answer: &answer,
        store_after: &seen.store,
        table_after: &entries(&seen.table).unwrap_or_default(),
    })
}
