//! Undivided writes with a string that is too long. Document 01 let them divide,
//! as the Rust does still; request 2 of document 02 does not.

use crate::case::Case;
use crate::differences::Said;
use crate::records::{End, Record, body_of, records};

/// What the Rust says and leaves where a record of an undivided write passes the
/// first three checks and is too long, and it can step over every value: as
/// document 01 had it before request 2. Nothing for any other frame.
pub fn divided(case: &Case) -> Option<Said> {
    let (header, body) = body_of(&case.request)?;
    let (records, end) = records(&case.store, body);
    let too_long = |record: &Record<'_>| record.of_three == 0x00 && record.status != 0x00;
    if header.command != 0x03 || !records.iter().any(too_long) {
        return None;
    }
    // a first pass reads all records, makes the first three checks, and stores
    // nothing
    if end != End::Whole {
        return Some(Said::nothing(case));
    }
    let failures = records.iter().filter(|record| record.of_three != 0x00);
    let failures: Vec<u8> = failures.flat_map(listed).collect();
    if !failures.is_empty() {
        let reply = [&[0x18, header.sequence, 0x04], &failures[..]].concat();
        return Some(Said::reply(case, reply));
    }
    // where none failed, the steps of a write follow
    let mut write = case.clone();
    write.request[header.body - 1] = 0x02;
    let seen = write.document();
    Some(Said {
        reply: (seen.number == 0).then(|| seen.reply().to_vec()),
        store: seen.store,
        ..Said::nothing(case)
    })
}

fn listed(record: &Record<'_>) -> [u8; 3] {
    let [low, high] = record.id.to_le_bytes();
    [record.of_three, low, high]
}
