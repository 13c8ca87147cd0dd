//! Answers, short enough for a table.

use cases::hex;

use super::block::code;
use crate::sides::{Old, Ran};

/// The old reply and the new one, in words or in hex.
pub fn replies(ran: &Ran) -> [String; 2] {
    let old = match &ran.old {
        Old::Said(outcome) => reply(outcome.reply.as_deref()),
        Old::NoCounterpart => "no such store or table".to_owned(),
        Old::Panicked(_) => "it panicked".to_owned(),
    };
    let new = match &ran.new {
        Ok(seen) if seen.number == 0 => reply(Some(seen.reply())),
        Ok(seen) => format!("no reply ({})", seen.number),
        Err(trouble) => trouble.clone(),
    };
    [old, new]
}

/// The same, with what became of the store, where one of them changed it.
pub fn with_stores(ran: &Ran) -> [String; 2] {
    let before = &ran.frame.case.store;
    let stores = [
        match &ran.old {
            Old::Said(outcome) => &outcome.store,
            _ => before,
        },
        ran.new.as_ref().map_or(before, |seen| &seen.store),
    ];
    let changed = stores.iter().any(|store| *store != before);
    let mut said = replies(ran);
    for (said, store) in said.iter_mut().zip(stores) {
        if changed {
            *said += &format!("; {}", stored(before, store));
        }
    }
    said
}

/// The whole reply buffers.
pub fn buffers(ran: &Ran) -> [String; 2] {
    let old = match &ran.old {
        Old::Said(outcome) => code(&hex(&outcome.buffer)),
        _ => replies(ran)[0].clone(),
    };
    let new = match &ran.new {
        Ok(seen) => code(&hex(&seen.buffer)),
        Err(_) => replies(ran)[1].clone(),
    };
    [old, new]
}

fn reply(reply: Option<&[u8]>) -> String {
    reply.map_or("no reply".to_owned(), |reply| code(&hex(reply)))
}

fn stored(before: &[u8], after: &[u8]) -> String {
    let both = before.iter().zip(after).enumerate();
    let bytes: Vec<String> = both
        .filter(|(_, (before, after))| before != after)
        .map(|(at, (before, after))| {
            format!("byte {at} of the store from {before:02x} to {after:02x}")
        })
        .collect();
    match bytes.is_empty() {
        true => "the store as it was".to_owned(),
        false => bytes.join(", "),
    }
}

#[cfg(test)]
mod tests {
    use super::*;

    #[test]
    fn what_became_of_a_store() {
        assert_eq!(stored(&[1, 2], &[1, 2]), "the store as it was");
        assert_eq!(
            stored(&[1, 2], &[1, 0]),
            "byte 1 of the store from 02 to 00"
        );
    }
}
