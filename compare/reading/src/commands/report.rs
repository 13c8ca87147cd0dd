//! A report frame from a list of ids.

use super::answer::{Answer, Refusal, Served};
use super::reply::{Reply, id_bytes};
use crate::store::{find, is_store, value};

pub fn report(store: &[u8], sequence: u8, ids: &[u16], room: usize) -> Answer {
    reported(store, sequence, ids, room).into()
}

fn reported(store: &[u8], sequence: u8, ids: &[u16], room: usize) -> Served {
    if !is_store(store) {
        return Err(Refusal::NoStore);
    }
    let mut frame = Reply::begun(sequence, 0x0a, room)?;
    if ids.is_empty() {
        return Err(Refusal::NothingToReport);
    }
    for &id in ids {
        frame.put(&record(store, id).ok_or(Refusal::NotReportable)?)?;
    }
    frame.done()
}

/// Id, type, value; `None` where the attribute is missing or not reportable.
pub(super) fn record(store: &[u8], id: u16) -> Option<Vec<u8>> {
    let attribute = find(store, id).filter(|attribute| attribute.access & 2 != 0)?;
    Some([&id_bytes(id)[..], &[attribute.type_code], value(store, id)?].concat())
}
