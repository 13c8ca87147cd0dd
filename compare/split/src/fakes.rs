//! Servers that are wrong, each in its way.

use cases::{Case, Seen, body_of};
use reading::store::attributes;

use crate::lists::read;
use crate::server::Server;

/// What it makes of a call.
pub struct Fake(pub fn(&Case) -> Seen);

impl Server for Fake {
    fn serve(&mut self, calls: &[Case]) -> Result<Vec<Seen>, String> {
        Ok(calls.iter().map(self.0).collect())
    }
}

/// Document 01's answer to the call with another list.
fn with_list(call: &Case, list: impl Fn(u8, &[u8]) -> Vec<u8>) -> Seen {
    let (header, body) = body_of(&call.request).expect("the header is whole");
    let head = &call.request[..header.body];
    let request = [head, &list(header.command, body)].concat();
    let call = Case {
        request,
        ..call.clone()
    };
    call.document()
}

/// Forgets the last record of a list.
pub fn forgets_the_last(call: &Case) -> Seen {
    with_list(call, |command, list| {
        let places = read(command, list).places();
        list[..places[places.len().saturating_sub(2)]].to_vec()
    })
}

/// Does the records from the last to the first.
pub fn from_the_last(call: &Case) -> Seen {
    with_list(call, |command, list| {
        let read = read(command, list);
        let records = read.places().into_iter().zip(&read.records);
        let backwards = records
            .rev()
            .flat_map(|(start, &(end, _))| &list[start..end]);
        let unread = &list[read.length()..];
        backwards.chain(unread).copied().collect()
    })
}

/// Stops at the seventeenth byte of a list.
pub fn stops_early(call: &Case) -> Seen {
    with_list(call, |_, list| list[..list.len().min(16)].to_vec())
}

/// Does every list twice.
pub fn does_all_twice(call: &Case) -> Seen {
    with_list(call, |command, list| {
        let read = read(command, list).length();
        [&list[..read], list].concat()
    })
}

/// Writes as if undivided.
pub fn all_or_nothing(call: &Case) -> Seen {
    let mut call = call.clone();
    let header = body_of(&call.request).expect("the header is whole").0;
    if matches!(header.command, 0x02 | 0x05) {
        call.request[header.body - 1] = 0x03;
    }
    call.document()
}

/// Leaves the table's entries in turned order.
pub fn turns_the_table(call: &Case) -> Seen {
    let mut seen = call.document();
    if let Ok(mut entries) = reading::table::entries(&seen.table) {
        entries.reverse();
        seen.table = reading::table::to_bytes(&entries);
    }
    seen
}

/// Puts the list's length into the first body, where it changed anything.
pub fn leaves_a_mark(call: &Case) -> Seen {
    let mut seen = call.document();
    if seen.store != call.store {
        let first = usize::from(u16::from_le_bytes([seen.store[8], seen.store[9]]));
        seen.store[first] = call.request.len().to_le_bytes()[0];
    }
    seen
}

/// Does nothing to a store whose first attribute begins with an odd byte.
pub fn looks_at_another(call: &Case) -> Seen {
    let mut seen = call.document();
    let attributes = attributes(&call.store).unwrap_or_default();
    let first = attributes
        .first()
        .and_then(|first| call.store.get(first.offset));
    if first.is_some_and(|byte| byte % 2 == 1) {
        seen.store.clone_from(&call.store);
    }
    seen
}
