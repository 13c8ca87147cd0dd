//! Read: a record for each id, until one's three bytes do not fit.

use super::answer::Served;
use super::reply::{Reply, id_bytes};
use crate::body::Body;
use crate::store::{find, value};

pub fn read(store: &[u8], mut body: Body<'_>, mut reply: Reply) -> Served {
    while body.goes_on() {
        let id = body.short()?;
        if !reply.fits(3) {
            break;
        }
        reply.put(&record(store, id, reply.left()))?;
    }
    reply.done()
}

/// The record of an attribute where `left` bytes, three or more, are left.
fn record(store: &[u8], id: u16, left: usize) -> Vec<u8> {
    let status_alone = |status| [&id_bytes(id)[..], &[status]].concat();
    let (Some(attribute), Some(value)) = (find(store, id), value(store, id)) else {
        return status_alone(0x86);
    };
    let whole = [&id_bytes(id)[..], &[0x00, attribute.type_code], value].concat();
    if whole.len() <= left {
        whole
    } else {
        status_alone(0x89)
    }
}
