//! Read configuration: a record for each that is asked for, until one does
//! not fit.

use super::answer::Served;
use super::reply::{Reply, id_bytes};
use crate::body::Body;
use crate::store::find;
use crate::table::{Entry, Key, place};
use crate::types::change_width;

pub fn read_configuration(
    store: &[u8],
    table: &[Entry],
    cluster: u16,
    mut body: Body<'_>,
    mut reply: Reply,
) -> Served {
    while body.goes_on() {
        let direction = body.byte()?;
        let attribute = body.short()?;
        let record = record(store, table, direction, Key { cluster, attribute });
        if !reply.fits(record.len()) {
            break;
        }
        reply.put(&record)?;
    }
    reply.done()
}

fn record(store: &[u8], table: &[Entry], direction: u8, key: Key) -> Vec<u8> {
    let [low, high] = id_bytes(key.attribute);
    let status_alone = |status| vec![status, direction, low, high];
    let Some(attribute) = find(store, key.attribute) else {
        return status_alone(0x86);
    };
    if direction != 0 {
        return status_alone(0x8c);
    }
    if attribute.access & 2 == 0 {
        return status_alone(0x8c);
    }
    let Some(place) = place(table, key) else {
        return status_alone(0x8b);
    };
    let config = table[place].config;
    [
        &[0x00, direction, low, high, attribute.type_code][..],
        &config.minimum.to_le_bytes(),
        &config.maximum.to_le_bytes(),
        &config.change.to_le_bytes()[..change_width(attribute.type_code)],
    ]
    .concat()
}
