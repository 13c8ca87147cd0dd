//! Configure reporting.

use super::answer::{Refusal, Served};
use super::reply::{Reply, id_bytes};
use crate::body::Body;
use crate::number::{is_int, widened};
use crate::store::find;
use crate::table::{Config, Entry, Key, SIGNED, UNSIGNED, clear, configure as set};
use crate::types::change_width;

/// What a record of direction 0 asks for.
struct Asked {
    type_code: u8,
    config: Config,
}

impl Asked {
    fn read(body: &mut Body<'_>) -> Result<Self, Refusal> {
        let type_code = body.byte()?;
        let minimum = body.short()?;
        let maximum = body.short()?;
        let width = change_width(type_code);
        let change = change(type_code, body.bytes(width)?);
        Ok(Self {
            type_code,
            config: Config {
                minimum,
                maximum,
                change,
                mark: mark(type_code),
            },
        })
    }
}

/// How numbers of a type compare.
fn mark(type_code: u8) -> u8 {
    if is_int(type_code) { SIGNED } else { UNSIGNED }
}

/// Int changes are sign-extended and lose their sign; float changes become 0.
fn change(type_code: u8, field: &[u8]) -> u64 {
    let float = matches!(type_code, 0x38..=0x3a);
    if float {
        return 0;
    }
    let wide = widened(type_code, field);
    if is_int(type_code) {
        i64::from_le_bytes(wide).unsigned_abs()
    } else {
        u64::from_le_bytes(wide)
    }
}

pub fn configure(
    store: &[u8],
    table: &mut Vec<Entry>,
    cluster: u16,
    mut body: Body<'_>,
    mut reply: Reply,
) -> Served {
    let mut none_failed = true;
    while body.goes_on() {
        let direction = body.byte()?;
        let id = body.short()?;
        let status = if direction == 0 {
            let asked = Asked::read(&mut body)?;
            let attribute = id;
            one(store, table, Key { cluster, attribute }, &asked)
        } else {
            body.short()?;
            0x8c
        };
        if status != 0x00 {
            none_failed = false;
            let [low, high] = id_bytes(id);
            reply.put(&[status, direction, low, high])?;
        }
    }
    if none_failed {
        reply.put(&[0x00])?;
    }
    reply.done()
}

/// The status of one record of direction 0, which is done if it is 00.
fn one(store: &[u8], table: &mut Vec<Entry>, key: Key, asked: &Asked) -> u8 {
    let Some(attribute) = find(store, key.attribute) else {
        return 0x86;
    };
    if attribute.access & 2 == 0 {
        return 0x8c;
    }
    if attribute.type_code != asked.type_code {
        return 0x8d;
    }
    let Config {
        minimum, maximum, ..
    } = asked.config;
    if maximum == 0xffff || (maximum == 0 && minimum == 0xffff) {
        clear(table, key);
        return 0x00;
    }
    if maximum != 0 && maximum < minimum {
        return 0x87;
    }
    if set(table, key, asked.config) {
        0x00
    } else {
        0x89
    }
}
