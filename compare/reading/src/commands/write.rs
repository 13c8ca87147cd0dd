//! Write, undivided, and write without response.

use super::answer::{Refusal, Served};
use super::reply::{Reply, id_bytes};
use crate::body::Body;
use crate::store;

/// One record of a request: an id, a type and a whole value of it.
struct Record<'a> {
    id: u16,
    type_code: u8,
    value: &'a [u8],
}

impl<'a> Record<'a> {
    fn read(body: &mut Body<'a>) -> Result<Self, Refusal> {
        let id = body.short()?;
        let type_code = body.byte()?;
        let value = body.value(type_code)?;
        Ok(Self {
            id,
            type_code,
            value,
        })
    }

    /// Stores the value, or says why not.
    fn written(&self, store: &mut [u8]) -> u8 {
        store::write(store, self.id, self.type_code, self.value)
    }

    /// The same status, and nothing is stored.
    fn checked(&self, store: &[u8]) -> u8 {
        let writable = store::writable(store, self.id, self.type_code, self.value);
        writable.err().unwrap_or(0x00)
    }
}

/// The failures that a reply lists.
struct Failures {
    reply: Reply,
    none: bool,
}

impl Failures {
    fn new(reply: Reply) -> Self {
        Self { reply, none: true }
    }

    fn add(&mut self, status: u8, id: u16) -> Result<(), Refusal> {
        if status == 0x00 {
            return Ok(());
        }
        self.none = false;
        let [low, high] = id_bytes(id);
        self.reply.put(&[status, low, high])
    }

    /// The list, or one 00.
    fn concluded(mut self) -> Served {
        if self.none {
            self.reply.put(&[0x00])?;
        }
        self.reply.done()
    }
}

pub fn write(store: &mut [u8], mut body: Body<'_>, reply: Reply) -> Served {
    let mut failures = Failures::new(reply);
    while body.goes_on() {
        let record = Record::read(&mut body)?;
        failures.add(record.written(store), record.id)?;
    }
    failures.concluded()
}

/// All records are read and checked before the first is stored, and none is
/// stored where one cannot be read or fails (document 02, request 2).
pub fn undivided(store: &mut [u8], mut body: Body<'_>, reply: Reply) -> Served {
    let mut failures = Failures::new(reply);
    let mut records = Vec::new();
    while body.goes_on() {
        let record = Record::read(&mut body)?;
        failures.add(record.checked(store), record.id)?;
        records.push(record);
    }
    if failures.none {
        for record in records {
            record.written(store);
        }
    }
    failures.concluded()
}

/// Up to a record that cannot be read.
pub fn without_response(store: &mut [u8], mut body: Body<'_>) -> Served {
    while body.goes_on() {
        let Ok(record) = Record::read(&mut body) else {
            break;
        };
        record.written(store);
    }
    Err(Refusal::NothingToSend)
}
