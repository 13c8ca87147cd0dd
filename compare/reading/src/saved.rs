//! The saved form of a reporting table, which a box keeps through a power cut:
//! document 02, requests 5 and 6. It tells what is configured, and no last
//! report. A form that was saved before there were marks is read too: its
//! numbers compare as they did then.

use crate::body::{Body, Cut};
use crate::commands::{Answer, Refusal};
use crate::table::{self, Config, ENTRIES, Entry, Key, SIGNED, SIZE};

/// Bytes of an entry of the contents: cluster, attribute, offset.
const CONTENT: usize = 6;

/// Bytes of a body without a mark: minimum, maximum, change.
const UNMARKED: usize = 12;

/// Bytes of a body.
const BODY: usize = UNMARKED + 1;

/// Why bytes are not a saved form, or a table has none. Where several are true,
/// the first that is met is said; the number is the same for all.
#[derive(Debug, Clone, Copy, PartialEq, Eq)]
pub enum Fault {
    /// The bytes end before the last body does, or go on behind it.
    Length,
    /// More entries than a table has room for.
    Count,
    /// A body does not stand where its offset says.
    Offset,
    /// A mark is none.
    Mark,
    /// A key stands twice.
    Repeated,
    /// A maximum of ffff,
    NoReports,
    /// a maximum of 0 with a minimum of ffff,
    Neither,
    /// a maximum that is not 0 and below the minimum.
    Crossed,
}

impl From<Cut> for Fault {
    fn from(Cut: Cut) -> Self {
        Self::Length
    }
}

/// The entries of a saved form, none of them reported.
pub fn read(saved: &[u8]) -> Result<Vec<Entry>, Fault> {
    read_within(ENTRIES, saved)
}

/// As a box reads it whose tables have room for so many.
pub fn read_within(limit: usize, saved: &[u8]) -> Result<Vec<Entry>, Fault> {
    let mut bytes = Body::new(saved);
    let count = usize::from(bytes.byte()?);
    if count > limit {
        return Err(Fault::Count);
    }
    let marked = !is_old(count, saved.len());
    let mut contents = Vec::new();
    for _ in 0..count {
        contents.push(content(&mut bytes)?);
    }
    let mut entries = Vec::new();
    for (key, offset) in contents {
        if usize::from(offset) != bytes.at() {
            return Err(Fault::Offset);
        }
        let config = config(&mut bytes, marked)?;
        let last = None;
        entries.push(Entry { key, config, last });
    }
    if bytes.goes_on() {
        return Err(Fault::Length);
    }
    sound(&entries)?;
    Ok(entries)
}

/// Whether a form of so many entries has no marks, by its bytes. A form of none
/// is the same either way.
fn is_old(count: usize, bytes: usize) -> bool {
    bytes == old_length(count)
}

/// A key, and where its body starts.
fn content(bytes: &mut Body<'_>) -> Result<(Key, u16), Cut> {
    let cluster = bytes.short()?;
    let attribute = bytes.short()?;
    Ok((Key { cluster, attribute }, bytes.short()?))
}

fn config(bytes: &mut Body<'_>, marked: bool) -> Result<Config, Fault> {
    let minimum = bytes.short()?;
    let maximum = bytes.short()?;
    let change = bytes.bytes(8)?.try_into().expect("eight were taken");
    let mark = if marked { bytes.byte()? } else { SIGNED };
    if !table::is_mark(mark) {
        return Err(Fault::Mark);
    }
    Ok(Config {
        minimum,
        maximum,
        change: u64::from_le_bytes(change),
        mark,
    })
}

/// The saved form of a table of these entries, which are no more than it holds.
pub fn write(entries: &[Entry]) -> Result<Vec<u8>, Fault> {
    sound(entries)?;
    let count = u8::try_from(entries.len()).expect("a table is short");
    let (mut contents, mut bodies) = (Vec::new(), Vec::new());
    for Entry { key, config, .. } in entries {
        let offset = 1 + CONTENT * entries.len() + bodies.len();
        let offset = u16::try_from(offset).expect("a table is short");
        contents.extend([key.cluster, key.attribute, offset].map(u16::to_le_bytes));
        bodies.extend(config.minimum.to_le_bytes());
        bodies.extend(config.maximum.to_le_bytes());
        bodies.extend(config.change.to_le_bytes());
        bodies.push(config.mark);
    }
    Ok([&[count], contents.as_flattened(), &bodies].concat())
}

/// The bytes of the form of so many entries.
pub fn length(entries: usize) -> usize {
    1 + (CONTENT + BODY) * entries
}

/// The bytes of the form without marks of so many entries.
pub fn old_length(entries: usize) -> usize {
    1 + (CONTENT + UNMARKED) * entries
}

/// What a form and a table that has one keep both.
fn sound(entries: &[Entry]) -> Result<(), Fault> {
    for (place, entry) in entries.iter().enumerate() {
        if table::place(entries, entry.key) != Some(place) {
            return Err(Fault::Repeated);
        }
        match entry.config {
            Config {
                maximum: 0xffff, ..
            } => return Err(Fault::NoReports),
            Config {
                minimum: 0xffff,
                maximum: 0,
                ..
            } => return Err(Fault::Neither),
            Config {
                minimum, maximum, ..
            } if maximum != 0 && maximum < minimum => return Err(Fault::Crossed),
            _ => (),
        }
    }
    Ok(())
}

/// Saves a table, given as its bytes: the form is the reply.
pub fn save(table: &[u8], room: usize) -> Answer {
    saved(table, room).into()
}

fn saved(table: &[u8], room: usize) -> Result<Vec<u8>, Refusal> {
    let entries = table::entries(table).map_err(|_| Refusal::NoTable)?;
    let form = write(&entries).map_err(|_| Refusal::NoSavedForm)?;
    if form.len() > room {
        return Err(Refusal::DoesNotFit);
    }
    Ok(form)
}

/// Makes a table of a saved form, whatever the table's bytes were, and gives the
/// number. What is not a saved form makes an empty table.
pub fn restore(table: &mut [u8], saved: &[u8]) -> u8 {
    if table.len() != SIZE {
        return Refusal::NoTable as u8;
    }
    let (number, entries) = match read(saved) {
        Ok(entries) => (0, entries),
        Err(_) => (Refusal::NoSavedForm as u8, Vec::new()),
    };
    table.copy_from_slice(&table::to_bytes(&entries));
    number
}
