//! Tables that are saved, then restored over what may stand there after a power
//! cut, then saved again.

use cases::{Random, hex};
use ours::Server;
use reading::saved::length;
use reading::table::{ENTRIES, Entry, SIGNED, SIZE, to_bytes};

use crate::call::Given;
use crate::compared::Compared;
use crate::counted::{NEW_BYTES, READ_BACK, SAME_BYTES, is_old, reported};
use crate::made::{self, Form, Intervals};

const TABLES: usize = 5000;

pub fn compare(
    compared: &mut Compared<'_, impl Server<Given>>,
    random: &mut Random,
) -> Result<(), String> {
    for _ in 0..TABLES {
        let many = made::many(random);
        let entries = made::table(random, many, Intervals::Sound);
        there_and_back(compared, random, &entries)?;
    }
    Ok(())
}

fn there_and_back(
    compared: &mut Compared<'_, impl Server<Given>>,
    random: &mut Random,
    entries: &[Entry],
) -> Result<(), String> {
    let table = to_bytes(entries);
    let form = compared.save(&table, length(ENTRIES))?;
    let form = form.ok_or_else(|| format!("it is not written: {}", hex(&table)))?;
    let unreported = unreported(entries);
    let bytes = random.bytes(SIZE);
    for before in [table, other(random), vec![0; SIZE], bytes] {
        let left = restore_and_save(compared, &before, &form)?;
        if left.as_ref() != Some(&unreported) {
            return Err(format!("another table is read back: {}", hex(&form)));
        }
        compared
            .counted
            .count(READ_BACK[usize::from(!reported(entries))]);
    }
    for length in [0, SIZE - 1, SIZE + 1] {
        compared.restore(&random.bytes(length), &form)?;
        compared.restore(&vec![0; length], &form)?;
    }
    as_before(compared, random, entries)
}

/// The form that these entries had before there were marks is read as signed.
fn as_before(
    compared: &mut Compared<'_, impl Server<Given>>,
    random: &mut Random,
    entries: &[Entry],
) -> Result<(), String> {
    let form = Form::Unmarked.of(entries);
    let mut signed = entries.to_vec();
    for entry in &mut signed {
        entry.config.mark = SIGNED;
    }
    for before in [other(random), random.bytes(SIZE)] {
        let left = restore_and_save(compared, &before, &form)?;
        if left != Some(unreported(&signed)) {
            return Err(format!("it is not read as signed: {}", hex(&form)));
        }
    }
    compared.restore(&random.bytes(SIZE - 1), &form)?;
    Ok(())
}

/// The table without its last reports.
fn unreported(entries: &[Entry]) -> Vec<u8> {
    let entries: Vec<Entry> = entries
        .iter()
        .map(|entry| Entry {
            last: None,
            ..*entry
        })
        .collect();
    to_bytes(&entries)
}

/// Another table, which may have any entries.
fn other(random: &mut Random) -> Vec<u8> {
    let many = made::many(random);
    to_bytes(&made::table(random, many, Intervals::Any))
}

/// Restores these bytes and, where they are a saved form, saves the table again:
/// the same bytes, or of a form without marks the one with marks of 0. Gives that
/// table.
pub fn restore_and_save(
    compared: &mut Compared<'_, impl Server<Given>>,
    before: &[u8],
    form: &[u8],
) -> Result<Option<Vec<u8>>, String> {
    let (number, table) = compared.restore(before, form)?;
    if number != 0 {
        return Ok(None);
    }
    let (expected, line) = if is_old(form) {
        (marked(form), NEW_BYTES)
    } else {
        (form.to_vec(), SAME_BYTES)
    };
    let again = compared.save(&table, expected.len())?;
    if again != Some(expected) {
        return Err(format!("other bytes are written again: {}", hex(form)));
    }
    compared.counted.count(line);
    Ok(Some(table))
}

/// A form without marks, with a 0 behind every body.
fn marked(form: &[u8]) -> Vec<u8> {
    let count = usize::from(form[0]);
    let (contents, bodies) = form[1..].split_at(6 * count);
    let mut marked = vec![form[0]];
    for (content, offset) in contents.chunks(6).zip(Form::Marked.offsets(count)) {
        marked.extend(&content[..4]);
        marked.extend(offset.to_le_bytes());
    }
    for body in bodies.chunks(Form::Unmarked.body()) {
        marked.extend(body);
        marked.push(SIGNED);
    }
    marked
}
