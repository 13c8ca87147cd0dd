//! Bytes that are restored: forms with marks and without, with every damage of one
//! byte, and any bytes that look like a form.

use cases::Random;
use ours::Server;
use reading::saved::{length, old_length};
use reading::table::{ENTRIES, Entry, FORMER_ENTRIES, SIZE, to_bytes};

use crate::call::Given;
use crate::compared::Compared;
use crate::made::{self, Form, Intervals};
use crate::round_trip::restore_and_save;

/// The entries of the forms of which every damage is tried,
const EVERY: [usize; 4] = [0, 1, 2, FORMER_ENTRIES];

/// and of those of which each byte is changed, to a few others.
const SOME: [usize; 2] = [FORMER_ENTRIES + 1, ENTRIES];

const ANY: usize = 150_000;

/// Every damage is restored over a full table with last reports, so that what is
/// left of it shows.
pub fn compare_damaged(
    compared: &mut Compared<'_, impl Server<Given>>,
    random: &mut Random,
) -> Result<(), String> {
    let before = full(random);
    for (many, others) in tried() {
        let entries = made::table(random, many, Intervals::Sound);
        for form in Form::BOTH.map(|form| form.of(&entries)) {
            restore_and_save(compared, &before, &form)?;
            for damaged in damaged(&form, others) {
                restore_and_save(compared, &before, &damaged)?;
            }
        }
    }
    Ok(())
}

/// What a byte is changed to.
type Others = fn(u8) -> Vec<u8>;

/// How many entries, and which damages.
fn tried() -> impl Iterator<Item = (usize, Others)> {
    let every: Others = |was| (0..=0xff).filter(|&byte| byte != was).collect();
    let some: Others = |was| vec![was ^ 1, was ^ 0x80, !was];
    EVERY
        .map(|many| (many, every))
        .into_iter()
        .chain(SOME.map(|many| (many, some)))
}

/// As many entries as there is room for, all of them reported.
fn full(random: &mut Random) -> Vec<u8> {
    let mut entries = made::table(random, ENTRIES, Intervals::Any);
    for entry in &mut entries {
        entry.last = Some((random.word(), -1));
    }
    to_bytes(&entries)
}

/// Cut at every place, with a byte behind, with some zeros or others behind, and
/// with each byte changed to others.
fn damaged(form: &[u8], others: Others) -> Vec<Vec<u8>> {
    let cut = (0..form.len()).map(|at| form[..at].to_vec());
    let byte_behind = (0..=0xff).map(|byte| [form, &[byte]].concat());
    // 19 bytes are those of an entry more, 18 without a mark; the last two are
    // lost in a length of one byte or of two
    let lengths = [2, 6, 12, 13, 18, 19, 38, length(ENTRIES), 1 << 8, 1 << 16];
    let behind = lengths
        .into_iter()
        .flat_map(|length| [0, 0xff, 0xa5].map(|byte| [form, &vec![byte; length]].concat()));
    let changed = (0..form.len()).flat_map(|at| {
        others(form[at]).into_iter().map(move |byte| {
            let mut changed = form.to_vec();
            changed[at] = byte;
            changed
        })
    });
    cut.chain(byte_behind)
        .chain(behind)
        .chain(changed)
        .collect()
}

/// Any bytes, over any bytes.
pub fn compare_any(
    compared: &mut Compared<'_, impl Server<Given>>,
    random: &mut Random,
) -> Result<(), String> {
    for _ in 0..ANY {
        let form = any(random);
        let before = before(random);
        restore_and_save(compared, &before, &form)?;
    }
    Ok(())
}

/// What a form may be restored over.
fn before(random: &mut Random) -> Vec<u8> {
    match random.below(8) {
        0 => random.bytes(SIZE),
        1 => vec![0; SIZE],
        2 => {
            let length = random.of(&[0, SIZE - 1, SIZE + 1]);
            random.bytes(length)
        }
        _ => {
            let many = made::many(random);
            to_bytes(&made::table(random, many, Intervals::Any))
        }
    }
}

/// Bytes that look like a form: some are one, most have one fault or more.
fn any(random: &mut Random) -> Vec<u8> {
    let most = match random.below(32) {
        0 => 255,
        1..8 => ENTRIES + 2,
        _ => FORMER_ENTRIES + 2,
    };
    let many = random.below(most + 1);
    if random.one_in(8) {
        return noise(random, many);
    }
    let intervals = random.of(&[Intervals::Any, Intervals::Any, Intervals::Sound]);
    let mut entries: Vec<Entry> = (0..many).map(|_| entry(random, intervals)).collect();
    if many >= 2 && random.one_in(4) {
        entries[random.below(many)].key = entries[random.below(many)].key;
    }
    if many >= 1 && random.one_in(8) {
        entries[random.below(many)].config.mark = random.of(&[2, 3, 0x80, 0xff]);
    }
    let form = random.of(&[Form::Marked, Form::Marked, Form::Unmarked]);
    let mut offsets = form.offsets(many);
    if many >= 1 && random.one_in(4) {
        misplace(random, &mut offsets);
    }
    let mut form = form.laid_out(&entries, &offsets);
    if random.one_in(8) {
        let other = random.below(2 * form.len());
        form.resize(other, random.of(&[0, 0xff]));
    }
    form
}

/// Keys are most often distinct.
fn entry(random: &mut Random, intervals: Intervals) -> Entry {
    let mut key = made::key(random);
    if !random.one_in(64) {
        key.attribute = random.short();
    }
    Entry {
        key,
        config: made::config(random, intervals),
        last: None,
    }
}

/// Offsets that do not follow on, most of them: two exchanged or the same, one
/// beside its body or anywhere, or all of them moved.
fn misplace(random: &mut Random, offsets: &mut [u16]) {
    let [one, other] = [0, 1].map(|_| random.below(offsets.len()));
    match random.below(5) {
        0 => offsets.swap(one, other),
        1 => offsets[one] = offsets[other],
        2 => {
            offsets[one] =
                offsets[one].wrapping_add_signed(random.of(&[-1, 1, 12, -12, 13, -13, 256]))
        }
        3 => offsets[one] = random.short(),
        _ => {
            let by = random.of(&[-1, 1, 6, 12, 13, -7]);
            for offset in offsets {
                *offset = offset.wrapping_add_signed(by);
            }
        }
    }
}

/// Bytes without any order, but for their length and, mostly, the count.
fn noise(random: &mut Random, many: usize) -> Vec<u8> {
    let length = random.of(&[length, old_length])(many);
    let mut bytes = random.bytes(length);
    if !random.one_in(4) {
        bytes[0] = many as u8;
    }
    bytes
}

#[cfg(test)]
mod tests {
    use std::collections::HashSet;

    use super::*;

    #[test]
    fn every_damage_is_another_form() {
        let random = &mut Random::new(1);
        for (many, others) in tried() {
            let entries = made::table(random, many, Intervals::Sound);
            for form in Form::BOTH.map(|form| form.of(&entries)) {
                let all = damaged(&form, others);
                let each = 1 + if EVERY.contains(&many) { 255 } else { 3 };
                assert_eq!(all.len(), each * form.len() + 256 + 30);
                let once: HashSet<&Vec<u8>> = all.iter().collect();
                assert_eq!(once.len(), all.len());
                assert!(!once.contains(&form));
            }
        }
    }
}
