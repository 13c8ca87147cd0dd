//! Copies of a table's bytes with one byte changed, or of another length:
//! every function refuses them with 8 and leaves them alone, or, where they
//! are a table all the same, does with it what it does with any. 8 comes before
//! the 13 of a mark that is none.

use cases::Random;
use cases::histories::kinds::{self, Kinds};
use cases::histories::{Answer, History};
use ours::{Driver, Held};
use reading::table::{ENTRIES, SIZE, SLOT, entries};

use crate::MARKS;
use crate::call::{leaving, on};
use crate::table::Table;

/// Makes calls on some damaged copies of `table`.
pub fn compare(
    driver: &mut Driver,
    table: &[u8],
    random: &mut Random,
    kinds: &mut Kinds,
) -> Result<(), String> {
    for _ in 0..8 {
        let mut changed = table.to_vec();
        let at = place(table, random);
        changed[at] = match random.below(4) {
            0 => changed[at] ^ 1 << random.below(8),
            1 => changed[at].wrapping_add(1),
            2 => random.of(&[0, 1, 2, 16, 17, 128, 129, 0xff]),
            _ => random.byte(),
        };
        if changed == table {
            changed[at] ^= 0x80;
        }
        driver.agree(&every_call(&changed, random, kinds)?)?;
    }
    let used = 1 + SLOT * usize::from(table[0]);
    let other = random.below(2 * SIZE);
    for length in [random.of(&[0, 1, SLOT, used]), SIZE - 1, SIZE + 1, other] {
        let mut changed = table.to_vec();
        changed.resize(length, 0);
        driver.agree(&every_call(&changed, random, kinds)?)?;
    }
    Ok(())
}

/// The count, a slot's mark, flag, time or value, the slot past the count, or
/// any.
fn place(table: &[u8], random: &mut Random) -> usize {
    let count = usize::from(table[0]);
    let slot = 1 + SLOT * random.below(count + 1).min(ENTRIES - 1);
    match random.below(9) {
        0 => 0,
        1 => slot + 16,
        2 => slot + 17,
        3 => slot + 18 + random.below(12),
        4 if count < ENTRIES => 1 + SLOT * count + random.below(SLOT),
        _ => random.below(SIZE),
    }
}

fn every_call(bytes: &[u8], random: &mut Random, kinds: &mut Kinds) -> Result<Vec<Held>, String> {
    let read = entries(bytes);
    kinds.count(kinds::of_damaged(&read));

    let held = read.clone().unwrap_or_default();
    let calls = History::marked(random, &MARKS).every_call(random, &held);
    let each = calls.iter().map(|call| match &read {
        Ok(held) => Ok(Table::of(bytes, held.clone()).give(call)?.held),
        Err(_) => Ok(Held {
            call: on(call, bytes),
            answer: leaving(Answer::NO_TABLE, bytes),
        }),
    });
    [Ok(table_new(bytes))].into_iter().chain(each).collect()
}

/// A new table can be made in any bytes of its length, and in no others.
pub fn table_new(bytes: &[u8]) -> Held {
    let answer = if bytes.len() == SIZE {
        leaving(Answer::DONE, &[0; SIZE])
    } else {
        leaving(Answer::NO_TABLE, bytes)
    };
    Held {
        call: ours::Call::table_new(bytes),
        answer,
    }
}
