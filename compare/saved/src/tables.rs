//! Tables that are saved, into buffers of any size: as direct calls make them,
//! and damaged.

use cases::Random;
use ours::Server;
use reading::saved::length;
use reading::table::{ENTRIES, SIZE, SLOT, to_bytes};

use crate::call::Given;
use crate::compared::Compared;
use crate::made::{self, Intervals};

const TABLES: usize = 5000;

pub fn compare(
    compared: &mut Compared<'_, impl Server<Given>>,
    random: &mut Random,
) -> Result<(), String> {
    for _ in 0..TABLES {
        let many = made::many(random);
        let intervals = random.of(&[Intervals::Sound, Intervals::Any]);
        let table = to_bytes(&made::table(random, many, intervals));
        into_buffers(compared, random, &table)?;
        for damaged in damaged(&table, random) {
            into_buffers(compared, random, &damaged)?;
        }
    }
    Ok(())
}

/// Into buffers about as long as the form of the entries that there seem to be,
/// and far shorter and longer.
fn into_buffers(
    compared: &mut Compared<'_, impl Server<Given>>,
    random: &mut Random,
    table: &[u8],
) -> Result<(), String> {
    let count = usize::from(table.first().copied().unwrap_or(0));
    let form = length(count.min(ENTRIES));
    let longer = if random.one_in(1000) {
        1 << 16
    } else {
        length(ENTRIES) + 1 + random.below(300)
    };
    let shorter = random.below(form);
    for room in [
        0,
        form - 1,
        form,
        form + 1,
        length(ENTRIES),
        longer,
        shorter,
    ] {
        compared.save(table, room)?;
    }
    Ok(())
}

/// Copies with a key twice, with other bytes, and of other lengths.
fn damaged(table: &[u8], random: &mut Random) -> Vec<Vec<u8>> {
    let mut all = Vec::new();
    if let Some(twice) = twice(table, random) {
        // no table at all, whatever is twice in it
        let [mut mark, mut flag] = [twice.clone(), twice.clone()];
        mark[1 + 16] = random.of(&[2, 0xff]);
        flag[1 + 17] = random.of(&[2, 0xff]);
        all.extend([twice, mark, flag]);
    }
    for _ in 0..3 {
        let mut changed = table.to_vec();
        changed[place(table, random)] = random.of(&[0, 1, 2, 16, 17, 0x80, 0x81, 0xff]);
        all.push(changed);
    }
    for length in [0, SIZE - 1, SIZE + 1, random.below(2 * SIZE)] {
        let mut other = table.to_vec();
        other.resize(length, 0);
        all.push(other);
    }
    all
}

/// A table in which two entries, any two, have one key.
fn twice(table: &[u8], random: &mut Random) -> Option<Vec<u8>> {
    let count = usize::from(table[0]);
    if count < 2 {
        return None;
    }
    let from = random.below(count);
    let to = (from + 1 + random.below(count - 1)) % count;
    let [from, to] = [from, to].map(|slot| 1 + SLOT * slot);
    let mut twice = table.to_vec();
    twice.copy_within(from..from + 4, to);
    Some(twice)
}

/// The count; a slot's intervals, mark, flag, time or value; the slot past the
/// count; or any.
fn place(table: &[u8], random: &mut Random) -> usize {
    let count = usize::from(table[0]);
    let slot = 1 + SLOT * random.below(count.max(1));
    match random.below(7) {
        0 => 0,
        1 => slot + 4 + random.below(4),
        2 => slot + 16,
        3 => slot + 17,
        4 => slot + 18 + random.below(12),
        5 if count < ENTRIES => 1 + SLOT * count + random.below(SLOT),
        _ => random.below(SIZE),
    }
}

#[cfg(test)]
mod tests {
    use super::*;
    use reading::saved::{Fault, write};
    use reading::table::entries;

    #[test]
    fn a_key_twice() {
        let random = &mut Random::new(1);
        for many in 2..=ENTRIES {
            let table = to_bytes(&made::table(random, many, Intervals::Sound));
            let twice = twice(&table, random).expect("there are two");
            let held = entries(&twice).expect("a table");
            assert_eq!(write(&held), Err(Fault::Repeated));
        }
        assert_eq!(twice(&to_bytes(&[]), random), None);
    }
}
