//! Some lists, cut at every place: between each two records, and at each byte.

use cases::Random;

use crate::counted::Counted;
use crate::join::{Split, hold};
use crate::kinds::placed;
use crate::lists::read;
use crate::made::{AMPLE, before, cut, list_over, needed, sent};
use crate::sent::{Before, Way};
use crate::server::Server;

/// So many lists for each command by which the joined list is sent,
const LISTS: usize = 20;

/// each of so many records,
const FEWEST: usize = 3;

/// and of so many bytes.
const LONGEST: usize = 120;

pub fn hold_every(
    server: &mut impl Server,
    random: &mut Random,
    counted: &mut Counted,
) -> Result<(), String> {
    for joined in [0x02, 0x05, 0x06] {
        for _ in 0..LISTS {
            let mut refused = None;
            hold(
                server,
                &every(random, joined),
                |split, _, verdict| match placed(split, verdict) {
                    Some(line) => counted.count(&line),
                    None => refused = Some(split.clone()),
                },
            )?;
            if let Some(split) = refused {
                return Err(format!("5 where there is room: {split:x?}"));
            }
        }
    }
    Ok(())
}

/// A list at every place, once with ample room and once with just enough for
/// the joined list's reply.
fn every(random: &mut Random, joined: u8) -> Vec<Split> {
    let (before, list) = changing(random, joined);
    let parts = match joined {
        0x06 => [0x06; 2],
        _ => [0x02, 0x05],
    };
    let rooms = [AMPLE, needed(&before, joined, &list)];
    let mut splits = Vec::new();
    for at in 0..=list.len() {
        for room in rooms {
            let commands = [random.of(&parts), random.of(&parts), joined];
            splits.push(Split {
                before: before.clone(),
                lists: cut(&list, at),
                ways: commands.map(|command| sent(random, command, room)),
            });
        }
    }
    splits
}

/// A list whose records can all be read, and what it changes.
fn changing(random: &mut Random, command: u8) -> (Before, Vec<u8>) {
    loop {
        let before = before(random);
        let mut list = list_over(random, &before, command);
        let read = read(command, &list);
        list.truncate(read.length());
        let call = Way::plain(command, AMPLE).case(&before, &list);
        if read.records.len() >= FEWEST && list.len() <= LONGEST && before.changed(&call.document())
        {
            return (before, list);
        }
    }
}

#[cfg(test)]
mod tests {
    use super::*;
    use crate::server::Document;

    #[test]
    fn each_place_twice() {
        let random = &mut Random::new(0x706c_6163);
        for joined in [0x02, 0x05, 0x06] {
            let splits = every(random, joined);
            let list = splits[0].lists.concat();
            assert_eq!(splits.len(), 2 * (list.len() + 1));
            for (place, split) in splits.iter().enumerate() {
                assert_eq!(split.lists[0].len(), place / 2);
                assert_eq!(split.lists.concat(), list);
            }
        }
    }

    #[test]
    fn document_01_is_held() {
        let random = &mut Random::new(0x706c_6163);
        let counted = &mut Counted::new();
        assert_eq!(hold_every(&mut Document, random, counted), Ok(()));
    }
}
