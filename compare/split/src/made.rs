//! Lists at random, over random stores and tables.

mod rooms;

use cases::given::{stores, tables};
use cases::requests::{CONTROLS, header, request};
use cases::{Random, body_of};
use reading::store::{Attribute, attributes, cluster_of};

use crate::join::Split;
use crate::lists::{read, without};
use crate::order::Pair;
use crate::sent::{Before, Way};

pub use rooms::{AMPLE, needed};
use rooms::{room, rooms};

/// A list of writes or of configurations, cut in two.
pub fn split(random: &mut Random) -> Split {
    let commands = match random.below(3) {
        0 => [0x06; 3],
        _ => std::array::from_fn(|_| random.of(&[0x02, 0x05])),
    };
    split_by(random, commands)
}

/// A list, cut in two, with the commands by which A, B and the joined list are
/// sent.
pub fn split_by(random: &mut Random, commands: [u8; 3]) -> Split {
    let before = before(random);
    let lists = halves(random, &before, commands[0]);
    let rooms = rooms(random, &before, commands, &lists);
    let ways = std::array::from_fn(|way| sent(random, commands[way], rooms[way]));
    Split {
        before,
        lists,
        ways,
    }
}

/// Two lists of writes. They may name an attribute in common.
pub fn pair(random: &mut Random) -> Pair {
    let commands = writes(random);
    let before = before(random);
    let lists = commands.map(|command| list_over(random, &before, command));
    pair_of(random, before, commands, lists)
}

/// Two lists of writes that name no attribute in common.
pub fn disjoint(random: &mut Random) -> Pair {
    let commands = writes(random);
    let before = before(random);
    let all = attributes(&before.store).unwrap_or_default();
    let (mine, yours): (Vec<_>, Vec<_>) = all.into_iter().partition(|_| random.one_in(2));
    let one = list(random, &mine, commands[0]);
    let other = list(random, &yours, commands[1]);
    // either may name others than the store's
    let other = without(&other, &read(commands[0], &one).ids());
    pair_of(random, before, commands, [one, other])
}

fn pair_of(random: &mut Random, before: Before, commands: [u8; 2], lists: [Vec<u8>; 2]) -> Pair {
    let ways = std::array::from_fn(|list| {
        let room = room(random, &before, commands[list], &lists[list]);
        sent(random, commands[list], room)
    });
    Pair {
        before,
        lists,
        ways,
    }
}

fn writes(random: &mut Random) -> [u8; 2] {
    std::array::from_fn(|_| random.of(&[0x02, 0x03, 0x05]))
}

/// A store and a table, sound or damaged, and mostly the store's own cluster.
pub fn before(random: &mut Random) -> Before {
    let store = store(random);
    let own = cluster_of(&store).unwrap_or(0);
    let attributes = attributes(&store).unwrap_or_default();
    let table = tables::any(random, own, &attributes);
    let cluster = match random.below(40) {
        0 => own.wrapping_add(1),
        _ => own,
    };
    Before {
        store,
        table,
        cluster,
    }
}

/// Mostly of two attributes at least.
fn store(random: &mut Random) -> Vec<u8> {
    let fewest = random.of(&[0, 2, 2, 2]);
    loop {
        let store = stores::any(random);
        if attributes(&store).is_none_or(|attributes| attributes.len() >= fewest) {
            return store;
        }
    }
}

/// A list for the store's attributes, and for others.
pub fn list_over(random: &mut Random, before: &Before, command: u8) -> Vec<u8> {
    let attributes = attributes(&before.store).unwrap_or_default();
    list(random, &attributes, command)
}

/// Cut mostly between two records, at times anywhere; or two lists that were
/// made apart, of which the first may have a damaged end.
fn halves(random: &mut Random, before: &Before, command: u8) -> [Vec<u8>; 2] {
    let whole = list_over(random, before, command);
    let at = match random.below(8) {
        0 => return [whole, list_over(random, before, command)],
        1 => random.below(whole.len() + 1),
        _ => random.of(&read(command, &whole).places()),
    };
    cut(&whole, at)
}

/// A list in two, of which the first has so many bytes.
pub fn cut(list: &[u8], at: usize) -> [Vec<u8>; 2] {
    let (a, b) = list.split_at(at);
    [a.to_vec(), b.to_vec()]
}

/// A list of any length. Only its end may be damaged, so that all that stands
/// before it is read. Two in three are mostly for attributes that may be written
/// or configured, and undivided ones are short, so that enough of them change
/// something.
fn list(random: &mut Random, attributes: &[Attribute], command: u8) -> Vec<u8> {
    let (bit, many) = match command {
        0x03 => (1, [0, 0, 0, 0, 1]),
        0x06 => (2, [0, 1, 2, 3, 8]),
        _ => (1, [0, 1, 2, 3, 8]),
    };
    let any = random.one_in(3);
    let some = attributes.iter().filter(|one| any || one.access & bit != 0);
    let some: Vec<Attribute> = some.copied().collect();
    let many = random.of(&many);
    let mut list = Vec::new();
    for _ in 0..many {
        let more = records(random, &some, command);
        list.extend(&more[..read(command, &more).length()]);
    }
    list.extend(records(random, &some, command));
    list
}

/// A few records, whole or damaged.
fn records(random: &mut Random, attributes: &[Attribute], command: u8) -> Vec<u8> {
    let request = request(random, attributes, command);
    let (_, body) = body_of(&request).expect("its header is whole");
    body.to_vec()
}

/// With any header that says the command.
pub fn sent(random: &mut Random, command: u8, room: usize) -> Way {
    let control = random.of(&CONTROLS);
    Way {
        head: header(random, control, command),
        unicast: random.of(&[0, 1, 1, 0x80]),
        room,
    }
}

#[cfg(test)]
mod tests {
    use cases::End;

    use super::*;
    use crate::lists::in_common;

    #[test]
    fn most_are_cut_between_records() {
        let random = &mut Random::new(0x6861_6c76);
        let mut between = 0;
        for _ in 0..2000 {
            let split = split(random);
            let [a, b] = &split.lists;
            let command = split.ways[0].command();
            let whole = read(command, &split.lists.concat());
            if read(command, a).end != End::Whole {
                continue;
            }
            between += 1;
            // then B has the records that A has not
            assert!(whole.places().contains(&a.len()));
            let both = [read(command, a).ids(), read(command, b).ids()];
            assert_eq!(both.concat(), whole.ids());
        }
        assert!((1600..1990).contains(&between), "{between}");
    }

    #[test]
    fn every_place_is_a_cut() {
        let list = [1, 2, 3];
        for at in 0..=3 {
            let halves = cut(&list, at);
            assert_eq!((halves[0].len(), halves.concat()), (at, list.to_vec()));
        }
    }

    #[test]
    fn disjoint_lists_are() {
        let random = &mut Random::new(0x6469_736a);
        let mut long = 0;
        for _ in 0..2000 {
            let [one, other] = disjoint(random).lists;
            assert!(!in_common(&one, &other));
            long += usize::from(!one.is_empty() && !other.is_empty());
        }
        assert!(long > 1000, "{long}");
        let random_ones = (0..2000).map(|_| pair(random).lists);
        let apart = random_ones.filter(|[one, other]| !in_common(one, other));
        let apart = apart.count();
        assert!((200..1800).contains(&apart), "{apart}");
    }
}
