//! Lists for which a law fails, made as short as may be.

use cases::fewest;
use cases::stores::{parts, rebuilt};
use reading::store::is_store;
use reading::table::{entries, to_bytes};

use crate::lists::pieces;
use crate::sent::{Lists, Way};

/// The same without what the law fails without: entries, attributes, records and
/// bytes of the lists, what headers need not say, and room. What a law supposes,
/// `wrong` looks at.
pub fn shorten<const N: usize>(
    lists: &Lists<N>,
    mut wrong: impl FnMut(&Lists<N>) -> bool,
) -> Lists<N> {
    let mut long = lists.clone();
    loop {
        let short = shorter(&long, &mut wrong);
        if short == long {
            return short;
        }
        long = short;
    }
}

fn shorter<const N: usize>(lists: &Lists<N>, mut wrong: impl FnMut(&Lists<N>) -> bool) -> Lists<N> {
    let mut short = lists.clone();
    if let Ok(held) = entries(&short.before.table) {
        let with = |held: &[_]| with(&short, |short| short.before.table = to_bytes(held));
        short = fewest(&held, with, &mut wrong);
    }
    let store = short.before.store.clone();
    if is_store(&store) {
        let with = |parts: &[_]| with(&short, |short| short.before.store = rebuilt(&store, parts));
        short = fewest(&parts(&store), with, &mut wrong);
    }
    for list in 0..2 {
        let (command, long) = (short.ways[list].command(), short.lists[list].clone());
        let with = |records: &[&[u8]]| with_list(&short, list, records.concat());
        short = fewest(&pieces(command, &long), with, &mut wrong);
        let long = short.lists[list].clone();
        let with = |bytes: &[u8]| with_list(&short, list, bytes.to_vec());
        short = fewest(&long, with, &mut wrong);
    }
    for way in 0..N {
        short = plainer(short, way, &mut wrong);
    }
    short
}

fn with<const N: usize>(short: &Lists<N>, change: impl Fn(&mut Lists<N>)) -> Lists<N> {
    let mut changed = short.clone();
    change(&mut changed);
    changed
}

fn with_list<const N: usize>(short: &Lists<N>, list: usize, bytes: Vec<u8>) -> Lists<N> {
    let mut changed = short.clone();
    changed.lists[list] = bytes;
    changed
}

/// With a plain header and the least room, if the law fails so.
fn plainer<const N: usize>(
    short: Lists<N>,
    way: usize,
    mut wrong: impl FnMut(&Lists<N>) -> bool,
) -> Lists<N> {
    let (command, room) = (short.ways[way].command(), short.ways[way].room);
    let least = (0..=room)
        .map(|room| with(&short, |short| short.ways[way] = Way::plain(command, room)))
        .find(|short| wrong(short));
    least.unwrap_or(short)
}

#[cfg(test)]
mod tests {
    use cases::Random;

    use super::*;
    use crate::fakes::{self, Fake};
    use crate::join::{Split, Verdict, run, verdict};
    use crate::lists::read;
    use crate::made::split_by;

    /// Whether the law of joining fails for a server that forgets the last
    /// record of a list.
    fn wrong(split: &Split) -> bool {
        let mut fake = Fake(fakes::forgets_the_last);
        let ran = run(&mut fake, std::slice::from_ref(split)).expect("it answers");
        verdict(split, &ran[0]) == Verdict::Broken
    }

    #[test]
    fn only_what_is_needed() {
        let random = &mut Random::new(0x7368_6f72);
        let mut tried = 0;
        while tried < 20 {
            let split = split_by(random, [0x02; 3]);
            if !wrong(&split) {
                continue;
            }
            let short = shorten(&split, wrong);
            assert!(wrong(&short));
            assert_eq!(parts(&short.before.store).len(), 1, "the one that A writes");
            assert_eq!(short.before.table, to_bytes(&[]));
            // without a record in B, A's own is forgotten by both
            for list in &short.lists {
                assert_eq!(read(0x02, list).records.len(), 1);
            }
            // the headers have room, and the one 00 or the failure of B
            let rooms = short.ways.each_ref().map(|way| way.room);
            assert!(rooms.iter().all(|room| (3..=7).contains(room)), "{rooms:?}");
            assert_eq!(short.ways[0].head, [0x00, 0x00, 0x02]);
            tried += 1;
        }
    }
}
