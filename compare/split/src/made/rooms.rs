//! How much room replies have.

use cases::Random;

use crate::lists::read;
use crate::sent::{Before, Way};

/// A room in which every reply here has its place.
pub const AMPLE: usize = 8192;

/// The same room for all three or, at times, to each its own; around the length
/// of the replies, or any.
pub fn rooms(
    random: &mut Random,
    before: &Before,
    commands: [u8; 3],
    lists: &[Vec<u8>; 2],
) -> [usize; 3] {
    let [a, b] = lists;
    let joined = [&a[..], b].concat();
    match random.below(12) {
        // the header alone has room in 3, and one 00 in 4
        0 => [random.of(&[0, 2, 3, 3, 3, 3, 4, 6]); 3],
        1..5 => [AMPLE; 3],
        5..9 => {
            let needed = needed(before, commands[2], &joined);
            [around(random, needed); 3]
        }
        9 | 10 => {
            let lists = [&a[..], b, &joined];
            std::array::from_fn(|way| {
                let needed = needed(before, commands[way], lists[way]);
                around(random, needed)
            })
        }
        _ => std::array::from_fn(|_| random.below(40)),
    }
}

/// The room that a reply to the list would need, as far as it can be read.
pub fn needed(before: &Before, command: u8, list: &[u8]) -> usize {
    let command = match command {
        0x05 => 0x02,
        other => other,
    };
    let read = &list[..read(command, list).length()];
    let call = Way::plain(command, AMPLE).case(before, read);
    call.document().used
}

/// This room, one more, or a few less.
fn around(random: &mut Random, room: usize) -> usize {
    (room + 1).saturating_sub(random.of(&[0, 0, 1, 1, 1, 2, 4, 8]))
}

/// Around the length of the reply to one list, or any.
pub fn room(random: &mut Random, before: &Before, command: u8, list: &[u8]) -> usize {
    match random.below(6) {
        0 => random.below(8),
        1 => random.below(40),
        2 => AMPLE,
        _ => around(random, needed(before, command, list)),
    }
}

#[cfg(test)]
mod tests {
    use super::*;
    use crate::join::Split;
    use crate::made::split_by;

    #[test]
    fn the_needed_room_is_enough() {
        let random = &mut Random::new(0x726f_6f6d);
        for _ in 0..2000 {
            let Split { before, lists, .. } = split_by(random, [0x02; 3]);
            let list = &lists[0][..read(0x02, &lists[0]).length()];
            let needed = needed(&before, 0x05, list);
            let seen = Way::plain(0x02, needed).case(&before, list).document();
            assert_ne!((seen.number, needed > 0), (5, true));
            if needed > 0 {
                let seen = Way::plain(0x02, needed - 1).case(&before, list).document();
                assert_eq!(seen.number, 5);
            }
        }
    }
}
