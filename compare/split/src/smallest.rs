//! Where the laws fail: small lists over document 01's store T and an empty
//! table.

use cases::stores::bench;
use cases::{Seen, unhex};
use reading::store::{cluster_of, value};
use reading::table::to_bytes;

use crate::join::{self, Outside, Split, Verdict};
use crate::order::{self, Pair};
use crate::sent::{Before, Way};
use crate::server::Server;

/// The law of joining fails here.
struct Smallest {
    why: Outside,
    /// Of A, B and the joined list: commands, rooms, and the numbers that the
    /// calls say.
    commands: [u8; 3],
    rooms: [usize; 3],
    numbers: [u8; 3],
    a: &'static str,
    b: &'static str,
    /// What is left by two calls, and by one: attribute 1, which was 7; of a
    /// configure the number of entries.
    left: [u8; 2],
}

/// The record of bench frame 11, and one of another direction, which fails.
const FRAME_11: &str = "00050029 0a003c003200";
const FAILS_AND_11: &str = "0109000000 00050029 0a003c003200";

const JOINED: [Smallest; 12] = [
    Smallest {
        why: Outside::Cut,
        commands: [0x02; 3],
        rooms: [64; 3],
        numbers: [4, 4, 0],
        a: "01",
        b: "002009",
        left: [7, 9],
    },
    Smallest {
        why: Outside::Cut,
        commands: [0x05; 3],
        rooms: [64; 3],
        numbers: [6; 3],
        a: "01",
        b: "002009",
        left: [7, 9],
    },
    Smallest {
        why: Outside::Cut,
        commands: [0x06; 3],
        rooms: [64; 3],
        numbers: [4, 4, 0],
        a: "00",
        b: "050029 0a003c003200",
        left: [0, 1],
    },
    Smallest {
        why: Outside::WithoutExtent,
        commands: [0x02; 3],
        rooms: [64; 3],
        numbers: [4, 0, 4],
        a: "000099",
        b: "01002009",
        left: [9, 7],
    },
    Smallest {
        why: Outside::WithoutExtent,
        commands: [0x05; 3],
        rooms: [64; 3],
        numbers: [6; 3],
        a: "000099",
        b: "01002009",
        left: [9, 7],
    },
    Smallest {
        why: Outside::JoinedRefused,
        commands: [0x02; 3],
        rooms: [6; 3],
        numbers: [0, 0, 5],
        a: "03002000",
        b: "03002000 01002009",
        left: [9, 7],
    },
    Smallest {
        why: Outside::JoinedRefused,
        commands: [0x06; 3],
        rooms: [7; 3],
        numbers: [0, 0, 5],
        a: "0109000000",
        b: FAILS_AND_11,
        left: [1, 0],
    },
    Smallest {
        why: Outside::Undivided,
        commands: [0x03; 3],
        rooms: [64; 3],
        numbers: [0; 3],
        a: "01002009",
        b: "03002000",
        left: [9, 7],
    },
    Smallest {
        why: Outside::LessRoomB,
        commands: [0x02; 3],
        rooms: [6, 5, 6],
        numbers: [0, 5, 0],
        a: "",
        b: "03002000 01002009",
        left: [7, 9],
    },
    Smallest {
        why: Outside::LessRoomB,
        commands: [0x06; 3],
        rooms: [7, 6, 7],
        numbers: [0, 5, 0],
        a: "",
        b: FAILS_AND_11,
        left: [0, 1],
    },
    Smallest {
        why: Outside::LessRoomA,
        commands: [0x06; 3],
        rooms: [2, 4, 4],
        numbers: [5, 0, 0],
        a: FRAME_11,
        b: "",
        left: [0, 1],
    },
    Smallest {
        why: Outside::JoinedNever,
        commands: [0x05, 0x02, 0x05],
        rooms: [2; 3],
        numbers: [6, 5, 6],
        a: "",
        b: "01002009",
        left: [7, 9],
    },
];

impl Smallest {
    fn split(&self) -> Split {
        Split {
            before: before(),
            lists: [self.a, self.b].map(unhex),
            ways: [0, 1, 2].map(|way| Way::plain(self.commands[way], self.rooms[way])),
        }
    }
}

/// Store T, and an empty table.
fn before() -> Before {
    let store = bench();
    Before {
        cluster: cluster_of(&store).expect("it is a store"),
        store,
        table: to_bytes(&[]),
    }
}

/// An error where a law does not fail, or otherwise than said; else how many
/// there are.
pub fn fail(server: &mut impl Server) -> Result<usize, String> {
    let splits: Vec<Split> = JOINED.iter().map(Smallest::split).collect();
    for (case, (split, ran)) in JOINED
        .iter()
        .zip(splits.iter().zip(join::run(server, &splits)?))
    {
        let numbers = [&ran.a, &ran.b, &ran.joined].map(|seen| seen.number);
        let left = [&ran.b, &ran.joined].map(|seen| left(case.commands[2], seen));
        let verdict = join::verdict(split, &ran);
        let expected = (Verdict::Outside(case.why, true), case.numbers, case.left);
        if (verdict, numbers, left) != expected {
            return Err(format!(
                "A {}, B {}: {verdict:?}, {numbers:?}, left {left:?}, and not {expected:?}",
                case.a, case.b
            ));
        }
    }
    in_common(server)?;
    Ok(JOINED.len() + 1)
}

/// Attribute 1, or the number of entries.
fn left(command: u8, seen: &Seen) -> u8 {
    match command {
        0x06 => seen.table[0],
        _ => value(&seen.store, 1).map_or(0, |value| value[0]),
    }
}

/// The law of order fails for two lists that name attribute 1.
fn in_common(server: &mut impl Server) -> Result<(), String> {
    let pair = Pair {
        before: before(),
        lists: ["01002008", "01002009"].map(unhex),
        ways: [Way::plain(0x02, 64), Way::plain(0x02, 64)],
    };
    let ran = order::run(server, std::slice::from_ref(&pair))?;
    let left = ran[0].second.each_ref().map(|seen| left(0x02, seen));
    match (order::verdict(&pair, &ran[0]), left) {
        (order::Verdict::InCommon(true), [8, 9]) => Ok(()),
        (verdict, _) => Err(format!("8 and 9 to attribute 1: {verdict:?}, {left:?}")),
    }
}

#[cfg(test)]
mod tests {
    use super::*;
    use crate::fakes::Fake;
    use crate::server::Document;

    #[test]
    fn by_document_01() {
        assert_eq!(fail(&mut Document), Ok(JOINED.len() + 1));
    }

    #[test]
    fn where_nothing_fails_it_is_said() {
        let mut idle = Fake(|call| {
            let mut seen = call.document();
            seen.store.clone_from(&call.store);
            seen.table.clone_from(&call.table);
            seen
        });
        assert!(fail(&mut idle).is_err());
        assert!(in_common(&mut idle).is_err());
    }
}
