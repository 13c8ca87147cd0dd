//! Of lists of which the laws say nothing: whether a law fails for them. For
//! each reason one must be seen to fail, else it would be no reason.

use super::{Line, may, must};
use crate::join::{Outside, Split};

const FAILS: &str = "the law is seen to fail";
const HOLDS: &str = "the same is left all the same";

const IN_COMMON: &str = "order, an attribute in common";

/// Sides of the law of joining, by the joined list's command.
const SIDES: [(u8, Outside); 15] = [
    (0x02, Outside::Cut),
    (0x05, Outside::Cut),
    (0x06, Outside::Cut),
    (0x02, Outside::WithoutExtent),
    (0x05, Outside::WithoutExtent),
    (0x02, Outside::JoinedRefused),
    (0x06, Outside::JoinedRefused),
    (0x02, Outside::LessRoomA),
    (0x05, Outside::LessRoomA),
    (0x06, Outside::LessRoomA),
    (0x02, Outside::LessRoomB),
    (0x05, Outside::LessRoomB),
    (0x06, Outside::LessRoomB),
    (0x05, Outside::JoinedNever),
    (0x03, Outside::Undivided),
];

pub fn lines() -> Vec<Line> {
    let joined = SIDES.map(|(command, outside)| law(command, outside));
    let laws = joined.into_iter().chain([IN_COMMON.to_owned()]);
    laws.flat_map(|law| [must(&law, &[FAILS]), may(&law, &[HOLDS])].concat())
        .collect()
}

fn law(joined: u8, outside: Outside) -> String {
    let why = match outside {
        Outside::Undivided => "undivided",
        Outside::Cut => "A is cut",
        Outside::WithoutExtent => "A has a value without extent",
        Outside::JoinedRefused => "the joined call is refused by 5",
        Outside::LessRoomA => "A is refused by 5, with less room",
        Outside::LessRoomB => "B is refused by 5, with less room",
        Outside::JoinedNever => "a part by 02 is refused by 5, with no less room",
    };
    format!("joined by {joined:02x}, {why}")
}

pub fn outside(split: &Split, outside: Outside, fails: bool) -> String {
    let law = law(split.ways[2].command(), outside);
    format!("{law}: {}", said(fails))
}

pub fn in_common(fails: bool) -> String {
    format!("{IN_COMMON}: {}", said(fails))
}

fn said(fails: bool) -> &'static str {
    if fails { FAILS } else { HOLDS }
}
