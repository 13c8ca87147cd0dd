//! Of pairs for which the law of order held.

use cases::{End, Seen};

use super::{Line, came, must, nothing, nothing_lines};
use crate::lists::read;
use crate::order::{Pair, Ran};

const LAW: &str = "order";

const CHANGED: &str = "held and changed";
const BY_BOTH: &str = "held and changed by each";

/// How a pair came to have no attribute in common.
pub const MADE: &str = "changed, made without an attribute in common";
pub const BY_CHANCE: &str = "changed, without one by chance";

const CUT: &str = "changed, a list is cut";
const WITHOUT_EXTENT: &str = "changed, a list has a value without extent";
const NOT_DONE: &str = "changed, an undivided list with a failure";
const ONE_5: &str = "changed, one call is refused by 5";
const BOTH_5: &str = "changed, both calls are refused by 5";
const BEHIND: &str = "changed, a call is refused by 5 behind a record that it stored";
const UNDIVIDED_5: &str = "changed, an undivided call is refused by 5 for its one 00";

const DETAILS: [&str; 9] = [
    MADE,
    BY_CHANCE,
    CUT,
    WITHOUT_EXTENT,
    NOT_DONE,
    ONE_5,
    BOTH_5,
    BEHIND,
    UNDIVIDED_5,
];

const COMMANDS: [[u8; 2]; 6] = [
    [0x02, 0x02],
    [0x02, 0x03],
    [0x02, 0x05],
    [0x03, 0x03],
    [0x03, 0x05],
    [0x05, 0x05],
];

pub fn lines() -> Vec<Line> {
    let sent = COMMANDS.into_iter().map(sent);
    let mut lines: Vec<Line> = sent
        .flat_map(|law| must(&law, &[CHANGED, BY_BOTH]))
        .collect();
    lines.extend(must(LAW, &DETAILS));
    lines.extend(nothing_lines(LAW));
    lines
}

fn sent(mut commands: [u8; 2]) -> String {
    commands.sort_unstable();
    let [one, other] = commands;
    format!("{LAW} of one by {one:02x} and one by {other:02x}")
}

pub fn ordered(pair: &Pair, ran: &Ran, made: &str) -> Vec<String> {
    let changed = ran.first.each_ref().map(|seen| pair.before.changed(seen));
    if changed == [false, false] {
        return vec![format!("{LAW}: {}", nothing(&ran.first[0]))];
    }
    let commands = [0, 1].map(|list| pair.ways[list].command());
    let mut lines = vec![format!("{}: {CHANGED}", sent(commands))];
    if changed == [true, true] {
        lines.push(format!("{}: {BY_BOTH}", sent(commands)));
    }
    let details = details(pair, ran, commands, changed);
    let details = [&[made], &details[..]].concat();
    lines.extend(details.iter().map(|detail| format!("{LAW}: {detail}")));
    lines
}

fn details(pair: &Pair, ran: &Ran, commands: [u8; 2], changed: [bool; 2]) -> Vec<&'static str> {
    let ends = [0, 1].map(|list| read(commands[list], &pair.lists[list]).end);
    let refused = ran.first.each_ref().map(|seen| seen.number == 5);
    let either = |is: &dyn Fn(usize) -> bool| is(0) || is(1);
    let undivided = |list: usize| commands[list] == 0x03;
    let stored_and_refused = |list: usize| refused[list] && changed[list];
    came([
        (CUT, ends.contains(&End::Cut)),
        (WITHOUT_EXTENT, ends.contains(&End::WithoutExtent)),
        (
            NOT_DONE,
            either(&|list| undivided(list) && lists_failures(&ran.first[list])),
        ),
        (ONE_5, refused[0] != refused[1]),
        (BOTH_5, refused == [true, true]),
        (
            BEHIND,
            either(&|list| !undivided(list) && stored_and_refused(list)),
        ),
        (
            UNDIVIDED_5,
            either(&|list| undivided(list) && stored_and_refused(list)),
        ),
    ])
}

/// Whether the reply is not one 00.
fn lists_failures(seen: &Seen) -> bool {
    seen.used > 4
}

#[cfg(test)]
mod tests {
    use cases::unhex;
    use reading::table::to_bytes;

    use super::*;
    use crate::order::run;
    use crate::sent::{Before, Way};
    use crate::server::Document;

    /// Over store T, with plain headers.
    fn said(commands: [u8; 2], lists: [&str; 2], rooms: [usize; 2]) -> Vec<String> {
        let pair = Pair {
            before: Before {
                store: cases::stores::bench(),
                table: to_bytes(&[]),
                cluster: 0xfc21,
            },
            lists: lists.map(unhex),
            ways: [0, 1].map(|list| Way::plain(commands[list], rooms[list])),
        };
        let ran = run(&mut Document, std::slice::from_ref(&pair)).expect("it answers");
        ordered(&pair, &ran[0], MADE)
    }

    #[test]
    fn of_pairs() {
        let (level, string) = ("01002009", "07004200");
        let lines = said([0x03, 0x02], [level, string], [64, 64]);
        assert_eq!(lines.len(), 3, "{lines:?}");
        assert!(lines[1].contains("02 and one by 03") && lines[1].ends_with(BY_BOTH));
        // both stored, and then no room for the one 00
        let lines = said([0x03, 0x02], [level, string], [3, 3]);
        assert_eq!(lines.len(), 6, "{lines:?}");
        assert!(lines[3].ends_with(BOTH_5) && lines[4].ends_with(BEHIND));
        assert!(lines[5].ends_with(UNDIVIDED_5));
        let lines = said([0x03, 0x05], ["00002000", "07004200 01"], [64, 0]);
        assert_eq!(lines.len(), 4, "{lines:?}");
        assert!(lines[2].ends_with(CUT) && lines[3].ends_with(NOT_DONE));
        let lines = said([0x02, 0x05], ["", "01"], [64, 64]);
        assert_eq!(lines, ["order: nothing changed otherwise"]);
    }
}
