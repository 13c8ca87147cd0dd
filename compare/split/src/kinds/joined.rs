//! Of lists for which the law of joining held.

use cases::{End, Seen};
use reading::table;

use super::{Line, came, must, nothing, nothing_lines};
use crate::join::{Ran, Split};
use crate::lists::read;

const CHANGED: &str = "held and changed";
const BY_BOTH: &str = "held and changed by A and by B";

const EMPTY_A: &str = "changed, A is empty";
const EMPTY_B: &str = "changed, B is empty";
const CUT: &str = "changed, B is cut";
const WITHOUT_EXTENT: &str = "changed, B has a value without extent";
const REFUSED: &str = "changed, the joined call is refused by 4";
const ONE_00: &str = "changed, A is refused by 5 for its one 00";
const IN_COMMON: &str = "changed, A and B name an attribute in common";
const CODES: &str = "changed, a code in one header and none in another";
const CLEARED: &str = "changed, an entry is cleared";
const AGAIN: &str = "changed, an entry is configured again";

/// Of writes and of configurations.
const BOTH: [&str; 7] = [EMPTY_A, EMPTY_B, CUT, REFUSED, ONE_00, IN_COMMON, CODES];

/// Failures that a reply lists.
const STATUSES: [(u8, &str); 6] = [
    (0x86, "changed, 86 listed"),
    (0x87, "changed, 87 listed"),
    (0x88, "changed, 88 listed"),
    (0x89, "changed, 89 listed: the table is full"),
    (0x8c, "changed, 8c listed"),
    (0x8d, "changed, 8d listed"),
];
const OF_WRITE: [u8; 4] = [0x86, 0x87, 0x88, 0x8d];
const OF_CONFIGURE: [u8; 5] = [0x86, 0x87, 0x89, 0x8c, 0x8d];

pub fn lines() -> Vec<Line> {
    let sent = commands().into_iter().map(sent);
    let mut lines: Vec<Line> = sent
        .flat_map(|law| must(&law, &[CHANGED, BY_BOTH]))
        .collect();
    for (law, own, statuses) in [
        ("write", &[WITHOUT_EXTENT][..], &OF_WRITE[..]),
        ("configure", &[CLEARED, AGAIN], &OF_CONFIGURE),
    ] {
        let listed: Vec<&str> = statuses.iter().map(|&code| status(code)).collect();
        lines.extend(must(law, &BOTH));
        lines.extend(must(law, own));
        lines.extend(must(law, &listed));
        lines.extend(nothing_lines(law));
    }
    lines
}

/// The commands by which A, B and the joined list may be sent.
fn commands() -> Vec<[u8; 3]> {
    let writes = [0x02, 0x05];
    let triples = writes.map(|a| writes.map(|b| writes.map(|joined| [a, b, joined])));
    [triples.as_flattened().as_flattened(), &[[0x06; 3]]].concat()
}

fn sent([a, b, joined]: [u8; 3]) -> String {
    format!("A by {a:02x}, B by {b:02x}, joined by {joined:02x}")
}

fn status(code: u8) -> &'static str {
    let found = STATUSES.iter().find(|(status, _)| *status == code);
    found.expect("document 01 has no other status here").1
}

pub fn joined(split: &Split, ran: &Ran) -> Vec<String> {
    let commands = [0, 1, 2].map(|way| split.ways[way].command());
    let law = match commands[0] {
        0x06 => "configure",
        _ => "write",
    };
    if !split.before.changed(&ran.joined) {
        return vec![format!("{law}: {}", nothing(&ran.joined))];
    }
    let mut lines = vec![format!("{}: {CHANGED}", sent(commands))];
    if split.before.changed(&ran.a) && split.before.after(&ran.a).changed(&ran.b) {
        lines.push(format!("{}: {BY_BOTH}", sent(commands)));
    }
    let details = details(split, ran, commands[0]);
    lines.extend(details.iter().map(|detail| format!("{law}: {detail}")));
    lines
}

fn details(split: &Split, ran: &Ran, command: u8) -> Vec<&'static str> {
    let [a, b] = split.lists.each_ref().map(|list| read(command, list));
    let (named, end) = (a.ids(), b.end);
    // a header with a code is the longer one
    let lengths = split.ways.each_ref().map(|way| way.head.len());
    let mut details = came([
        (EMPTY_A, split.lists[0].is_empty()),
        (EMPTY_B, split.lists[1].is_empty()),
        (CUT, end == End::Cut),
        (WITHOUT_EXTENT, end == End::WithoutExtent),
        (REFUSED, ran.joined.number == 4),
        (ONE_00, ran.a.number == 5),
        (IN_COMMON, b.ids().iter().any(|id| named.contains(id))),
        (CODES, lengths.iter().any(|length| *length != lengths[0])),
    ]);
    if command == 0x06 {
        details.extend(entries(split, ran));
    }
    details.extend(statuses(ran, command).into_iter().map(status));
    details
}

/// What either call made of the table's entries.
fn entries(split: &Split, ran: &Ran) -> Vec<&'static str> {
    let tables = [&split.before.table, &ran.a.table, &ran.b.table];
    let [before, between, after] = tables.map(|table| table::entries(table).unwrap_or_default());
    let calls = [(&before, &between), (&between, &after)];
    let cleared = calls.iter().any(|(met, left)| left.len() < met.len());
    let again = calls.iter().any(|(met, left)| {
        let mut places = met.iter().zip(*left);
        places.any(|(met, left)| met.key == left.key && met != left)
    });
    came([(CLEARED, cleared), (AGAIN, again)])
}

/// The statuses of failures in the replies, each once.
fn statuses(ran: &Ran, command: u8) -> Vec<u8> {
    let size = if command == 0x06 { 4 } else { 3 };
    let listed = |seen: &Seen| -> Vec<u8> {
        match seen.reply().get(3..) {
            // one 00, or none
            None | Some([]) | Some([_]) => Vec::new(),
            Some(failures) => failures.chunks(size).map(|failure| failure[0]).collect(),
        }
    };
    let mut all = [&ran.a, &ran.b, &ran.joined].map(listed).concat();
    all.sort_unstable();
    all.dedup();
    all
}

#[cfg(test)]
mod tests {
    use cases::unhex;
    use reading::table::to_bytes;

    use super::*;
    use crate::join::run;
    use crate::sent::{Before, Way};
    use crate::server::Document;

    /// Over store T, with plain headers and ample room.
    fn said(commands: [u8; 3], lists: [&str; 2]) -> Vec<String> {
        let split = Split {
            before: Before {
                store: cases::stores::bench(),
                table: to_bytes(&[]),
                cluster: 0xfc21,
            },
            lists: lists.map(unhex),
            ways: commands.map(|command| Way::plain(command, 64)),
        };
        let ran = run(&mut Document, std::slice::from_ref(&split)).expect("it answers");
        joined(&split, &ran[0])
    }

    #[test]
    fn of_writes() {
        let lines = said([0x02; 3], ["01002008", "01002009 03002000"]);
        assert_eq!(lines.len(), 4, "{lines:?}");
        assert!(lines[0].ends_with(CHANGED) && lines[1].ends_with(BY_BOTH));
        assert!(lines[2].ends_with(IN_COMMON) && lines[3].ends_with("86 listed"));
        let lines = said([0x05, 0x02, 0x05], ["", "01002009 03"]);
        assert_eq!(lines.len(), 3, "{lines:?}");
        assert!(lines[0].contains("A by 05, B by 02, joined by 05"));
        assert!(lines[1].ends_with(EMPTY_A) && lines[2].ends_with(CUT));
        // 7 over 7
        let lines = said([0x02; 3], ["01002007", ""]);
        assert_eq!(lines, ["write: nothing changed otherwise"]);
    }

    #[test]
    fn of_configurations() {
        let (five, zero) = ("00050029 0a003c003200", "00000023 0a003c0001000000");
        let clear = "00050029 0000ffff0000";
        for (a, b, kinds) in [
            (five, "00050029 0a003c003300", [false, true]),
            (five, zero, [false, false]),
            // one comes and one goes in B: there are no fewer
            (five, &format!("{zero} {clear}"), [false, false]),
            (&format!("{zero} {five}"), clear, [true, false]),
        ] {
            let lines = said([0x06; 3], [a, b]);
            let said = [CLEARED, AGAIN].map(|kind| lines.contains(&format!("configure: {kind}")));
            assert_eq!(said, kinds, "{lines:?}");
        }
    }
}
