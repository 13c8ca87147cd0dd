//! Frames of the two reporting commands and Default Responses, each over a store
//! and a table, with the table afterwards.

mod edges;

use cases::given::tables;
use cases::kinds::{self, Call, Kinds};
use cases::requests::request;
use cases::stores::{built, random_parts, word};
use cases::{Case, Difference, Random, Seen, hex, unmarked};
use oracle::{Oracle, Outcome, Request};
use reading::commands::{Answer, serve_lent};
use reading::store::{attributes, cluster_of};
use reading::table::{ENTRIES, Entry, SLOT, entries, to_bytes};

use crate::rust::short;

pub const COMMANDS: [&str; 2] = ["configure", "read configuration"];

const CONFIGURE: u8 = 0x06;
const READ: u8 = 0x08;
const RECEIVED: u8 = 0x0b;

/// Random frames besides the edges.
const RANDOM: usize = 180;

pub fn lines() -> Result<(Vec<String>, Kinds), String> {
    let (mut oracle, mut kinds) = (Oracle::default(), Kinds::default());
    let mut lines = Vec::new();
    for case in edges::all().into_iter().chain(at_random()) {
        let line = line(&case, &mut oracle, &mut kinds)?;
        if !lines.contains(&line) {
            lines.push(line);
        }
    }
    let missing = kinds.missing(&COMMANDS);
    if !missing.is_empty() {
        return Err(format!("never reached: {}", missing.join("; ")));
    }
    if !lines.iter().any(|line| line.starts_with("y ")) {
        return Err("a received Default Response never makes a difference".to_owned());
    }
    Ok((lines, kinds))
}

/// A request to the store's own cluster.
fn over(store: &[u8], table: &[Entry], frame: &[u8], room: usize) -> Case {
    let table = to_bytes(table);
    Case {
        table,
        ..Case::over(store, frame, room)
    }
}

/// Tables from no entries to seventeen, and some full ones, for the store's
/// attributes and others.
fn at_random() -> Vec<Case> {
    let random = &mut Random::new(0x7265_7175);
    (0..RANDOM)
        .map(|turn| {
            let store = built(&random_parts(random));
            let attributes = attributes(&store).expect("a store");
            let cluster = cluster_of(&store).expect("a store");
            let some = random.of(&[0, 1, 3, 8, 16, 17]);
            let many = if turn % 30 == 0 { ENTRIES } else { some };
            let table = tables::sound(random, many, cluster, &attributes);
            let command = random.of(&[CONFIGURE, READ]);
            let frame = request(random, &attributes, command);
            let ample = ample(&over(&store, &table, &frame, 255));
            let room = match random.below(4) {
                0 => random.below(12),
                1 => random.below(ample + 1),
                2 => ample,
                _ => 64,
            };
            over(&store, &table, &frame, room)
        })
        .collect()
}

/// How long the reply is with as much room as the list can say.
fn ample(case: &Case) -> usize {
    let (store, table) = (&mut case.store.clone(), &mut case.table.clone());
    let answer = serve_lent(store, table, case.cluster, true, &case.request, case.room);
    answer.reply.len()
}

/// A `q` line where the Rust and document 01 say and leave the same, a `y` line
/// where a listed difference lets them do otherwise.
fn line(case: &Case, oracle: &mut Oracle, kinds: &mut Kinds) -> Result<String, String> {
    let seen = case.document();
    let before = entries(&case.table).expect("a table");
    let after = entries(&seen.table).expect("a table");
    let asked = Request {
        cluster: case.cluster,
        unicast: true,
        frame: &case.request,
        room: case.room,
    };
    let outcome = oracle.handle(&case.store, &before, &asked)?;
    let unlisted = || format!("a difference\n{case}document 01:\n{seen}the Rust: {outcome:?}");
    if seen.store != case.store {
        return Err(unlisted());
    }
    count(kinds, case, &seen, &before, &after)?;
    let input = [
        vec![short(case.room)],
        used(&before),
        word(case.store.len()).to_vec(),
        case.store.clone(),
        case.request.clone(),
    ];
    let input = hex(&input.concat());
    let ours = answer(&before, seen.number, seen.reply(), &after);
    let listed = Difference::of(case);
    let reply = outcome.reply.as_deref();
    let lets =
        (listed.as_ref()).is_none_or(|(_, said)| said.is(reply, &outcome.store, &outcome.table));
    if lets && agrees(&seen, &outcome) {
        return Ok(format!("q {input} {ours}"));
    }
    if listed.is_none() || !lets {
        return Err(unlisted());
    }
    let number = if outcome.reply.is_some() { 0 } else { 6 };
    let reply = outcome.reply.as_deref().unwrap_or_default();
    let theirs = answer(&unmarked(&before), number, reply, &outcome.table);
    Ok(format!("y {input} {ours} {theirs}"))
}

fn answer(before: &[Entry], number: u8, reply: &[u8], after: &[Entry]) -> String {
    let table = if after == before {
        vec![0]
    } else {
        [vec![1], used(after)].concat()
    };
    hex(&[&[1, number, short(reply.len())], reply, &table].concat())
}

/// A table's count and slots.
fn used(table: &[Entry]) -> Vec<u8> {
    to_bytes(table)[..1 + SLOT * table.len()].to_vec()
}

/// Whether the Rust, which says `None` to every refusal, says and leaves the
/// same, but for marks, which it does not have.
fn agrees(seen: &Seen, outcome: &Outcome) -> bool {
    let reply = (seen.number == 0).then(|| seen.reply());
    reply == outcome.reply.as_deref()
        && seen.store == outcome.store
        && entries(&seen.table).is_ok_and(|left| unmarked(&left) == outcome.table)
}

fn count(
    kinds: &mut Kinds,
    case: &Case,
    seen: &Seen,
    before: &[Entry],
    after: &[Entry],
) -> Result<(), String> {
    let answer = &Answer {
        number: seen.number,
        reply: seen.reply().to_vec(),
    };
    kinds.count(&kinds::of(&Call {
        store: &case.store,
        table: before,
        unicast: true,
        request: &case.request,
        room: case.room,
        answer,
        store_after: &seen.store,
        table_after: after,
    }))
}

#[cfg(test)]
mod tests {
    use cases::stores::bench;
    use cases::unhex;

    use super::*;

    /// A configuration of attribute 5 of T, over an empty table: done with room
    /// for the reply, and done without.
    #[test]
    fn one_more_entry() {
        let frame = "002a06 000500 29 0a00 3c00 0200".replace(' ', "");
        let input = format!("00 3000 {} {frame}", hex(&bench())).replace(' ', "");
        let slot = format!(
            "21fc0500 0a00 3c00 02{} 00 00 {}",
            "00".repeat(7),
            "00".repeat(12)
        );
        let table = format!("01 01 {slot}").replace(' ', "");
        for (room, answer) in [(4, "010004182a0700"), (3, "010500"), (2, "01050000")] {
            let case = over(&bench(), &[], &unhex(&frame), room);
            let line = line(&case, &mut Oracle::default(), &mut Kinds::default());
            let after = if room < 3 { "" } else { &table };
            assert_eq!(line, Ok(format!("q {room:02x}{input} {answer}{after}")));
        }
    }

    /// A Default Response gets nothing, and from the Rust an answer, where there
    /// is room for it.
    #[test]
    fn a_listed_difference() {
        let input = format!("00 3000 {} 00000b", hex(&bench())).replace(' ', "");
        for (room, line_of) in [
            (4, format!("q 04{input} 01060000")),
            (5, format!("y 05{input} 01060000 01000518000b0b8100")),
        ] {
            let case = over(&bench(), &[], &unhex("00000b"), room);
            let line = line(&case, &mut Oracle::default(), &mut Kinds::default());
            assert_eq!(line, Ok(line_of));
        }
    }
}
