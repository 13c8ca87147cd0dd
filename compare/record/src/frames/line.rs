//! One frame over one store: document 01's answers and the Rust's at every
//! room, and the line that holds them.

use cases::kinds::{self, Call};
use cases::{Case, Difference, hex};
use oracle::{Oracle, Request};
use reading::commands::serve;
use reading::store::cluster_of;

use super::Counts;
use super::answers::{Said, encoded};

/// No line has a longer room.
pub const MOST_ROOM: usize = 63;

/// No field is longer.
const MOST_BYTES: usize = 4608;

/// The store and the frame of an input.
pub fn parted(input: &[u8]) -> (&[u8], &[u8]) {
    let (length, rest) = input.split_at(2);
    rest.split_at(u16::from_le_bytes([length[0], length[1]]).into())
}

/// A `c` line where the Rust and document 01 agree at every room, an `x` line
/// where they do not and the frame meets a listed condition.
pub fn line(input: &[u8], oracle: &mut Oracle, counts: &mut Counts) -> Result<String, String> {
    let (store, request) = parted(input);
    let named = |trouble: String| format!("{trouble}: frame {} over {}", hex(request), hex(store));
    let (ours, theirs) = both(oracle, store, request).map_err(named)?;
    for (room, said) in ours.iter().enumerate() {
        count(counts, store, request, room, said).map_err(named)?;
    }
    let last = u8::try_from(ours.len() - 1).expect("a short room");
    let input = [&[last], input].concat();
    let fields = [input, encoded(store, &ours), encoded(store, &theirs)];
    if fields.iter().any(|field| field.len() > MOST_BYTES) {
        return Err(named("a field is too long".to_owned()));
    }
    let [input, first, second] = fields.map(|field| hex(&field));
    let as_listed = |(room, said)| is_as_listed(store, request, room, said);
    let lets = theirs.iter().enumerate().all(as_listed);
    if lets && ours.iter().zip(&theirs).all(|(one, two)| one.agrees(two)) {
        return Ok(format!("c {input} {first}"));
    }
    let listed = Difference::of(&Case::over(store, request, 0)).filter(|_| lets);
    let (difference, _) = listed.ok_or_else(|| {
        named(format!(
            "a difference that is not listed, document 01 {first}, the Rust {second}"
        ))
    })?;
    let command = (difference, command_of(request));
    *counts.differences.entry(command).or_default() += 1;
    Ok(format!("x {input} {first} {second}"))
}

/// Document 01's answers and the Rust's, up to the last room.
fn both(
    oracle: &mut Oracle,
    store: &[u8],
    request: &[u8],
) -> Result<(Vec<Said>, Vec<Said>), String> {
    let mut ours = document(store, request);
    let mut theirs = rust(oracle, store, request)?;
    let last = last_room(&ours, &theirs)?;
    ours.truncate(last + 1);
    theirs.truncate(last + 1);
    Ok((ours, theirs))
}

/// Whether the Rust says what a listed difference lets it, where the frame meets
/// one.
fn is_as_listed(store: &[u8], request: &[u8], room: usize, rust: &Said) -> bool {
    let reply = (rust.number == 0).then_some(&rust.reply[..]);
    let listed = Difference::of(&Case::over(store, request, room));
    listed.is_none_or(|(_, said)| said.is(reply, &rust.store, &[]))
}

fn command_of(request: &[u8]) -> u8 {
    reading::header(request).map_or(0xff, |header| header.command)
}

/// Document 01's answers.
pub fn document(store: &[u8], request: &[u8]) -> Vec<Said> {
    let cluster = cluster_of(store).expect("a store");
    (0..=MOST_ROOM)
        .map(|room| {
            let mut after = store.to_vec();
            let mut table = Vec::new();
            let answer = serve(&mut after, &mut table, cluster, true, request, room);
            Said {
                number: answer.number,
                reply: answer.reply,
                store: after,
            }
        })
        .collect()
}

/// The Rust's, with number 6 where it has no reply.
pub fn rust(oracle: &mut Oracle, store: &[u8], request: &[u8]) -> Result<Vec<Said>, String> {
    let cluster = cluster_of(store).expect("a store");
    (0..=MOST_ROOM)
        .map(|room| {
            let asked = Request {
                cluster,
                unicast: true,
                frame: request,
                room,
            };
            let outcome = oracle.handle(store, &[], &asked)?;
            Ok(Said {
                number: if outcome.reply.is_some() { 0 } else { 6 },
                reply: outcome.reply.unwrap_or_default(),
                store: outcome.store,
            })
        })
        .collect()
}

/// Past the longest reply, and where all stays as it is from there on.
fn last_room(ours: &[Said], theirs: &[Said]) -> Result<usize, String> {
    let replies = ours.iter().chain(theirs).map(|said| said.reply.len());
    let longest = replies.max().unwrap_or(0);
    let stays = |all: &[Said], from: usize| all[from..].iter().all(|said| *said == all[from]);
    (longest + 1..MOST_ROOM)
        .find(|&room| stays(ours, room) && stays(theirs, room))
        .ok_or("a reply is too long for the list".to_owned())
}

fn count(
    counts: &mut Counts,
    store: &[u8],
    request: &[u8],
    room: usize,
    said: &Said,
) -> Result<(), String> {
    if !matches!(said.number, 0 | 4 | 5 | 6) {
        return Err(format!("number {} in the list", said.number));
    }
    let answer = &reading::commands::Answer {
        number: said.number,
        reply: said.reply.clone(),
    };
    let call = Call {
        store,
        table: &[],
        unicast: true,
        request,
        room,
        answer,
        store_after: &said.store,
        table_after: &[],
    };
    counts.kinds.count(&kinds::of(&call))
}

#[cfg(test)]
mod tests {
    use cases::stores::{bench, word};
    use cases::unhex;

    use super::*;

    fn line_of(frame: &str) -> String {
        let input = [&word(48)[..], &bench(), &unhex(frame)].concat();
        line(&input, &mut Oracle::default(), &mut Counts::default()).expect("a line")
    }

    /// Document 01's frame 8 at every room: 5 and nothing stored, 5 and
    /// stored, the reply.
    #[test]
    fn bench_frame_8() {
        let store = hex(&bench());
        let stored = store.replace("0738ff", "0938ff");
        let input = format!("053000{store}002b0301002009");
        let answers = format!("01050000 00 00 01050001{stored} 010004182b040001{stored} 00");
        let answers = answers.replace(' ', "");
        assert_eq!(line_of("002b0301002009"), format!("c {input} {answers}"));
    }

    /// Frame 7: the Rust stores from room 3 on, and both reply from room 6 on.
    #[test]
    fn bench_frame_7() {
        let store = hex(&bench());
        let stored = store.replace("0738ff", "0938ff");
        let frame = "002b0301002009070042054142434445";
        let ours = "01050000 00 00 00 00 00 010006182b0487070000 00".replace(' ', "");
        let theirs =
            format!("01060000 00 00 01060001{stored} 00 00 010006182b0487070001{stored} 00");
        let theirs = theirs.replace(' ', "");
        let expected = format!("x 073000{store}{frame} {ours} {theirs}");
        assert_eq!(line_of(frame), expected);
    }

    #[test]
    fn a_listed_difference() {
        let input = format!("073000{}00000200001002", hex(&bench()));
        let ours = "01050000 00 00 00 00 00 01000618000488000000 00".replace(' ', "");
        let theirs = "01060000 00 00 00 00 00 00 00".replace(' ', "");
        let expected = format!("x {input} {ours} {theirs}");
        assert_eq!(line_of("00000200001002"), expected);
    }
}
