//! The smallest frames behind whose reply, and after whose refusal, the Rust's
//! reply buffer is not all zeros: of all frames over T of a header and up to
//! three of the search's bytes, at rooms below 16.

use cases::hex;
use cases::stores::bench;
use oracle::{Oracle, Request};
use reading::store::cluster_of;

use super::smallest::strings;

struct Found {
    frame: Vec<u8>,
    room: usize,
    /// The Rust's buffer.
    buffer: Vec<u8>,
}

/// A line for each.
pub fn list() -> Result<String, String> {
    let mut list = String::new();
    for (replied, what) in [(true, "behind a reply"), (false, "after no reply")] {
        let found = first(replied)?;
        let (frame, buffer) = (hex(&found.frame), hex(&found.buffer));
        let room = found.room;
        list += &format!("{what}: frame {frame}, room {room}: the Rust's buffer {buffer}\n");
    }
    Ok(list)
}

fn first(replied: bool) -> Result<Found, String> {
    let mut oracle = Oracle::default();
    for length in 0..4 {
        for frame in frames(length) {
            for room in 0..16 {
                if let Some(buffer) = left(&mut oracle, &frame, room, replied)? {
                    return Ok(Found {
                        frame,
                        room,
                        buffer,
                    });
                }
            }
        }
    }
    Err("no buffer but with zeros to its end".to_owned())
}

/// Frames of commands 00 to 0c with a body of this length.
fn frames(length: usize) -> impl Iterator<Item = Vec<u8>> {
    (0x00..=0x0c).flat_map(move |command| {
        let bodies = strings(length).into_iter();
        bodies.map(move |body| [&[0x00, 0x00, command], &body[..]].concat())
    })
}

/// The Rust's buffer, where it has a reply or not as asked for, and something
/// behind it.
fn left(
    oracle: &mut Oracle,
    frame: &[u8],
    room: usize,
    replied: bool,
) -> Result<Option<Vec<u8>>, String> {
    let request = Request {
        cluster: cluster_of(&bench()).expect("a store"),
        unicast: true,
        frame,
        room,
    };
    let outcome = oracle.handle(&bench(), &[], &request)?;
    let length = outcome.reply.as_ref().map_or(0, Vec::len);
    let behind = outcome.buffer[length..].iter().any(|&byte| byte != 0);
    Ok((outcome.reply.is_some() == replied && behind).then_some(outcome.buffer))
}

#[cfg(test)]
mod tests {
    use super::*;

    /// As docs/DIFFERENCES.md has them.
    #[test]
    fn frames_of_the_page() {
        let of = |replied| {
            let found = first(replied).expect("one");
            (hex(&found.frame), found.room, hex(&found.buffer))
        };
        let expected = |frame: &str, room, buffer: &str| (frame.into(), room, buffer.into());
        assert_eq!(of(true), expected("0000000001", 5, "1800010001"));
        assert_eq!(of(false), expected("000000", 1, "18"));
    }
}
