//! The smallest frames over T that show each listed difference, by a search:
//! frames of one or two records with ids 0 to 9, every type, and values of the
//! bytes 00, 01, 02, 80 and ff; for undivided writes that divide also strings of
//! five such bytes, one more than T has room for. The shorter first, then the
//! lower.

use cases::stores::bench;
use cases::{Case, Condition, Difference, hex};
use oracle::Oracle;
use reading::store::write;
use reading::{Extent, extent};

use super::answers::Said;
use super::buffers;
use super::line::{document, rust};

/// A frame, a room, and what both say there.
struct Found {
    what: String,
    frame: Vec<u8>,
    room: usize,
    ours: Said,
    theirs: Said,
}

/// A line for each.
pub fn list() -> Result<String, String> {
    let lines: Vec<String> = found()?.iter().map(shown).collect();
    Ok(lines.concat() + &buffers::list()?)
}

fn shown(found: &Found) -> String {
    let said = |said: &Said| {
        let store = if said.store == bench() {
            ""
        } else {
            ", stored"
        };
        format!("{} {}{store}", said.number, hex(&said.reply))
    };
    format!(
        "{}: frame {}, room {}: document 01 {}; the Rust {}\n",
        found.what,
        hex(&found.frame),
        found.room,
        said(&found.ours),
        said(&found.theirs),
    )
}

/// The smallest frame of each condition in each command, and of the undivided
/// writes that divide.
fn found() -> Result<Vec<Found>, String> {
    let mut oracle = Oracle::default();
    let mut all = Vec::new();
    for condition in Condition::ALL {
        let bodies = by_value(condition);
        for command in [0x02, 0x03, 0x05] {
            let what = format!("{condition:?} in {command:02x}");
            all.push(first(&mut oracle, what, command, &bodies, |_, _| true)?);
        }
    }
    let bodies = too_long();
    let stores: Differ = |ours, theirs| ours.store != theirs.store;
    let replies: Differ = |ours, theirs| ours.reply != theirs.reply;
    for (what, differ) in [("store", stores), ("reply", replies)] {
        let what = format!("{:?}, another {what}", Difference::Divided);
        all.push(first(&mut oracle, what, 0x03, &bodies, differ)?);
    }
    Ok(all)
}

/// Whether what ours and the Rust say differs in the way that is looked for.
type Differ = fn(&Said, &Said) -> bool;

/// The first of these bodies by which both differ so, at the least room.
fn first(
    oracle: &mut Oracle,
    what: String,
    command: u8,
    bodies: &[Vec<u8>],
    differ: Differ,
) -> Result<Found, String> {
    for body in bodies {
        let frame = [&[0x00, 0x00, command], &body[..]].concat();
        let ours = document(&bench(), &frame);
        let theirs = rust(oracle, &bench(), &frame)?;
        let both = ours.into_iter().zip(theirs).enumerate();
        let mut differs =
            both.filter(|(_, (ours, theirs))| !ours.agrees(theirs) && differ(ours, theirs));
        if let Some((room, (ours, theirs))) = differs.next() {
            return Ok(Found {
                what,
                frame,
                room,
                ours,
                theirs,
            });
        }
    }
    Err(format!("{what}: no frame"))
}

/// The bodies of one record whose value fulfils a condition, and of such a one
/// and one that is stored, the smallest first.
fn by_value(condition: Condition) -> Vec<Vec<u8>> {
    let bad = records(|value| Condition::of(value) == Some(condition));
    let good = records(|value| Condition::of(value).is_none());
    let stored: Vec<&Vec<u8>> = good.iter().filter(|record| is_stored(record)).collect();
    let behind = bad.iter().flat_map(|first| {
        stored
            .iter()
            .map(move |second| [first, &second[..]].concat())
    });
    sorted(bad.clone().into_iter().chain(behind).collect())
}

/// The bodies of one record, or of two in either order, that meet an undivided
/// write that divides, the smallest first.
fn too_long() -> Vec<Vec<u8>> {
    let texts = strings(5).into_iter().map(|text| [vec![5], text].concat());
    let of_type = |code| texts.clone().flat_map(move |text| with_ids(code, &text));
    let meets = |record: &Vec<u8>| {
        let frame = [&[0x00, 0x00, 0x03], &record[..]].concat();
        let met = Difference::of(&Case::over(&bench(), &frame, 0));
        met.is_some_and(|(difference, _)| difference == Difference::Divided)
    };
    let bad: Vec<Vec<u8>> = of_type(0x41).chain(of_type(0x42)).filter(meets).collect();
    let good = records(|value| Condition::of(value).is_none());
    let pairs = bad.iter().flat_map(|bad| {
        let both = |good: &Vec<u8>| [[&bad[..], good].concat(), [&good[..], bad].concat()];
        good.iter().flat_map(both)
    });
    sorted(bad.iter().cloned().chain(pairs).collect())
}

fn sorted(mut bodies: Vec<Vec<u8>>) -> Vec<Vec<u8>> {
    bodies.sort_by_key(|body| (body.len(), body.clone()));
    bodies
}

/// All whole records of the search whose values are like this, of the shortest
/// two lengths that there are.
fn records(like: impl Fn(&[u8]) -> bool) -> Vec<Vec<u8>> {
    let mut records = Vec::new();
    let mut lengths = 0;
    for length in 0..4 {
        let before = records.len();
        for code in 0..=0xff {
            for bytes in strings(length) {
                let value = [&[code], &bytes[..]].concat();
                if extent(code, &bytes, 0) == Extent::End(length) && like(&value) {
                    records.extend(with_ids(code, &bytes));
                }
            }
        }
        lengths += usize::from(records.len() > before);
        if lengths == 2 {
            break;
        }
    }
    records
}

/// A value with each of the search's ids.
fn with_ids(code: u8, bytes: &[u8]) -> [Vec<u8>; 10] {
    let ids: [u8; 10] = std::array::from_fn(|id| id.to_le_bytes()[0]);
    ids.map(|id| [&[id, 0x00, code], bytes].concat())
}

/// All strings of so many of the search's bytes.
pub fn strings(length: usize) -> Vec<Vec<u8>> {
    (0..length).fold(vec![Vec::new()], |shorter, _| {
        let longer = |start: &Vec<u8>| {
            [0x00, 0x01, 0x02, 0x80, 0xff].map(|byte| [&start[..], &[byte]].concat())
        };
        shorter.iter().flat_map(longer).collect()
    })
}

/// Whether a record changes T.
fn is_stored(record: &[u8]) -> bool {
    let mut store = bench();
    let id = u16::from_le_bytes([record[0], record[1]]);
    write(&mut store, id, record[2], &record[3..]);
    store != bench()
}

#[cfg(test)]
mod tests {
    use super::*;

    /// As docs/DIFFERENCES.md has them.
    #[test]
    fn frames_of_the_page() {
        let expected: Vec<String> = Condition::ALL
            .into_iter()
            .flat_map(|condition| {
                let value = hex(condition.smallest());
                let alone = ["02", "03"].map(|command| format!("0000{command}0000{value}"));
                let behind = format!("0000050000{value}01002000");
                alone.into_iter().chain([behind])
            })
            .collect();
        let found = found().expect("frames");
        let (by_value, divided) = found.split_at(expected.len());
        let frames: Vec<String> = by_value.iter().map(|found| hex(&found.frame)).collect();
        assert_eq!(frames, expected);
        for Found { ours, theirs, .. } in by_value {
            assert_eq!((theirs.number, &theirs.store), (6, &bench()));
            match ours.number {
                0 => assert_eq!(hex(&ours.reply), "180004880000"),
                _ => assert_eq!(ours.store[40], 0x00),
            }
        }
        let [store, reply] = divided else {
            panic!("two of undivided writes");
        };
        let too_long = "070042050000000000";
        assert_eq!(hex(&store.frame), format!("00000301002000{too_long}"));
        assert_eq!((store.room, store.theirs.store[40]), (3, 0x00));
        assert_eq!((store.ours.number, &store.ours.store), (5, &bench()));
        assert_eq!(hex(&reply.frame), format!("000003000000{too_long}"));
        assert_eq!((reply.room, reply.ours.number), (6, 5));
        assert_eq!(hex(&reply.theirs.reply), "180004880000");
    }
}
