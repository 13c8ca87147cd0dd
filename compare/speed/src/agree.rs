//! Both sides make a row's calls, and all that can be seen of each is compared,
//! before anything is timed.

use cases::{hex, shown, unmarked};
use reading::table::{Entry, to_bytes};

use crate::calls::ROOM;
use crate::row::Row;
use crate::side::{Said, Side};

/// What stands in a reply buffer before a call.
const BEFORE: u8 = 0xa5;

/// All that can be seen of a call afterwards.
struct Seen {
    said: Said,
    frame: Vec<u8>,
    /// The rest of the buffer.
    behind: Vec<u8>,
    store: Vec<u8>,
    table: Vec<Entry>,
}

/// Two rounds, so that the second meets what the first left, as every later one
/// does: it is to leave it so. An error where the sides differ.
pub fn agree(row: &Row, old: &mut impl Side, new: &mut impl Side) -> Result<(), String> {
    let mut round = || round(row, old, new).map_err(|what| format!("{}: {what}", row.word()));
    let (first, second) = (round()?, round()?);
    if first.store != second.store || first.table != second.table {
        return Err(format!(
            "{}: the second round changes something",
            row.word()
        ));
    }
    Ok(())
}

/// What was seen last, which is the same of both.
fn round(row: &Row, old: &mut impl Side, new: &mut impl Side) -> Result<Seen, String> {
    let mut last = None;
    for at in 0..row.calls.round() {
        let (old, new) = (seen(row, at, old)?, seen(row, at, new)?);
        if let Some(what) = difference(row, &old, &new) {
            return Err(format!("call {at}: {what}"));
        }
        last = Some(new);
    }
    last.ok_or("no calls".to_owned())
}

fn seen(row: &Row, at: usize, side: &mut impl Side) -> Result<Seen, String> {
    let mut buffer = [BEFORE; ROOM];
    let said = row.calls.one(at, side, &mut buffer);
    let lent = &buffer[..row.calls.room(at)];
    let used = match said {
        Said::Frame(used) if used > lent.len() => {
            return Err(format!(
                "call {at}: {used} bytes of {} are said to be the frame",
                lent.len()
            ));
        }
        Said::Frame(used) => used,
        _ => 0,
    };
    let (frame, behind) = lent.split_at(used);
    Ok(Seen {
        said,
        frame: frame.to_vec(),
        behind: behind.to_vec(),
        store: side.store(),
        table: side.table()?,
    })
}

/// The first that differs. Behind the frame it is the new one that document 01
/// has leave zeros, and of the tables the old one has no marks.
fn difference(row: &Row, old: &Seen, new: &Seen) -> Option<String> {
    let table = |seen: &Seen| shown(&to_bytes(&unmarked(&seen.table)));
    let each = [
        (
            "answer",
            format!("{:?}", old.said),
            format!("{:?}", new.said),
        ),
        ("frame", hex(&old.frame), hex(&new.frame)),
        ("store", hex(&old.store), hex(&new.store)),
        ("table", table(old), table(new)),
    ];
    if let Some((what, old, new)) = each.into_iter().find(|(_, old, new)| old != new) {
        return Some(format!("another {what}\n  old  {old}\n  new  {new}"));
    }
    let cleared = new.behind.iter().all(|&byte| byte == 0);
    (row.calls.write_frames() && !cleared)
        .then(|| format!("behind the frame the new one leaves {}", hex(&new.behind)))
}

#[cfg(test)]
mod tests {
    use super::*;
    use crate::calls::Calls;
    use crate::old::Old;
    use crate::rows::named;
    use crate::stand_in::{Fault, StandIn};

    /// A row whose table has entries.
    fn row() -> Row {
        named("4/read-configuration-10").expect("it is one")
    }

    fn agreed(row: &Row, fault: Option<Fault>) -> Result<(), String> {
        let mut old = Old::new(&row.store, &row.table);
        let mut new = StandIn::new(&row.store, &row.table);
        new.fault = fault;
        agree(row, &mut old, &mut new)
    }

    #[test]
    fn every_fault_is_seen() {
        assert_eq!(agreed(&row(), None), Ok(()));
        for (fault, words) in [
            (
                Fault::Refusal,
                "another answer\n  old  Frame(123)\n  new  Refused",
            ),
            (Fault::Length, "257 bytes of 256"),
            (Fault::Frame, "another frame\n  old  182a09"),
            (Fault::Behind, "leaves 0101"),
            (Fault::Store, "another store"),
            (Fault::Table, "another table"),
            (Fault::NoTable, "no table"),
        ] {
            let trouble = agreed(&row(), Some(fault)).expect_err(words);
            assert!(
                trouble.starts_with("4/read-configuration-10: "),
                "{trouble}"
            );
            assert!(trouble.contains(words), "{trouble}");
        }
    }

    #[test]
    fn a_row_is_not_empty() {
        let mut row = row();
        row.calls = Calls::Requests(Vec::new());
        let trouble = agreed(&row, None).expect_err("there are no calls");
        assert!(trouble.ends_with("no calls"), "{trouble}");
    }
}
