//! The rows as text, which rows.h reads: count.c makes their calls where the
//! archive cannot be linked into this program, and stack.c measures their stack.
//!
//! A row is a line, and its calls follow, a line each and in their order.
//! Between words stands a space; bytes are in hex, numbers are decimal:
//!
//! ```text
//! row WORD STORE TABLE
//! request CLUSTER ROOM FRAME
//! report SEQUENCE ROOM ID..
//! ask CLUSTER ATTRIBUTE NOW VALUE
//! mark CLUSTER ATTRIBUTE NOW VALUE
//! ```

use cases::hex;
use reading::table::to_bytes;

use crate::calls::{Ask, Calls, ROOM, Report, Request};
use crate::row::Row;

pub fn text(rows: &[Row]) -> String {
    rows.iter().flat_map(lines).collect()
}

fn lines(row: &Row) -> Vec<String> {
    let store = hex(&row.store);
    let table = hex(&to_bytes(&row.table));
    let mut lines = vec![format!("row {} {store} {table}\n", row.word())];
    match &row.calls {
        Calls::Requests(each) => lines.extend(each.iter().map(request)),
        Calls::Reports(each) => lines.extend(each.iter().map(report)),
        Calls::Asks(each) => lines.extend(each.iter().map(|ask| asked("ask", ask))),
        Calls::Marks(each) => lines.extend(each.iter().map(|mark| asked("mark", mark))),
    }
    lines
}

fn request(request: &Request) -> String {
    let Request {
        cluster,
        frame,
        room,
    } = request;
    format!("request {cluster} {room} {}\n", hex(frame))
}

fn report(report: &Report) -> String {
    let ids: String = report.ids.iter().map(|id| format!(" {id}")).collect();
    format!("report {} {ROOM}{ids}\n", report.sequence)
}

fn asked(kind: &str, ask: &Ask) -> String {
    let Ask { key, now, value } = ask;
    format!("{kind} {} {} {now} {value}\n", key.cluster, key.attribute)
}

#[cfg(test)]
mod tests {
    use cases::unhex;
    use reading::table::entries;

    use super::*;
    use crate::rows::{named, rows};

    /// The lines of a row's calls.
    fn calls(word: &str) -> Vec<String> {
        let text = text(&[named(word).expect("it is a row")]);
        text.lines().skip(1).map(str::to_owned).collect()
    }

    #[test]
    fn a_line_a_row_and_a_line_a_call() {
        let text = text(&rows());
        let mut lines = text.lines();
        for row in rows() {
            let line = lines.next().expect("it has a line");
            let ["row", word, store, table] = line.split(' ').collect::<Vec<&str>>()[..] else {
                panic!("{line}");
            };
            assert_eq!((word, unhex(store)), (row.word().as_str(), row.store));
            assert_eq!(entries(&unhex(table)), Ok(row.table));
            let calls = lines.by_ref().take(row.calls.round());
            assert!(calls.into_iter().all(|line| !line.starts_with("row ")));
        }
        assert_eq!(lines.next(), None);
    }

    #[test]
    fn every_kind_of_call() {
        assert_eq!(calls("4/read-1"), ["request 64545 256 002a000500"]);
        let report = "report 42 256 0 5 0 5 0 5 0 5 0 5";
        assert_eq!(calls("4/report-10"), [report]);
        assert_eq!(calls("table/ask")[3], "ask 64545 3 115 -170");
        assert_eq!(calls("table/mark")[15], "mark 64545 15 175 -50");
    }

    #[test]
    fn every_refusal_is_told_apart() {
        let expected = [
            "request 6 256 002a0000000100",
            "request 64545 256 002a",
            "request 64545 256 022a000000",
            "request 64545 256 002a00000001",
            "request 64545 2 002a0000000100",
        ];
        assert_eq!(calls("64/refused"), expected);
    }
}
