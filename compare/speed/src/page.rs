//! The results: a table for the terminal, and a page in simple Markdown.

use reading::table::ENTRIES;

use crate::calls::ROOM;
use crate::facts::Facts;
use crate::machine::processor;
use crate::measured::Measured;
use crate::row::Over;
use crate::turns;

/// How the two were made.
pub struct Built {
    /// The compiler of the Rust.
    pub compiler: &'static str,
    /// The archive's length.
    pub archive: u64,
    /// None where nothing was timed: an emulator counted the new one.
    pub pairs: Option<usize>,
}

/// Why there are no times then, and no instructions of the old one.
pub const UNTIMED: &str = "The archive is for x86-64, and this machine is not: an emulator ran the new server alone and counted its instructions. Its times would say nothing, so nothing was timed; the old server is compiled for this machine, whose instructions are others.";

/// The columns, and how wide each is in plain text.
const WIDTHS: [usize; 7] = [22, 9, 10, 25, 19, 19, 13];

/// Which of them there are: where nothing was timed, the call and the new one's
/// instructions alone.
fn columns(measured: &[Measured]) -> &'static [usize] {
    if measured.iter().any(Measured::is_timed) {
        &[0, 1, 2, 3, 4, 5, 6]
    } else {
        &[0, 5]
    }
}

/// In plain text, by what the calls go over.
pub fn table(measured: &[Measured]) -> String {
    let columns = columns(measured);
    let sections = Over::ALL.map(|over| {
        let rows = cells(measured, over).map(|cells| text_line(&cells, columns));
        let head = text_line(&Measured::HEAD.map(str::to_owned), columns);
        format!("{}\n{head}{}", over.title(), rows.collect::<String>())
    });
    sections.join("\n")
}

fn cells(measured: &[Measured], over: Over) -> impl Iterator<Item = [String; 7]> {
    let rows = measured.iter().filter(move |row| row.over == over);
    rows.map(Measured::cells)
}

fn text_line(cells: &[String; 7], columns: &[usize]) -> String {
    let padded = |&at: &usize| match at {
        0 => format!("  {:1$}", cells[0], WIDTHS[0]),
        _ => format!("{:>1$}", cells[at], WIDTHS[at]),
    };
    columns.iter().map(padded).collect::<String>() + "\n"
}

pub fn page(measured: &[Measured], facts: &Facts, built: &Built) -> String {
    let tables = Over::ALL.map(|over| markdown_table(measured, over));
    [
        "# Speed\n\n".to_owned(),
        what_was_run(facts, built),
        what_a_call_does(),
        what_the_rows_are(),
        tables.concat(),
        turns::section(&facts.turns),
        "The same command makes this page again:\n\n    make speed\n".to_owned(),
    ]
    .concat()
}

fn what_was_run(facts: &Facts, built: &Built) -> String {
    match built.pairs {
        Some(pairs) => both_timed(facts, built, pairs),
        None => new_counted(facts, built),
    }
}

fn new_counted(facts: &Facts, built: &Built) -> String {
    format!(
        "{UNTIMED}

- {new}
- Instructions a call are those of many calls less those of few, by their number. The caller is a C program, whose few instructions a call are among them.
- Old and new were not compared on these frames; `make compare` compares them on others.

",
        new = the_new_one(facts, built),
    )
}

fn the_new_one(facts: &Facts, built: &Built) -> String {
    let kit = facts.kit.as_deref().unwrap_or("which it does not name");
    let code = match facts.text {
        Some(text) => {
            format!("its code and constants have {text} (`size`, text of all its members)")
        }
        None => "how many are code was not looked at".to_owned(),
    };
    let archive = built.archive;
    format!(
        "New: `hd_handle_request`, `hd_report`, `hd_ask` and `hd_mark` of the proved archive libhingedrift.a, as a box calls them. Made by the kit, {kit}. The archive has {archive} bytes; {code}."
    )
}

fn both_timed(facts: &Facts, built: &Built, pairs: usize) -> String {
    let counts = match facts.uncounted() {
        Some(why) => format!("Instructions were not counted: {why}."),
        None => "Instructions a call were counted by valgrind's callgrind: of many calls less those of few, by their number.".to_owned(),
    };
    format!(
        "The old server and the new one, timed by one program on the same frames.

- Old: zigbee-rs' `ClusterServer::handle_request`, `AttributeReportBuilder` and `ReportingTable<{ENTRIES}>`, over document 01's store, as the comparison runs them. Compiled by {compiler} at full optimization: no overflow checks, link-time optimization, one unit. A call allocates nothing. Its lock and its list are stand-ins over the standard library's.
- {new}
- Processor: {processor}. One thread.
- Both are given the same frames from the same memory, in blocks of the same number of calls, old and new in turn, the two of a pair about 0.4 milliseconds together; {pairs} pairs a row. A time is the median over the blocks; a ratio is the median over the pairs, with their quartiles.
- Before a row is timed both make each of its calls, and replies, stores and tables are compared: they are the same.
- {counts}

",
        compiler = built.compiler,
        new = the_new_one(facts, built),
        processor = processor(),
    )
}

fn what_a_call_does() -> String {
    format!(
        "The two do not do the same work:

- The caller clears no buffer. The new one clears the reply buffer, here {ROOM} bytes, in every call, as document 01 has it; the Rust does not.
- The new one checks the whole layout of the store and of the table's bytes in every call; the Rust checks neither.

"
    )
}

fn what_the_rows_are() -> String {
    "The calls:

- Read 1 reads the attribute in the middle of the store. The rows of 10 name attributes that are spread over the store of 64; in the store of 4 the same ones come again, all 4 for a read, 3 for a write, 2 for the others.
- Writes and configures repeat the same values, so that every call meets the same store and table.
- Refused takes in turn a frame for another cluster, one that is too short for a header, one of a reserved type, one with a cut record, and one with a reply buffer of 2 bytes.
- Ask and mark go through all attributes of the table in turn; for the asks every second one was marked before.
- Every table has room for 128 entries. Over the full one, configure 10 and read configuration 10 name ten that are spread over it.

"
    .to_owned()
}

fn markdown_table(measured: &[Measured], over: Over) -> String {
    let columns = columns(measured);
    let line = |cells: &[String; 7]| {
        let cells: Vec<&str> = columns.iter().map(|&at| cells[at].as_str()).collect();
        format!("| {} |\n", cells.join(" | "))
    };
    let head = line(&Measured::HEAD.map(str::to_owned));
    let rule = format!("|---|{}\n", "---:|".repeat(columns.len() - 1));
    let rows: String = cells(measured, over).map(|cells| line(&cells)).collect();
    format!("{}:\n\n{head}{rule}{rows}\n", over.title())
}

#[cfg(test)]
mod tests {
    use super::*;
    use crate::rows::rows;
    use crate::timing::Timed;

    const ROWS: usize = 22;

    fn measured() -> Vec<Measured> {
        let timed = Timed {
            old: vec![100.0],
            new: vec![150.0],
        };
        let rows = rows();
        rows.iter()
            .map(|row| Measured::of(row, Some(&timed), [None; 2]))
            .collect()
    }

    fn built() -> Built {
        Built {
            compiler: "rustc 1",
            archive: 4711,
            pairs: Some(3),
        }
    }

    #[test]
    fn every_row_is_in_its_table() {
        let page = page(&measured(), &Facts::default(), &built());
        let rows = page.matches(" | 100 | 150 | 1.50 (1.50 to 1.50) | not counted |");
        assert_eq!(rows.count(), ROWS);
        for over in Over::ALL {
            let (_, behind) = page.split_once(over.title()).expect("it has a table");
            let table = behind.split("\n\n").nth(1).expect("it has a table");
            let many = match over {
                Over::Table => 2,
                Over::Full => 4,
                _ => 8,
            };
            assert_eq!(table.lines().count(), 2 + many);
        }
    }

    #[test]
    fn what_is_known_is_told() {
        let facts = Facts::parsed("kit a kit\ntext 99\nuncounted no valgrind here\n");
        let page = page(&measured(), &facts.expect("it is understood"), &built());
        for words in [
            "by rustc 1 at",
            "kit, a kit.",
            "4711 bytes; its code and constants have 99 (",
            "3 pairs",
            "not counted: no valgrind here.",
        ] {
            assert!(page.contains(words), "{words}");
        }
    }

    #[test]
    fn what_was_not_timed_is_not_told() {
        let rows = rows();
        let measured = rows
            .iter()
            .map(|row| Measured::of(row, None, [None, Some(77)]));
        let measured: Vec<Measured> = measured.collect();
        let built = Built {
            pairs: None,
            ..built()
        };
        let page = page(&measured, &Facts::default(), &built);
        assert_eq!(page.matches(" | 77 |\n").count(), ROWS);
        assert_eq!(
            page.matches("| call | new, instructions |\n|---|---:|\n")
                .count(),
            Over::ALL.len()
        );
        assert!(page.contains(UNTIMED) && page.contains("4711 bytes"));
        for words in ["not timed", "pairs", "valgrind", "rustc", "are the same"] {
            assert!(!page.contains(words), "{words}");
        }
    }

    #[test]
    fn the_terminal_has_a_line_a_row() {
        let table = table(&measured());
        assert_eq!(table.matches("1.50 (1.50 to 1.50)").count(), ROWS);
        assert_eq!(table.lines().count(), ROWS + 4 * 2 + 3);
    }
}
