//! The report turn's part of the results. The Rust has no turn: turn.c measures
//! it beside other calls of the new server, and the facts have its rows.

const TITLE: &str = "A report turn: 64 attributes, a full table";
const HEAD: [&str; 4] = ["case", "way", "ns", "instructions"];

const WHAT_IS_COMPARED: &str = "The Rust has no turn, so all of these are calls of the new one:

- A turn is one `hd_report_turn`: it finds what is due, writes one frame of it, which has room for all, and marks it. The table's 128 entries are one for each attribute, and between them 64 of another cluster.
- 64 asks alone are an `hd_ask` for each attribute, its number at hand. They write and mark nothing.
- Single calls do what a turn does: an `hd_number` and an `hd_ask` for each attribute, an `hd_report` of those that are due, and an `hd_mark` for each of these. Frame and table were compared first: a turn leaves the same.
- What is due is so for the time alone, in every call again. A time is that of a call in the quickest block.
";

/// In plain text, below the other tables.
pub fn lines(rows: &[[String; 4]]) -> String {
    let line =
        |[case, way, ns, count]: [&str; 4]| format!("  {case:18}{way:15}{ns:>10}{count:>15}\n");
    format!("\n{TITLE}\n{}{}", line(HEAD), all(rows, line))
}

/// In the page.
pub fn section(rows: &[[String; 4]]) -> String {
    let line = |cells: [&str; 4]| format!("| {} |\n", cells.join(" | "));
    format!(
        "{TITLE}. {WHAT_IS_COMPARED}\n{}|---|---|---:|---:|\n{}\n",
        line(HEAD),
        all(rows, line)
    )
}

fn all(rows: &[[String; 4]], line: impl Fn([&str; 4]) -> String) -> String {
    let rows = rows.iter().map(|row| row.each_ref().map(String::as_str));
    rows.map(line).collect()
}

#[cfg(test)]
mod tests {
    use super::*;

    #[test]
    fn every_row_has_its_line() {
        let row = |way: &str| ["none due", way, "12", "345"].map(str::to_owned);
        let rows = [row("a turn"), row("single calls")];
        let table = "\n\n| case | way | ns | instructions |\n|---|---|---:|---:|\n| none due | a turn | 12 | 345 |\n| none due | single calls | 12 | 345 |\n\n";
        assert!(section(&rows).ends_with(table));
        let last = "\n  none due          single calls           12            345\n";
        assert!(lines(&rows).ends_with(last));
        assert_eq!(lines(&rows).lines().count(), 3 + rows.len());
    }
}
