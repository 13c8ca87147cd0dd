//! A page in Markdown.

use super::block::{Block, Table};

pub fn page(blocks: &[Block]) -> String {
    let mut mark = "#";
    let mut parts = Vec::new();
    for block in blocks {
        parts.push(match block {
            Block::Heading(text) => format!("{mark} {text}\n"),
            Block::Text(text) => format!("{text}\n"),
            Block::Outcome { text, .. } => format!("**{text}**\n"),
            Block::List(items) => items.iter().map(|item| format!("- {item}\n")).collect(),
            Block::Table(table) => rows(table),
            Block::Code(text) => text.lines().map(|line| format!("    {line}\n")).collect(),
        });
        mark = "##";
    }
    parts.join("\n")
}

fn rows(table: &Table) -> String {
    let rule = vec!["---".to_owned(); table.head.len()];
    let rows = [&table.head, &rule].into_iter().chain(&table.rows);
    rows.map(|row| line(row)).collect()
}

fn line(cells: &[String]) -> String {
    let cells: Vec<String> = cells.iter().map(|cell| cell.replace('|', "\\|")).collect();
    format!("| {} |\n", cells.join(" | "))
}

#[cfg(test)]
mod tests {
    use super::super::block::{heading, list, text};
    use super::*;

    #[test]
    fn every_block() {
        let table = Table::of(&["a", "b"], vec![vec!["1".to_owned(), "x|y".to_owned()]]);
        let blocks = [
            heading("Title"),
            text("Text."),
            heading("Part"),
            list(&["one", "two"]),
            table,
            Block::Code("c\nd\n".to_owned()),
        ];
        let expected = "# Title\n\nText.\n\n## Part\n\n- one\n- two\n\n\
                        | a | b |\n| --- | --- |\n| 1 | x\\|y |\n\n    c\n    d\n";
        assert_eq!(page(&blocks), expected);
    }
}
