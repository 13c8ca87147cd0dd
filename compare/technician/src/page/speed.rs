//! What was measured, from a file of its own in simple Markdown: paragraphs,
//! lists, tables and code. It is a part of this page: its title is left out, and
//! its other headings become paragraphs. A line of dashes and colons in a table
//! is its rule.

use std::fs;
use std::io::ErrorKind;

use super::block::{Block, Table, text};

/// Nothing where there is no such file.
pub fn read(path: &str) -> Result<Option<Vec<Block>>, String> {
    match fs::read_to_string(path) {
        Ok(file) => Ok(Some(blocks(&file))),
        Err(trouble) if trouble.kind() == ErrorKind::NotFound => Ok(None),
        Err(trouble) => Err(format!("{path}: {trouble}")),
    }
}

fn blocks(file: &str) -> Vec<Block> {
    let mut blocks: Vec<Block> = Vec::new();
    let mut after_gap = true;
    for line in file.lines() {
        let trimmed = line.trim();
        if let Some(row) = trimmed.strip_prefix('|') {
            add_row(&mut blocks, after_gap, row);
        } else if let Some(item) = trimmed.strip_prefix("- ") {
            add_item(&mut blocks, item);
        } else if let Some(code) = line.strip_prefix("    ") {
            add_code(&mut blocks, code);
        } else if !trimmed.is_empty() && !trimmed.starts_with("# ") {
            add_text(&mut blocks, after_gap, trimmed);
        }
        after_gap = trimmed.is_empty() || trimmed.starts_with('#');
    }
    blocks
}

fn add_row(blocks: &mut Vec<Block>, after_gap: bool, row: &str) {
    let cells = row.trim_end_matches('|').split('|');
    let cells: Vec<String> = cells.map(|cell| cell.trim().to_owned()).collect();
    let is_rule = row.chars().all(|letter| "|-: ".contains(letter));
    match blocks.last_mut() {
        _ if is_rule => (),
        Some(Block::Table(table)) if !after_gap => table.rows.push(cells),
        _ => blocks.push(Block::Table(Table {
            head: cells,
            rows: Vec::new(),
        })),
    }
}

fn add_item(blocks: &mut Vec<Block>, item: &str) {
    match blocks.last_mut() {
        Some(Block::List(items)) => items.push(item.to_owned()),
        _ => blocks.push(Block::List(vec![item.to_owned()])),
    }
}

fn add_code(blocks: &mut Vec<Block>, line: &str) {
    match blocks.last_mut() {
        Some(Block::Code(code)) => *code += &format!("{line}\n"),
        _ => blocks.push(Block::Code(format!("{line}\n"))),
    }
}

fn add_text(blocks: &mut Vec<Block>, after_gap: bool, line: &str) {
    match blocks.last_mut() {
        Some(Block::Text(text)) if !after_gap => *text += &format!(" {line}"),
        _ => blocks.push(text(line.trim_start_matches('#').trim())),
    }
}

#[cfg(test)]
mod tests {
    use super::super::block::list;
    use super::*;

    #[test]
    fn simple_markdown() {
        let file = "# Speed\n\nTwo lines\nof text.\n\n## Calls\n| a | b |\n|---|---:|\n| 1 | 2 |\n\n- one\n- two\n\n    make it\n";
        let table = Table::of(&["a", "b"], vec![vec!["1".to_owned(), "2".to_owned()]]);
        let expected = [
            text("Two lines of text."),
            text("Calls"),
            table,
            list(&["one", "two"]),
            Block::Code("make it\n".to_owned()),
        ];
        assert_eq!(blocks(file), expected);
    }

    #[test]
    fn no_file() {
        assert_eq!(read("/no/such/speed.md"), Ok(None));
    }
}
