//! A page in HTML: one file, without scripts and without anything from outside.

use super::block::{Block, Table};

const STYLE: &str = include_str!("style.css");

pub fn page(title: &str, blocks: &[Block]) -> String {
    let mut body = String::new();
    let mut level = 1;
    for block in blocks {
        body += &one(block, level);
        level = 2;
    }
    let title = escaped(title);
    format!(
        "<!DOCTYPE html>\n<html lang=\"en\">\n<head>\n<meta charset=\"utf-8\">\n\
         <meta name=\"viewport\" content=\"width=device-width, initial-scale=1\">\n\
         <title>{title}</title>\n<style>\n{STYLE}</style>\n</head>\n<body>\n{body}</body>\n</html>\n"
    )
}

fn one(block: &Block, level: usize) -> String {
    match block {
        Block::Heading(text) => format!("<h{level}>{}</h{level}>\n", inline(text)),
        Block::Text(text) => format!("<p>{}</p>\n", inline(text)),
        Block::Outcome { well, text } => {
            let class = if *well { "well" } else { "wrong" };
            format!("<p class=\"outcome {class}\">{}</p>\n", inline(text))
        }
        Block::List(items) => {
            let items: String = items
                .iter()
                .map(|item| format!("<li>{}</li>\n", inline(item)))
                .collect();
            format!("<ul>\n{items}</ul>\n")
        }
        Block::Table(rows) => table(rows),
        Block::Code(text) => format!("<pre>{}</pre>\n", escaped(text)),
    }
}

/// A cell of a body row carries its column's name, for screens on which a row
/// is shown as a block.
fn table(table: &Table) -> String {
    let heads = table.head.iter().enumerate();
    let head: String = heads
        .map(|(column, cell)| {
            let mut cells = table.rows.iter().filter_map(|row| row.get(column));
            let class = class(!table.rows.is_empty() && cells.all(|cell| is_number(cell)));
            format!("<th{class}>{}</th>", inline(cell))
        })
        .collect();
    let mut rows = String::new();
    for row in &table.rows {
        let cells = row.iter().zip(&table.head);
        let cells: String = cells.map(|(cell, name)| data(cell, name)).collect();
        rows += &format!("<tr>{cells}</tr>\n");
    }
    format!("<table>\n<thead><tr>{head}</tr></thead>\n<tbody>\n{rows}</tbody>\n</table>\n")
}

fn data(cell: &str, name: &str) -> String {
    let class = class(is_number(cell));
    let name = escaped(&name.replace('`', ""));
    format!("<td{class} data-name=\"{name}\">{}</td>", inline(cell))
}

/// In digits: `inf` is a word.
fn is_number(cell: &str) -> bool {
    cell.parse::<f64>().is_ok() && cell.ends_with(|letter: char| letter.is_ascii_digit())
}

/// Numbers stand at the right.
fn class(number: bool) -> &'static str {
    if number { " class=\"number\"" } else { "" }
}

/// A text with its code marked.
fn inline(text: &str) -> String {
    let parts = text.split('`').enumerate();
    parts
        .map(|(place, part)| match place % 2 {
            0 => escaped(part),
            _ => format!("<code>{}</code>", escaped(part)),
        })
        .collect()
}

/// No letter of the text is taken for a mark.
fn escaped(text: &str) -> String {
    let mut escaped = String::with_capacity(text.len());
    for letter in text.chars() {
        match letter {
            '&' => escaped += "&amp;",
            '<' => escaped += "&lt;",
            '>' => escaped += "&gt;",
            '"' => escaped += "&quot;",
            '\'' => escaped += "&#39;",
            _ => escaped.push(letter),
        }
    }
    escaped
}

#[cfg(test)]
mod tests {
    use super::super::block::{heading, list, text};
    use super::*;

    const BAD: &str = "<b a=\"1\" c='2'>&amp;</b>";
    const GOOD: &str = "&lt;b a=&quot;1&quot; c=&#39;2&#39;&gt;&amp;amp;&lt;/b&gt;";

    #[test]
    fn nothing_is_taken_for_a_mark() {
        assert_eq!(escaped(BAD), GOOD);
        let table = Table::of(&[BAD], vec![vec![BAD.to_owned()]]);
        let outcome = Block::Outcome {
            well: false,
            text: BAD.to_owned(),
        };
        let code = Block::Code(BAD.to_owned());
        for block in [heading(BAD), text(BAD), list(&[BAD]), table, outcome, code] {
            let page = page(BAD, &[block]);
            assert!(!page.contains("<b "), "{page}");
            assert!(page.matches(GOOD).count() >= 2, "{page}");
        }
    }

    #[test]
    fn code_and_numbers() {
        assert_eq!(inline("a `<b>` c"), "a <code>&lt;b&gt;</code> c");
        for number in ["-5", "21.9"] {
            let cell = format!("<td class=\"number\" data-name=\"x\">{number}</td>");
            assert_eq!(data(number, "x"), cell);
        }
        assert!(!["", "inf", "NaN", "1 (2)"].into_iter().any(is_number));
        assert_eq!(
            data("`18`", "`y`"),
            "<td data-name=\"y\"><code>18</code></td>"
        );
    }

    #[test]
    fn nothing_from_outside() {
        let page = page("t", &[heading("t")]);
        for word in ["<script", "http", "url(", "@import", "<link", "src="] {
            assert!(!page.contains(word), "{word}");
        }
    }
}
