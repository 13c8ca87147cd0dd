//! What a page is made of. In a text, what stands between two backticks is
//! shown as code.

#[derive(Debug, Clone, PartialEq, Eq)]
pub enum Block {
    /// The first of a page is its title.
    Heading(String),
    Text(String),
    /// What the run comes to: well, or not.
    Outcome {
        well: bool,
        text: String,
    },
    List(Vec<String>),
    Table(Table),
    /// As it is, letter for letter.
    Code(String),
}

#[derive(Debug, Clone, PartialEq, Eq, Default)]
pub struct Table {
    pub head: Vec<String>,
    pub rows: Vec<Vec<String>>,
}

impl Table {
    pub fn of(head: &[&str], rows: Vec<Vec<String>>) -> Block {
        let head = head.iter().map(|&cell| cell.to_owned()).collect();
        Block::Table(Self { head, rows })
    }
}

pub fn heading(text: &str) -> Block {
    Block::Heading(text.to_owned())
}

pub fn text(text: &str) -> Block {
    Block::Text(text.to_owned())
}

pub fn list(items: &[&str]) -> Block {
    Block::List(items.iter().map(|&item| item.to_owned()).collect())
}

pub fn code(text: &str) -> String {
    format!("`{text}`")
}
