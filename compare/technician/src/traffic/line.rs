//! One line of traffic.

use reading::table::{SIZE, to_bytes};

use super::bytes::{bytes, count};

#[derive(Debug, Clone, PartialEq, Eq)]
pub enum Step {
    Store(Vec<u8>),
    Table(Vec<u8>),
    /// `None`: the store's own.
    Cluster(Option<u16>),
    Unicast(u8),
    Room(usize),
    Request(Vec<u8>),
}

impl Step {
    pub fn is_request(&self) -> bool {
        matches!(self, Self::Request(_))
    }
}

/// What a line says; nothing where it is empty but for a comment.
pub fn step(line: &[u8]) -> Result<Option<Step>, String> {
    let line = str::from_utf8(line).map_err(|_| "it is no text".to_owned())?;
    let said = line.split('#').next().unwrap_or("").trim();
    if said.is_empty() {
        return Ok(None);
    }
    let (word, rest) = said.split_once(char::is_whitespace).unwrap_or((said, ""));
    let rest = rest.trim();
    let step = match word {
        "store" => Step::Store(bytes(rest)?),
        "table" => Step::Table(table(rest)?),
        "cluster" => Step::Cluster(cluster(rest)?),
        "unicast" => Step::Unicast(unicast(rest)?),
        "room" => Step::Room(count(rest)?),
        "request" => Step::Request(bytes(rest)?),
        _ => {
            return Err(format!(
                "`{}` is no word of this file",
                word.escape_default()
            ));
        }
    };
    Ok(Some(step))
}

fn table(text: &str) -> Result<Vec<u8>, String> {
    if text == "empty" {
        return Ok(to_bytes(&[]));
    }
    let (start, filled) = match text.strip_suffix(", then zeros") {
        Some(start) => (start, SIZE),
        None => (text, 0),
    };
    let mut table = bytes(start)?;
    table.resize(table.len().max(filled), 0);
    match table.len() {
        SIZE => Ok(table),
        other => Err(format!("a table has {SIZE} bytes, these are {other}")),
    }
}

/// Four hex digits as they are read, the high byte first.
fn cluster(text: &str) -> Result<Option<u16>, String> {
    match (text, bytes(text).as_deref()) {
        ("store", _) => Ok(None),
        (_, Ok(&[high, low])) => Ok(Some(u16::from_be_bytes([high, low]))),
        _ => Err(format!(
            "`{}` is no cluster of four hex digits",
            text.escape_default()
        )),
    }
}

/// A byte, of which only 0 means no.
fn unicast(text: &str) -> Result<u8, String> {
    let byte = count(text).map(u8::try_from);
    match byte {
        Ok(Ok(byte)) => Ok(byte),
        _ => Err(format!(
            "`{}` is no number from 0 to 255",
            text.escape_default()
        )),
    }
}
