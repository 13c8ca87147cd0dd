//! Where a value ends.

use crate::types::{Kind, kind};

/// The answer for a value that starts at some place.
#[derive(Debug, Clone, Copy, PartialEq, Eq)]
pub enum Extent {
    /// The place of the first byte behind it.
    End(usize),
    /// The bytes are at their end before it is.
    Cut,
    /// Nested too deep, or of no known type.
    Without,
}

/// What kept a value from ending; the first one met counts.
enum Trouble {
    Cut,
    Without,
}

type End = Result<usize, Trouble>;

/// Nesting is at most this deep, the outermost collection being level 1.
const LEVELS: usize = 15;

/// The extent of the value of type `code` that starts at `at`.
pub fn extent(code: u8, bytes: &[u8], at: usize) -> Extent {
    match value(code, bytes, at, LEVELS) {
        Ok(end) => Extent::End(end),
        Err(Trouble::Cut) => Extent::Cut,
        Err(Trouble::Without) => Extent::Without,
    }
}

/// `levels` more collections may nest here.
fn value(code: u8, bytes: &[u8], at: usize, levels: usize) -> End {
    match kind(code) {
        Kind::Fixed(size) => skip(bytes, at, size),
        Kind::Text(width) => {
            let (length, start) = count(bytes, at, width)?;
            skip(bytes, start, length)
        }
        Kind::Unknown => Err(Trouble::Without),
        Kind::Series | Kind::Structure if levels == 0 => Err(Trouble::Without),
        Kind::Series => series(bytes, at, levels - 1),
        Kind::Structure => structure(bytes, at, levels - 1),
    }
}

fn series(bytes: &[u8], at: usize, levels: usize) -> End {
    let (element, at) = byte(bytes, at)?;
    let (count, at) = count(bytes, at, 2)?;
    if count == 0 {
        // the element type is not looked at
        return Ok(at);
    }
    match kind(element) {
        // at once: elements of no bytes would cost a step each
        Kind::Fixed(size) => skip(bytes, at, count * size),
        _ => (0..count).try_fold(at, |at, _| value(element, bytes, at, levels)),
    }
}

fn structure(bytes: &[u8], at: usize, levels: usize) -> End {
    let (count, at) = count(bytes, at, 2)?;
    (0..count).try_fold(at, |at, _| {
        let (member, at) = byte(bytes, at)?;
        value(member, bytes, at, levels)
    })
}

/// A little-endian length or count of `width` bytes, and the place behind it.
/// All ones means invalid: nothing follows, as with 0.
fn count(bytes: &[u8], at: usize, width: usize) -> Result<(usize, usize), Trouble> {
    let end = skip(bytes, at, width)?;
    let field = &bytes[at..end];
    if field.iter().all(|&byte| byte == 0xff) {
        return Ok((0, end));
    }
    let number = field
        .iter()
        .rev()
        .fold(0, |number, &byte| number * 256 + usize::from(byte));
    Ok((number, end))
}

fn byte(bytes: &[u8], at: usize) -> Result<(u8, usize), Trouble> {
    let end = skip(bytes, at, 1)?;
    Ok((bytes[at], end))
}

/// The place `size` bytes further on, if they are there.
fn skip(bytes: &[u8], at: usize, size: usize) -> End {
    match bytes.len().checked_sub(at) {
        Some(left) if size <= left => Ok(at + size),
        _ => Err(Trouble::Cut),
    }
}
