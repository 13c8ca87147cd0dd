//! The type table, all codes in order, and the types that have a name.

use cases::hex;
use reading::Kind;

use crate::rust;

pub fn lines() -> Result<Vec<String>, String> {
    (0..=0xff).map(line).chain([named()]).collect()
}

/// The types with a name are those that document 01 knows.
fn named() -> Result<String, String> {
    let theirs = rust::named();
    let ours = (0..=0xff).filter(|&code| reading::kind(code) != Kind::Unknown);
    if ours.ne(theirs.iter().copied()) {
        return Err(format!("named types: the Rust has {}", hex(&theirs)));
    }
    Ok(format!("i {:02x} {}", theirs.len(), hex(&theirs)))
}

fn line(code: u8) -> Result<String, String> {
    let theirs = rust::row(code)?;
    let ours = [
        reading::fixed_size(code).map_or(0xff, rust::short),
        reading::is_analog(code).into(),
        reading::is_reportable_type(code).into(),
    ];
    if ours[..] != theirs[..] {
        return Err(format!(
            "type {code:02x}: document 01 {}, the Rust {}",
            hex(&ours),
            hex(&theirs)
        ));
    }
    Ok(format!("t {code:02x} {}", hex(&theirs)))
}
