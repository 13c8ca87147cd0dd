//! The table as a whole.

use reading::{Kind, fixed_size, is_analog, is_reportable_type, kind};

fn codes(of: impl Fn(u8) -> bool) -> Vec<u8> {
    (0..=0xff).filter(|&code| of(code)).collect()
}

#[test]
fn how_many_of_each() {
    assert_eq!(codes(|code| fixed_size(code).is_some()).len(), 47);
    assert_eq!(codes(|code| matches!(kind(code), Kind::Text(_))).len(), 4);
    assert_eq!(codes(|code| kind(code) == Kind::Series), [0x48, 0x50, 0x51]);
    assert_eq!(codes(|code| kind(code) == Kind::Structure), [0x4c]);
    assert_eq!(codes(|code| kind(code) == Kind::Unknown).len(), 201);
}

#[test]
fn sizes() {
    assert_eq!(codes(|code| fixed_size(code) == Some(0)), [0x00]);
    let one = [0x08, 0x10, 0x18, 0x20, 0x28, 0x30];
    assert_eq!(codes(|code| fixed_size(code) == Some(1)), one);
    let two = [0x09, 0x19, 0x21, 0x29, 0x31, 0x38, 0xe8, 0xe9];
    assert_eq!(codes(|code| fixed_size(code) == Some(2)), two);
    let seven = [0x0e, 0x1e, 0x26, 0x2e];
    assert_eq!(codes(|code| fixed_size(code) == Some(7)), seven);
    let eight = [0x0f, 0x1f, 0x27, 0x2f, 0x3a, 0xf0];
    assert_eq!(codes(|code| fixed_size(code) == Some(8)), eight);
    assert_eq!(codes(|code| fixed_size(code) == Some(16)), [0xf1]);
}

#[test]
fn analog_and_reportable() {
    assert_eq!(codes(is_analog).len(), 22);
    assert!(
        codes(is_analog)
            .into_iter()
            .all(|code| fixed_size(code).is_some())
    );
    let not = [0x48, 0x4c, 0x50, 0x51];
    assert_eq!(codes(|code| !is_reportable_type(code)), not);
}
