//! What lib.rs says is assumed of the real crate.

use byte::{BytesExt, Error, LE, Result, TryRead};

struct Nothing;

impl TryRead<'_, ()> for Nothing {
    fn try_read(_: &[u8], (): ()) -> Result<(Self, usize)> {
        Ok((Self, 0))
    }
}

#[test]
fn the_offset_moves_on_success_only() {
    let bytes = [0x34, 0x12, 0xff];
    let mut offset = 0;
    assert_eq!(bytes.read_with::<u16>(&mut offset, LE), Ok(0x1234));
    assert_eq!(offset, 2);
    let read = bytes.read_with::<u16>(&mut offset, LE);
    assert_eq!(read, Err(Error::Incomplete));
    assert_eq!(offset, 2);
}

#[test]
fn a_short_write_changes_nothing() {
    let mut bytes = [0x11; 5];
    let mut offset = 0;
    assert_eq!(bytes.write_with(&mut offset, 7_u32, LE), Ok(()));
    let wrote = bytes.write_with(&mut offset, 7_u16, LE);
    assert_eq!(wrote, Err(Error::Incomplete));
    assert_eq!((bytes, offset), ([7, 0, 0, 0, 0x11], 4));
}

#[test]
fn offsets_at_and_behind_the_end() {
    let bytes = [0_u8; 2];
    assert!(bytes.read_with::<Nothing>(&mut 2, ()).is_ok());
    let read = bytes.read_with::<u8>(&mut 2, LE);
    assert_eq!(read, Err(Error::Incomplete));
    let read = bytes.read_with::<u8>(&mut 3, LE);
    assert_eq!(read, Err(Error::BadOffset(3)));
}
