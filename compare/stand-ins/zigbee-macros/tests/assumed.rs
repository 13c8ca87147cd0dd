//! What lib.rs says is assumed of the real macro.

use byte::{BytesExt, Error, Result, TryRead, TryWrite};
use zigbee_macros::impl_byte;

impl_byte! {
    #[derive(Debug, Clone, Copy, PartialEq)]
    struct Word(u16);
}

impl_byte! {
    #[width = 3]
    #[derive(Debug, Clone, Copy, PartialEq)]
    struct Narrow(i32);
}

impl_byte! {
    /// With a condition, and a last field that needs an earlier one.
    #[derive(Debug, Clone, Copy, PartialEq)]
    struct Whole<'a> {
        /// How many bytes `tail` takes.
        length: u8,
        #[parse_if = length > 1]
        word: Option<Word>,
        #[ctx = &length]
        #[ctx_write = ()]
        tail: Tail<'a>,
    }
}

#[derive(Debug, Clone, Copy, PartialEq)]
struct Tail<'a>(&'a [u8]);

impl<'a> TryRead<'a, &u8> for Tail<'a> {
    fn try_read(bytes: &'a [u8], length: &u8) -> Result<(Self, usize)> {
        let length = usize::from(*length);
        let tail = bytes.get(..length).ok_or(Error::Incomplete)?;
        Ok((Self(tail), length))
    }
}

impl TryWrite<()> for Tail<'_> {
    fn try_write(self, bytes: &mut [u8], (): ()) -> Result<usize> {
        bytes
            .get_mut(..self.0.len())
            .ok_or(Error::Incomplete)?
            .copy_from_slice(self.0);
        Ok(self.0.len())
    }
}

#[test]
fn named_fields() {
    for bytes in [vec![1, 0xaa], vec![2, 0x34, 0x12, 0xaa, 0xbb]] {
        let mut offset = 0;
        let whole: Whole<'_> = bytes.read_with(&mut offset, ()).expect("all there");
        assert_eq!(offset, bytes.len());
        assert_eq!(whole.word, (bytes[0] > 1).then_some(Word(0x1234)));

        let mut out = vec![0; bytes.len()];
        assert_eq!(out.write_with(&mut 0, whole, ()), Ok(()));
        assert_eq!(out, bytes);

        for length in 0..bytes.len() {
            let short = bytes[..length].read_with::<Whole<'_>>(&mut 0, ());
            assert_eq!(short, Err(Error::Incomplete));
        }
    }
}

#[test]
fn width() {
    let bytes = [0xfe, 0xff, 0xff, 0x00];
    let mut offset = 0;
    let read = bytes.read_with(&mut offset, ());
    assert_eq!((read, offset), (Ok(Narrow(-2)), 3));
    let mut out = [0; 3];
    assert_eq!(out.write_with(&mut 0, Narrow(-2), ()), Ok(()));
    assert_eq!(out, bytes[..3]);
}
