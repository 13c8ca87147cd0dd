//! Integers and floats, in either byte order.

use crate::ctx::Endian;
use crate::{Error, Result, TryRead, TryWrite};

macro_rules! numbers {
    ($($number:ty)*) => {$(
        impl TryRead<'_, Endian> for $number {
            fn try_read(bytes: &[u8], order: Endian) -> Result<(Self, usize)> {
                let raw = *bytes.first_chunk().ok_or(Error::Incomplete)?;
                let number = match order {
                    Endian::Little => Self::from_le_bytes(raw),
                    Endian::Big => Self::from_be_bytes(raw),
                };
                Ok((number, raw.len()))
            }
        }

        impl TryWrite<Endian> for $number {
            fn try_write(self, bytes: &mut [u8], order: Endian) -> Result<usize> {
                let raw = match order {
                    Endian::Little => self.to_le_bytes(),
                    Endian::Big => self.to_be_bytes(),
                };
                *bytes.first_chunk_mut().ok_or(Error::Incomplete)? = raw;
                Ok(raw.len())
            }
        }
    )*};
}

numbers!(u8 u16 u32 u64 i8 i16 i32 i64 f32 f64);
