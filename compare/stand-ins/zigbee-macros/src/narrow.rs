//! Numbers of 3, 5, 6 and 7 bytes, held in the next wider type.

/// A number that travels in fewer bytes than it has.
pub trait Narrow {
    fn widened<const N: usize>(raw: &[u8; N]) -> Self;
    fn narrowed<const N: usize>(self) -> [u8; N];
}

macro_rules! narrow {
    ($($number:ty: $negative:expr;)*) => {$(
        impl Narrow for $number {
            fn widened<const N: usize>(raw: &[u8; N]) -> Self {
                let negative: fn(u8) -> bool = $negative;
                let fill = if negative(raw[N - 1]) { 0xff } else { 0 };
                let mut whole = [fill; size_of::<Self>()];
                whole[..N].copy_from_slice(raw);
                Self::from_le_bytes(whole)
            }

            fn narrowed<const N: usize>(self) -> [u8; N] {
                let mut raw = [0; N];
                raw.copy_from_slice(&self.to_le_bytes()[..N]);
                raw
            }
        }
    )*};
}

narrow! {
    u32: |_| false;
    u64: |_| false;
    i32: |top| top >= 0x80;
    i64: |top| top >= 0x80;
}
