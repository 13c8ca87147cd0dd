//! Structs of one field without a name.

#[doc(hidden)]
#[macro_export]
macro_rules! impl_tuple {
    ($name:ident, $ty:ty) => {
        impl $crate::byte::TryRead<'_, ()> for $name {
            fn try_read(bytes: &[u8], (): ()) -> $crate::byte::Result<(Self, usize)> {
                let offset = &mut 0;
                let inner: $ty = $crate::read_field!(bytes, offset, [], []);
                Ok((Self(inner), *offset))
            }
        }

        impl $crate::byte::TryWrite<()> for $name {
            fn try_write(self, bytes: &mut [u8], (): ()) -> $crate::byte::Result<usize> {
                let offset = &mut 0;
                $crate::write_field!(bytes, offset, self.0, [], []);
                Ok(*offset)
            }
        }
    };
    ($name:ident, $ty:ty, $width:literal) => {
        impl $crate::byte::TryRead<'_, ()> for $name {
            fn try_read(bytes: &[u8], (): ()) -> $crate::byte::Result<(Self, usize)> {
                let raw = bytes
                    .first_chunk::<$width>()
                    .ok_or($crate::byte::Error::Incomplete)?;
                Ok((Self(<$ty as $crate::Narrow>::widened(raw)), $width))
            }
        }

        impl $crate::byte::TryWrite<()> for $name {
            fn try_write(self, bytes: &mut [u8], (): ()) -> $crate::byte::Result<usize> {
                *bytes
                    .first_chunk_mut::<$width>()
                    .ok_or($crate::byte::Error::Incomplete)? =
                    <$ty as $crate::Narrow>::narrowed(self.0);
                Ok($width)
            }
        }
    };
}
