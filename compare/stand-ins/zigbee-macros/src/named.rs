//! Structs of named fields.

#[doc(hidden)]
#[macro_export]
macro_rules! impl_named {
    (
        $life:lifetime,
        [$(#[$meta:meta])* $vis:vis],
        $name:ident,
        [$($generics:tt)*],
        {
            $(
                $(#[doc = $doc:literal])*
                $(#[parse_if = $condition:expr])?
                $(#[ctx = $read:expr])?
                $(#[ctx_write = $write:expr])?
                $field_vis:vis $field:ident: $ty:ty
            ),+ $(,)?
        }
    ) => {
        $(#[$meta])*
        $vis struct $name $($generics)* {
            $(
                $(#[doc = $doc])*
                $field_vis $field: $ty,
            )+
        }

        impl<$life> $crate::byte::TryRead<$life, ()> for $name $($generics)* {
            fn try_read(bytes: &$life [u8], (): ()) -> $crate::byte::Result<(Self, usize)> {
                let offset = &mut 0;
                $(
                    let $field: $ty =
                        $crate::read_field!(bytes, offset, [$($condition)?], [$($read)?]);
                )+
                Ok((Self { $($field),+ }, *offset))
            }
        }

        impl<$life> $crate::byte::TryWrite<()> for $name $($generics)* {
            fn try_write(self, bytes: &mut [u8], (): ()) -> $crate::byte::Result<usize> {
                let offset = &mut 0;
                $(
                    $crate::write_field!(
                        bytes, offset, self.$field, [$($condition)?], [$($write)?]
                    );
                )+
                Ok(*offset)
            }
        }
    };
}
