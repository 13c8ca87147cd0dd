//! Stands for `zigbee-macros` of the same project, which is absent. Only
//! `impl_byte!`, which gives a struct its reader and writer, and only for the
//! shapes that the held files use.
//!
//! Assumed of the real macro:
//! - fields are read and written in order, without gaps, numbers little-endian;
//! - the first field that fails fails the whole;
//! - `#[parse_if = c]`: the field is `Some` and takes bytes exactly where `c`
//!   holds; it is written where it is `Some`;
//! - `#[ctx = x]` and `#[ctx_write = x]` are the contexts to read and to write
//!   that field with; without them a field has its only one;
//! - `#[width = n]`: a number of `n` bytes, sign-extended where it is signed;
//!   none of the held files makes one.

mod field;
mod named;
mod narrow;
mod tuple;

pub use field::Plain;
pub use narrow::Narrow;

/// The crate whose traits are implemented, for the macros.
#[doc(hidden)]
pub use byte;

/// Declares a struct and implements `TryRead` and `TryWrite` for it.
#[macro_export]
macro_rules! impl_byte {
    (
        #[width = $width:literal]
        $(#[$meta:meta])*
        $vis:vis struct $name:ident($field_vis:vis $ty:ty);
    ) => {
        $(#[$meta])*
        $vis struct $name($field_vis $ty);

        $crate::impl_tuple! { $name, $ty, $width }
    };
    ($(#[$meta:meta])* $vis:vis struct $name:ident($field_vis:vis $ty:ty);) => {
        $(#[$meta])*
        $vis struct $name($field_vis $ty);

        $crate::impl_tuple! { $name, $ty }
    };
    ($(#[$meta:meta])* $vis:vis struct $name:ident<$life:lifetime> { $($fields:tt)* }) => {
        $crate::impl_named! {
            $life, [$(#[$meta])* $vis], $name, [<$life>], { $($fields)* }
        }
    };
    ($(#[$meta:meta])* $vis:vis struct $name:ident { $($fields:tt)* }) => {
        $crate::impl_named! {
            'bytes, [$(#[$meta])* $vis], $name, [], { $($fields)* }
        }
    };
}
