//! One field: with or without a condition, with or without a context.

/// The context of a field that names none.
pub trait Plain {
    const CONTEXT: Self;
}

impl Plain for () {
    const CONTEXT: Self = ();
}

impl Plain for byte::ctx::Endian {
    const CONTEXT: Self = byte::LE;
}

#[doc(hidden)]
#[macro_export]
macro_rules! context {
    () => {
        $crate::Plain::CONTEXT
    };
    ($context:expr) => {
        $context
    };
}

#[doc(hidden)]
#[macro_export]
macro_rules! read_field {
    ($bytes:ident, $offset:ident, [], [$($context:expr)?]) => {
        $crate::byte::BytesExt::read_with($bytes, $offset, $crate::context!($($context)?))?
    };
    ($bytes:ident, $offset:ident, [$condition:expr], [$($context:expr)?]) => {
        if $condition {
            Some($crate::read_field!($bytes, $offset, [], [$($context)?]))
        } else {
            None
        }
    };
}

#[doc(hidden)]
#[macro_export]
macro_rules! write_field {
    ($bytes:ident, $offset:ident, $value:expr, [], [$($context:expr)?]) => {
        $crate::byte::BytesExt::write_with(
            $bytes, $offset, $value, $crate::context!($($context)?)
        )?
    };
    ($bytes:ident, $offset:ident, $value:expr, [$condition:expr], [$($context:expr)?]) => {
        if let Some(value) = $value {
            $crate::write_field!($bytes, $offset, value, [], [$($context)?]);
        }
    };
}
