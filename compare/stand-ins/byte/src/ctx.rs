//! The context of a number: its byte order.

#[derive(Debug, Clone, Copy, PartialEq, Eq)]
pub enum Endian {
    Little,
    Big,
}

pub const LE: Endian = Endian::Little;
pub const BE: Endian = Endian::Big;

/// The machine's own order.
pub const NATIVE: Endian = if cfg!(target_endian = "little") {
    LE
} else {
    BE
};

impl Default for Endian {
    fn default() -> Self {
        NATIVE
    }
}
