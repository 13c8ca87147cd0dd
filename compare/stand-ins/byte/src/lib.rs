//! Stands for the published crate `byte` 0.2, which is absent. Only what the
//! held files use: numbers, and reading and writing at an offset.
//!
//! Assumed of the real crate:
//! - too few bytes for a number is `Incomplete`, and nothing is written then;
//! - the offset moves past what was read or written, and stays on an error;
//! - an offset behind the end is `BadOffset`, an offset at the end is none:
//!   a value of no bytes may stand there;
//! - `read` takes the context's default, for numbers the machine's byte order.

pub mod ctx;
mod number;

pub use ctx::LE;

/// Why something could not be read or written.
#[derive(Debug, Clone, Copy, PartialEq, Eq)]
pub enum Error {
    Incomplete,
    BadOffset(usize),
    BadInput { err: &'static str },
}

pub type Result<T> = core::result::Result<T, Error>;

/// A value that can be read from the start of some bytes.
pub trait TryRead<'a, Ctx = ()>: Sized {
    /// The value, and how many bytes it took.
    fn try_read(bytes: &'a [u8], ctx: Ctx) -> Result<(Self, usize)>;
}

/// A value that can be written to the start of some bytes.
pub trait TryWrite<Ctx = ()> {
    /// How many bytes were written.
    fn try_write(self, bytes: &mut [u8], ctx: Ctx) -> Result<usize>;
}

/// Reading and writing at an offset that moves along.
pub trait BytesExt<Ctx> {
    fn read<'a, T>(&'a self, offset: &mut usize) -> Result<T>
    where
        T: TryRead<'a, Ctx>,
        Ctx: Default,
    {
        self.read_with(offset, Ctx::default())
    }

    fn read_with<'a, T>(&'a self, offset: &mut usize, ctx: Ctx) -> Result<T>
    where
        T: TryRead<'a, Ctx>;

    fn write_with<T>(&mut self, offset: &mut usize, value: T, ctx: Ctx) -> Result<()>
    where
        T: TryWrite<Ctx>;
}

impl<Ctx> BytesExt<Ctx> for [u8] {
    fn read_with<'a, T>(&'a self, offset: &mut usize, ctx: Ctx) -> Result<T>
    where
        T: TryRead<'a, Ctx>,
    {
        let rest = self.get(*offset..).ok_or(Error::BadOffset(*offset))?;
        let (value, size) = T::try_read(rest, ctx)?;
        *offset += size;
        Ok(value)
    }

    fn write_with<T>(&mut self, offset: &mut usize, value: T, ctx: Ctx) -> Result<()>
    where
        T: TryWrite<Ctx>,
    {
        let rest = self.get_mut(*offset..).ok_or(Error::BadOffset(*offset))?;
        *offset += value.try_write(rest, ctx)?;
        Ok(())
    }
}
