//! Ours: the functions of libhingedrift.a, which a C program (driver/driver.c)
//! calls for us over a pipe. The archive is for x86-64, and this runs on any
//! machine.
//!
//! Calls are made many at a time. So a call is not answered when it is made:
//! it comes with the answer that it is to have, and is held to it later.

mod answer;
mod call;
mod driver;
mod held;
mod readers;
mod waiting;

pub use answer::Answer;
pub use call::Call;
pub use driver::Driver;
pub use held::{Held, lent_list, replied, served};
pub use readers::{Reader, Row, value_number, wrong_rows};
pub use waiting::{Asked, Server, Waiting};

/// What stands where a function is to write, and around what it is lent.
const BEFORE: u8 = 0xa5;

/// The bytes of a wall.
const WALL: usize = 16;

/// How many of each a call and its answer have on the pipe.
const ARGUMENTS: usize = 6;
const RESULTS: usize = 5;
const BUFFERS: usize = 4;

/// These, and defaults behind them.
fn padded<T: Default, const N: usize>(some: impl IntoIterator<Item = T>) -> [T; N] {
    let mut some = some.into_iter();
    let all = std::array::from_fn(|_| some.next().unwrap_or_default());
    assert!(some.next().is_none(), "there are no more than {N}");
    all
}
