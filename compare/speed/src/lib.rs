//! What is timed and how, but for the calls of the archive, which only the
//! program makes: everything here runs on any machine.

mod agree;
mod arguments;
mod calls;
mod facts;
mod frames;
mod machine;
mod measured;
mod old;
mod page;
mod row;
mod rows;
mod side;
mod spread;
#[cfg(test)]
mod stand_in;
mod stores;
mod text;
mod timing;
mod turns;

pub use agree::agree;
pub use arguments::{Arguments, Which};
pub use calls::{Ask, Calls, ROOM, Report, Request};
pub use facts::Facts;
pub use measured::Measured;
pub use old::Old;
pub use page::{Built, UNTIMED, page, table};
pub use row::{Over, Row};
pub use rows::{named, rows};
pub use side::{Said, Side};
pub use text::text;
pub use timing::timed;
pub use turns::lines as turn_lines;
