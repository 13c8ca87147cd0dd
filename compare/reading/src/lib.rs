//! Document 01, read once more and written down in Rust, to hold answers to:
//! as it stands with requests 1, 2, 3, 5 and 6 of document 02.
//! It calls nothing else: neither the Rust that is compared nor what replaces
//! it. It prefers the plainest form over speed.

mod body;
pub mod commands;
mod extent;
mod header;
mod number;
pub mod replies;
pub mod saved;
pub mod store;
pub mod table;
mod types;

pub use extent::{Extent, extent};
pub use header::{FrameType, Header, header};
pub use types::{Kind, change_width, fixed_size, is_analog, is_reportable_type, kind};
