//! The commands, step by step, and what a call says back.

mod answer;
mod configuration;
mod configure;
mod default_response;
mod discover;
mod read;
mod reply;
mod report;
mod serve;
mod turn;
mod unsupported;
mod write;

pub use answer::{Answer, Refusal};
pub use report::report;
pub use serve::{serve, serve_lent};
pub use turn::{Turn, Turned};
pub use unsupported::unsupported_cluster;
