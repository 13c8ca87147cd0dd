//! The Rust beside document 01's answer to the same frame, for every program
//! that compares frames.

pub mod sides;
