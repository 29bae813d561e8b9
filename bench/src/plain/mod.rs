//! The same work in plain safe Rust, written straightforwardly.

pub mod open;
pub mod record;
pub mod word;
