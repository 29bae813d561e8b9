//! The same answers by other methods: the fastest safe Rust that was found, whatever its shape.

pub mod compare;
pub mod form;
pub mod judge;
pub mod opened;
pub mod rows;
pub mod word;
