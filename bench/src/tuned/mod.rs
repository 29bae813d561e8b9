//! The same methods as the proved calls', in safe Rust tuned as well as we could: the same passes,
//! sweeps and rounds over the same opened bytes.

pub mod compare;
pub mod form;
pub mod judge;
pub mod open;
pub mod record;
pub mod word;
