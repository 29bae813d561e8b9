//! Rule tables (sequential tree-to-word transducers), written a second time
//! from the documents alone, so that the proved programs have something
//! independent to agree with. Clarity comes first here, speed second.

pub mod brute;
pub mod compare;
pub mod examples;
pub mod form;
pub mod gen;
pub mod hex;
pub mod image;
pub mod judge;
pub mod limits;
pub mod record;
pub mod refusal;
pub mod rng;
pub mod selftest;
pub mod stream;
pub mod table;
pub mod tree;
pub mod walk;
