//! Generated cases: table texts, tables with trees, tables with records, pairs
//! of tables. A case is settled by its kind, the seed and its index. Recipes are
//! taken in turn, so that some hundred cases have used every recipe.

pub mod damage;
pub mod late;
pub mod pairs;
pub mod records;
pub mod sample;
pub mod tables;
pub mod trees;

use crate::refusal::Refusal;

/// What a generated table text must answer, as far as its making tells.
#[derive(Clone, Copy, Debug, PartialEq, Eq)]
pub enum Expected {
    Anything,
    Earliest,
    Number(u8),
    Exactly(Refusal),
}

impl Expected {
    pub fn refused(number: u8, place: usize) -> Expected {
        Expected::Exactly(Refusal::new(number, place))
    }

    pub fn allows(self, judgement: Result<(), Refusal>) -> bool {
        match (self, judgement) {
            (Expected::Anything, _) => true,
            (Expected::Earliest, answer) => answer.is_ok(),
            (Expected::Number(number), Err(refusal)) => refusal.number == number,
            (Expected::Exactly(expected), Err(refusal)) => refusal == expected,
            (_, Ok(())) => false,
        }
    }
}

/// A generated table text.
pub struct TableCase {
    pub text: Vec<u8>,
    pub expected: Expected,
}
