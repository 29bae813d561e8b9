//! The comparison of two tables.

use std::fmt;

use crate::form::form_of;
use crate::judge::read_earliest;
use crate::refusal::{Refusal, SYMBOL_LISTS};

#[derive(Clone, Copy, Debug, PartialEq, Eq)]
pub enum Comparison {
    Same,
    Different,
}

/// A no about two tables: also which table it is about, 0 for both.
#[derive(Clone, Copy, Debug, PartialEq, Eq)]
pub struct PairRefusal {
    pub table: u8,
    pub refusal: Refusal,
}

impl fmt::Display for Comparison {
    fn fmt(&self, out: &mut fmt::Formatter<'_>) -> fmt::Result {
        out.write_str(match self {
            Comparison::Same => "same",
            Comparison::Different => "different",
        })
    }
}

impl fmt::Display for PairRefusal {
    fn fmt(&self, out: &mut fmt::Formatter<'_>) -> fmt::Result {
        let Refusal { number, place } = self.refusal;
        write!(out, "no {} {} {}", self.table, number, place)
    }
}

/// The public call: whether two earliest tables with one symbol list have the
/// same word on every tree.
pub fn compare(first: &[u8], second: &[u8]) -> Result<Comparison, PairRefusal> {
    let about = |table| move |refusal| PairRefusal { table, refusal };
    let first = read_earliest(first).map_err(about(1))?;
    let second = read_earliest(second).map_err(about(2))?;
    if let Some(index) = first_difference(&first.arities, &second.arities) {
        return Err(about(0)(Refusal::new(SYMBOL_LISTS, index)));
    }
    if form_of(&first) == form_of(&second) {
        Ok(Comparison::Same)
    } else {
        Ok(Comparison::Different)
    }
}

/// The first index where the lists differ or only one of them has ended.
fn first_difference(first: &[u8], second: &[u8]) -> Option<usize> {
    let longest = first.len().max(second.len());
    (0..longest).find(|&index| first.get(index) != second.get(index))
}
