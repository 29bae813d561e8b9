//! The comparison by forms: both are written, and their bytes compared.

use super::form::form;
use crate::opened::Opened;
use crate::proved::LONGEST;

/// The number of no, the table that it is about, the place.
pub type PairNo = (u8, usize, usize);

/// A text's form, with the tables and the room that the caller keeps.
pub struct Desk {
    table: Opened,
    room: Vec<u8>,
}

impl Desk {
    pub fn new() -> Desk {
        Desk {
            table: Opened::blank(),
            room: vec![0; LONGEST],
        }
    }

    fn form(&mut self, text: &[u8]) -> Result<&[u8], (u8, usize)> {
        let length = form(text, &mut self.table, &mut self.room)?;
        Ok(&self.room[..length])
    }
}

/// The first index where two symbol lists differ or only one of them has ended, by their lines.
fn first_difference(one: &[u8], symbols: usize, other: &[u8], others: usize) -> Option<usize> {
    let both = symbols.min(others);
    let differs = one
        .chunks_exact(5)
        .zip(other.chunks_exact(5))
        .take(both)
        .position(|(a, b)| a[3] != b[3]);
    differs.or((symbols != others).then_some(both))
}

pub fn compare(first: &[u8], second: &[u8], desks: &mut (Desk, Desk)) -> Result<bool, PairNo> {
    let one = desks
        .0
        .form(first)
        .map_err(|(number, place)| (number, 1, place))?
        .len();
    let other = desks
        .1
        .form(second)
        .map_err(|(number, place)| (number, 2, place))?
        .len();
    let (one, other) = (&desks.0.room[..one], &desks.1.room[..other]);
    let symbols = |desk: &Desk| desk.table.head().symbols;
    match first_difference(one, symbols(&desks.0), other, symbols(&desks.1)) {
        Some(index) => Err((19, 0, index)),
        None => Ok(one == other),
    }
}
