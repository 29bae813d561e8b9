//! The comparison without forms: pairs of states that must have the same words are joined,
//! beginning with the initial states, until two rules differ or no pair is left (Hopcroft and
//! Karp). At most 127 pairs are joined.

use super::form::{rows_at, same_words};
use super::judge::judge_table;
use super::rows::{read, starts_of, No, Rows};

/// The number of no, the table that it is about, the place.
pub type PairNo = (u8, usize, usize);

struct Judged {
    table: Rows,
    starts: [u16; 65],
}

fn judged(text: &[u8]) -> Result<Judged, No> {
    let table = read(text)?;
    let starts = starts_of(&table.list);
    judge_table(&table, &starts)?;
    Ok(Judged { table, starts })
}

/// The first index where the symbol lists differ or only one of them has ended.
fn first_difference(one: &Rows, other: &Rows) -> Option<usize> {
    let both = one.symbols.min(other.symbols);
    let differs = (0..both).find(|&symbol| one.arity(symbol) != other.arity(symbol));
    differs.or((one.symbols != other.symbols).then_some(both))
}

/// States that must have the same words: the first table's are 0 to 63, the second's 64 to 127.
struct Joined([u8; 128]);

impl Joined {
    fn root(&mut self, state: u8) -> u8 {
        let mut at = state;
        while self.0[usize::from(at & 127)] != at {
            let above = self.0[usize::from(at & 127)];
            self.0[usize::from(at & 127)] = self.0[usize::from(above & 127)];
            at = above;
        }
        at
    }

    /// Joins two states, and tells whether they were apart.
    fn join(&mut self, one: u8, other: u8) -> bool {
        let (one, other) = (self.root(one), self.root(other));
        self.0[usize::from(other & 127)] = one;
        one != other
    }
}

fn same(one: &Judged, other: &Judged) -> bool {
    let (a, b) = (&one.table, &other.table);
    if a.word(a.before) != b.word(b.before) || a.word(a.after) != b.word(b.after) {
        return false;
    }
    let mut joined = Joined(std::array::from_fn(|state| state as u8));
    let mut waiting = Vec::with_capacity(128);
    joined.join(a.start as u8, b.start as u8 + 64);
    waiting.push((a.start as u8, b.start as u8));
    while let Some((p, q)) = waiting.pop() {
        let (some, others) = (
            rows_at(a, &one.starts, usize::from(p)),
            rows_at(b, &other.starts, usize::from(q)),
        );
        if some.len() != others.len() {
            return false;
        }
        for (x, y) in some.iter().zip(others) {
            if !same_words(a, x, b, y) {
                return false;
            }
            let pairs = x.children().iter().zip(y.children());
            waiting.extend(
                pairs
                    .filter(|(&r, &s)| joined.join(r, s + 64))
                    .map(|(&r, &s)| (r, s)),
            );
        }
    }
    true
}

pub fn compare(first: &[u8], second: &[u8]) -> Result<bool, PairNo> {
    let one = judged(first).map_err(|(number, place)| (number, 1, place))?;
    let other = judged(second).map_err(|(number, place)| (number, 2, place))?;
    match first_difference(&one.table, &other.table) {
        Some(index) => Err((19, 0, index)),
        None => Ok(same(&one, &other)),
    }
}
