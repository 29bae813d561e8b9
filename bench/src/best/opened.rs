//! The judgement of an opened table. Each row is summed up once: where its words stand and
//! which children it has. Then a state's rows are looked at again only when one of its children has
//! risen, by sets of states in a number of 64 bits.

use super::rows::No;
use crate::opened::{spot, Head, Opened, FIRSTS_FROM, FRAMES};
use crate::tuned::judge::{bit, both, byte, joined, letter, pass, stuck, Ends, EMPTY, SEVERAL};

/// A row: its children as a set, where its first and its last word stand, and its number of children.
struct Row {
    below: u64,
    at: u16,
    last: u16,
    kids: u8,
}

/// The row whose first word stands at `at`.
#[inline(always)]
fn row_at(frames: &[u8; FRAMES], at: usize) -> Row {
    let kids = frames[2 * (byte(frames, at - 1) & 63) + 1];
    let (mut last, mut below) = (at, 0);
    for _ in 0..kids {
        last += byte(frames, last) + 2;
        below |= bit(byte(frames, last - 1));
    }
    Row {
        below,
        at: at as u16,
        last: last as u16,
        kids,
    }
}

/// The rows, where each state's begin, and each state's children.
struct Summed {
    rows: Vec<Row>,
    starts: [u16; 65],
    below: [u64; 64],
}

impl Summed {
    #[inline(always)]
    fn rows_of(&self, state: usize) -> &[Row] {
        &self.rows[usize::from(self.starts[state])..usize::from(self.starts[state + 1])]
    }
}

fn summed(table: &Opened) -> Summed {
    let Head { states, rules, .. } = table.head();
    let mut summed = Summed {
        rows: Vec::with_capacity(rules),
        starts: [0; 65],
        below: [0; 64],
    };
    let row = |rule| row_at(&table.frames, spot(table.rules(), rule));
    summed.rows.extend((0..rules).map(row));
    for (start, &first) in summed.starts[..=states]
        .iter_mut()
        .zip(&table.numbers[FIRSTS_FROM..])
    {
        *start = first as u16;
    }
    for state in 0..states {
        let below = summed
            .rows_of(state)
            .iter()
            .fold(0, |set, row| set | row.below);
        summed.below[state] = below;
    }
    summed
}

/// The highest state of a set, and the others.
fn highest(set: u64) -> (usize, u64) {
    let state = 63 - set.leading_zeros() as usize;
    (state & 63, set & !bit(state))
}

fn reached(summed: &Summed, start: usize) -> u64 {
    let (mut seen, mut waiting) = (bit(start), bit(start));
    while waiting != 0 {
        let (state, others) = highest(waiting);
        waiting = others | summed.below[state] & !seen;
        seen |= summed.below[state];
    }
    seen
}

/// The left ends of a row whose children all have words.
#[inline(always)]
fn left_of(frames: &[u8; FRAMES], row: &Row, values: &[Ends; 64]) -> Ends {
    let mut at = usize::from(row.at);
    if frames[at & 16383] != 0 {
        return letter(frames, at + 1);
    }
    let mut letters = 0;
    for _ in 0..row.kids {
        let y = values[byte(frames, at + 1) & 63];
        letters = both(letters, y & (EMPTY - 1));
        if y < EMPTY {
            return letters;
        }
        at += 2;
        if frames[at & 16383] != 0 {
            return both(letters, letter(frames, at + 1));
        }
    }
    letters | EMPTY
}

/// The right ends of a row whose children all have words.
#[inline(always)]
fn right_of(frames: &[u8; FRAMES], row: &Row, values: &[Ends; 64]) -> Ends {
    let last = usize::from(row.last);
    let length = byte(frames, last);
    if length != 0 {
        return letter(frames, last + length);
    }
    let mut at = usize::from(row.at);
    let mut length = byte(frames, at);
    let mut x = if length == 0 {
        EMPTY
    } else {
        letter(frames, at + length)
    };
    for _ in 0..row.kids {
        let y = values[byte(frames, at + length + 1) & 63];
        x = if y < EMPTY {
            y
        } else {
            both(x & (EMPTY - 1), y & (EMPTY - 1)) | x & EMPTY
        };
        at += length + 2;
        length = byte(frames, at);
        if length != 0 {
            x = letter(frames, at + length);
        }
    }
    x
}

/// The ends of the states on one side, so far.
struct Known<'a, Side> {
    frames: &'a [u8; FRAMES],
    summed: &'a Summed,
    side: Side,
    values: [Ends; 64],
    worded: u64,
}

impl<Side: Fn(&[u8; FRAMES], &Row, &[Ends; 64]) -> Ends> Known<'_, Side> {
    /// Looks at the rows of a state, and gives the state as a set if that changed its ends. Several
    /// letters stay several, here and in every row that shows them, and no check asks for more.
    #[inline(always)]
    fn visit(&mut self, state: usize) -> u64 {
        let old = self.values[state];
        let new = self.summed.rows_of(state).iter().fold(old, |x, row| {
            if x & (EMPTY - 1) == SEVERAL || row.below & !self.worded != 0 {
                return x;
            }
            joined(x, (self.side)(self.frames, row, &self.values))
        });
        self.values[state] = new;
        self.worded |= u64::from(new != 0) << state;
        u64::from(new != old) << state
    }

    /// Visits the states in turn that have a child that has risen just before, and gives those that
    /// rose.
    #[inline(always)]
    fn go(&mut self, risen: u64, states: impl Iterator<Item = usize>) -> u64 {
        states.fold(0, |now, state| {
            if self.summed.below[state & 63] & (risen | now) == 0 {
                return now;
            }
            now | self.visit(state & 63)
        })
    }
}

/// The ends of all states on one side: down over all states, then up and down while something
/// rises.
#[inline(always)]
fn ends(
    frames: &[u8; FRAMES],
    summed: &Summed,
    states: usize,
    side: impl Fn(&[u8; FRAMES], &Row, &[Ends; 64]) -> Ends,
) -> [Ends; 64] {
    let (values, worded) = ([0; 64], 0);
    let mut known = Known {
        frames,
        summed,
        side,
        values,
        worded,
    };
    let mut risen = (0..states)
        .rev()
        .fold(0, |now, state| now | known.visit(state & 63));
    while risen != 0 {
        risen = known.go(risen, 0..states);
        risen = known.go(risen, (0..states).rev());
    }
    known.values
}

fn late(frames: &[u8; FRAMES], row: &Row, left: &[Ends; 64]) -> bool {
    let mut at = usize::from(row.at);
    (0..row.kids).any(|_| {
        at += byte(frames, at) + 2;
        stuck(frames, at, left[byte(frames, at - 1) & 63])
    })
}

/// The first row with a word that can be pushed to the left; only states with the empty word and at
/// most one letter let one through.
fn least_late(frames: &[u8; FRAMES], rows: &[Row], left: &[Ends; 64]) -> Option<usize> {
    let lets = |&x: &Ends| x >= EMPTY && x != SEVERAL + EMPTY;
    let loose = left
        .iter()
        .enumerate()
        .fold(0, |set, (state, x)| set | u64::from(lets(x)) << state);
    rows.iter()
        .position(|row| row.below & loose != 0 && late(frames, row, left))
}

pub fn judge_opened(table: &Opened) -> Result<(), No> {
    let Head {
        states,
        start,
        after,
        ..
    } = table.head();
    let summed = summed(table);
    let marks = reached(&summed, start);
    let left = ends(&table.frames, &summed, states, left_of);
    let right = ends(&table.frames, &summed, states, right_of);
    pass(13, states, |state| marks & bit(state) != 0)?;
    pass(14, states, |state| left[state & 63] != 0)?;
    pass(15, states, |state| left[state & 63] >= SEVERAL)?;
    pass(16, states, |state| right[state & 63] >= SEVERAL)?;
    if stuck(&table.frames, after, left[start & 63]) {
        return Err((17, 0));
    }
    match least_late(&table.frames, &summed.rows, &left) {
        Some(row) => Err((18, row)),
        None => Ok(()),
    }
}
