//! The judgement by sweeps over the rows of the opened bytes until nothing rises. The first one
//! goes up; the others go down and up by turns.

use super::open::open;
use crate::opened::{spot, Head, Opened, FRAMES};

/// A number of no and its place.
pub type No = (u8, usize);

/// Where the rows stand.
type Places = [u16];

/// What is known of one end of a state's words: 0 for no word yet, 1 to 256 for one letter and one
/// more, 257 for several; and 1,024 more with the empty word.
pub type Ends = u16;
pub const SEVERAL: Ends = 257;
pub const EMPTY: Ends = 1024;

/// The byte at `at`; no opened table has bytes beyond 16,383.
#[inline(always)]
pub fn byte(frames: &[u8; FRAMES], at: usize) -> usize {
    usize::from(frames[at & 16383])
}

#[inline(always)]
pub fn bit(state: usize) -> u64 {
    1 << (state & 63)
}

/// How many children the row at `at` has.
#[inline(always)]
fn kids_at(frames: &[u8; FRAMES], at: usize) -> u8 {
    frames[2 * (byte(frames, at + 2) & 63) + 1]
}

/// Where what follows the word at `at` stands.
#[inline(always)]
fn past(frames: &[u8; FRAMES], at: usize) -> usize {
    at + 1 + byte(frames, at)
}

/// The rows' places.
fn places(table: &Opened) -> Vec<u16> {
    let rules = table.rules();
    let place = |rule| spot(rules, rule) as u16 - 3;
    (0..table.head().rules).map(place).collect()
}

/// The states that are reached.
fn reached(frames: &[u8; FRAMES], start: usize, places: &Places) -> u64 {
    let mut marks = bit(start);
    for &at in places {
        mark(frames, at.into(), &mut marks);
    }
    if marks != bit(start) {
        sweep_by_turns(places, |at| mark(frames, at, &mut marks));
    }
    marks
}

/// Marks the children of the row at `at` if its state is marked: whether that marked a state more.
#[inline(always)]
fn mark(frames: &[u8; FRAMES], at: usize, marks: &mut u64) -> bool {
    let old = *marks;
    if old & bit(byte(frames, at + 1)) == 0 {
        return false;
    }
    let mut next = past(frames, at + 3);
    for _ in 0..kids_at(frames, at) {
        *marks |= bit(byte(frames, next));
        next = past(frames, next + 1);
    }
    *marks != old
}

/// Goes over the rows down and up by turns, until a sweep changes nothing.
#[inline(always)]
fn sweep_by_turns(places: &Places, mut visit: impl FnMut(usize) -> bool) {
    loop {
        if !places
            .iter()
            .rev()
            .fold(false, |risen, &at| visit(at.into()) | risen)
        {
            return;
        }
        if !places
            .iter()
            .fold(false, |risen, &at| visit(at.into()) | risen)
        {
            return;
        }
    }
}

#[inline(always)]
pub fn both(a: Ends, b: Ends) -> Ends {
    if a == b || b == 0 {
        a
    } else if a == 0 {
        b
    } else {
        SEVERAL
    }
}

#[inline(always)]
pub fn joined(x: Ends, y: Ends) -> Ends {
    both(x & (EMPTY - 1), y & (EMPTY - 1)) | (x | y) & EMPTY
}

#[inline(always)]
pub fn letter(frames: &[u8; FRAMES], at: usize) -> Ends {
    Ends::from(frames[at & 16383]) + 1
}

/// The summary of the word at `at`, seen from a side.
#[inline(always)]
fn alone<const LEFT: bool>(frames: &[u8; FRAMES], at: usize, length: usize) -> Ends {
    match length {
        0 => EMPTY,
        _ if LEFT => letter(frames, at + 1),
        _ => letter(frames, at + length),
    }
}

/// The summary of all words x y, seen from a side; both have words.
#[inline(always)]
fn next_to<const LEFT: bool>(x: Ends, y: Ends) -> Ends {
    let (near, far) = if LEFT { (x, y) } else { (y, x) };
    if near < EMPTY {
        near
    } else {
        both(near & (EMPTY - 1), far & (EMPTY - 1)) | far & EMPTY
    }
}

/// The summary of the row whose first word stands at `at`: 0 where a child has no word yet.
#[inline(always)]
fn value<const LEFT: bool>(
    frames: &[u8; FRAMES],
    kids: u8,
    mut at: usize,
    values: &[Ends; 64],
) -> Ends {
    let mut length = byte(frames, at);
    let mut x = alone::<LEFT>(frames, at, length);
    for _ in 0..kids {
        let y = values[byte(frames, at + length + 1) & 63];
        if y == 0 {
            return 0;
        }
        at += length + 2;
        length = byte(frames, at);
        x = next_to::<LEFT>(x, y);
        x = if length == 0 {
            x
        } else {
            next_to::<LEFT>(x, alone::<LEFT>(frames, at, length))
        };
    }
    x
}

/// Joins the summary of the row at `at` into its state's, and tells whether that changed it. Several
/// letters stay several, here and in every row that shows them, and no check asks for more.
#[inline(always)]
fn add<const LEFT: bool>(frames: &[u8; FRAMES], at: usize, values: &mut [Ends; 64]) -> bool {
    let state = byte(frames, at + 1) & 63;
    let old = values[state];
    if old & (EMPTY - 1) == SEVERAL {
        return false;
    }
    let new = joined(
        old,
        value::<LEFT>(frames, kids_at(frames, at), at + 3, values),
    );
    values[state] = new;
    new != old
}

/// The ends of all states on one side.
#[inline(never)]
fn ends<const LEFT: bool>(frames: &[u8; FRAMES], places: &Places) -> [Ends; 64] {
    let mut values = [0; 64];
    sweep_by_turns(places, |at| add::<LEFT>(frames, at, &mut values));
    values
}

/// Number `number` at the least state that does not pass.
pub fn pass(number: u8, states: usize, passes: impl Fn(usize) -> bool) -> Result<(), No> {
    match (0..states).find(|&state| !passes(state)) {
        Some(state) => Err((number, state)),
        None => Ok(()),
    }
}

/// Whether the word at `at` can be pushed to the left of a state with these left ends.
pub fn stuck(frames: &[u8; FRAMES], at: usize, x: Ends) -> bool {
    let letters = x & (EMPTY - 1);
    byte(frames, at) != 0 && x >= EMPTY && (letters == 0 || letters == letter(frames, at + 1))
}

/// Whether a word of the row at `at` can be pushed to the left of the state before it.
fn late(frames: &[u8; FRAMES], at: usize, left: &[Ends; 64]) -> bool {
    let mut word = at + 3;
    (0..kids_at(frames, at)).any(|_| {
        word = past(frames, word) + 1;
        stuck(frames, word, left[byte(frames, word - 1) & 63])
    })
}

/// The first row that is late; only states with the empty word and at most one letter let a word
/// through.
fn least_late(frames: &[u8; FRAMES], places: &Places, left: &[Ends; 64]) -> Option<usize> {
    if !left.iter().any(|&x| x >= EMPTY && x != SEVERAL + EMPTY) {
        return None;
    }
    places.iter().position(|&at| late(frames, at.into(), left))
}

/// The judgement of an opened table.
pub fn judge_opened(table: &Opened) -> Result<(), No> {
    let Head {
        states,
        start,
        after,
        ..
    } = table.head();
    let places = places(table);
    let marks = reached(&table.frames, start, &places);
    let left = ends::<true>(&table.frames, &places);
    let right = ends::<false>(&table.frames, &places);
    pass(13, states, |state| marks & bit(state) != 0)?;
    pass(14, states, |state| left[state & 63] != 0)?;
    pass(15, states, |state| left[state & 63] >= SEVERAL)?;
    pass(16, states, |state| right[state & 63] >= SEVERAL)?;
    if stuck(&table.frames, after, left[start & 63]) {
        return Err((17, 0));
    }
    match least_late(&table.frames, &places, &left) {
        Some(row) => Err((18, row)),
        None => Ok(()),
    }
}

/// The judgement of a text, which is opened into a table that the caller keeps.
pub fn judge(text: &[u8], table: &mut Opened) -> Result<(), No> {
    open(text, table)?;
    judge_opened(table)
}
