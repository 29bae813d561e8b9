//! The judgement by sets of states in a word of 64 bits. That every state has a word is settled
//! first; then which have the empty word; then each side's letters go along the edges between
//! states.

use super::rows::{read, starts_of, No, Row, Rows};

/// Which letters are at one end of a state's words: none, one (the letter and one more), or
/// several.
type Letters = u16;
const SEVERAL: Letters = 257;

fn both(a: Letters, b: Letters) -> Letters {
    match (a, b) {
        (0, _) => b,
        (_, 0) => a,
        _ if a == b => a,
        _ => SEVERAL,
    }
}

fn bit(state: u8) -> u64 {
    1 << (state & 63)
}

/// The states in a set, from the highest down.
fn highest(set: u64) -> usize {
    63 - set.leading_zeros() as usize
}

fn all(states: usize) -> u64 {
    u64::MAX >> (64 - states)
}

/// Number `number` at the least state that is not in the set.
fn refuse_outside(number: u8, set: u64, states: usize) -> Result<(), No> {
    match !set & all(states) {
        0 => Ok(()),
        missing => Err((number, missing.trailing_zeros() as usize)),
    }
}

/// What one pass over the rows finds: each row's children, and for each state its children and its
/// parents.
struct Links {
    kids: Vec<u64>,
    below: [u64; 64],
    above: [u64; 64],
}

fn links(rows: &[Row]) -> Links {
    let mut links = Links {
        kids: Vec::with_capacity(rows.len()),
        below: [0; 64],
        above: [0; 64],
    };
    for row in rows {
        let mut kids = 0;
        for &kid in row.children() {
            kids |= bit(kid);
            links.above[usize::from(kid & 63)] |= bit(row.state);
        }
        links.below[usize::from(row.state & 63)] |= kids;
        links.kids.push(kids);
    }
    links
}

fn reached(start: usize, below: &[u64; 64]) -> u64 {
    let (mut seen, mut waiting) = (1 << start, 1u64 << start);
    while waiting != 0 {
        let state = highest(waiting);
        waiting &= !(1 << state);
        waiting |= below[state] & !seen;
        seen |= below[state];
    }
    seen
}

/// The states that have a rule with all children in the set, as a least fixpoint over the rows that
/// `counts` names.
fn closed(links: &Links, starts: &[u16; 65], states: usize, counts: impl Fn(usize) -> bool) -> u64 {
    let (mut set, mut waiting) = (0u64, all(states));
    while waiting != 0 {
        let state = highest(waiting);
        waiting &= !(1 << state);
        let mut rows = usize::from(starts[state])..usize::from(starts[state + 1]);
        if rows.any(|row| links.kids[row] & !set == 0 && counts(row)) {
            set |= 1 << state;
            waiting |= links.above[state] & !set;
        }
    }
    set
}

/// One side's own letters of each state, and the states whose letters it shares.
struct Side {
    letters: [Letters; 64],
    edges: [u64; 64],
}

impl Side {
    /// Lets the letters go along the edges until nothing changes.
    fn spread(mut self, states: usize) -> [Letters; 64] {
        let mut users = [0u64; 64];
        for (state, &edges) in self.edges.iter().enumerate().take(states) {
            let mut left = edges;
            while left != 0 {
                users[left.trailing_zeros() as usize] |= 1 << state;
                left &= left - 1;
            }
        }
        let mut waiting = all(states);
        while waiting != 0 {
            let state = highest(waiting);
            waiting &= !(1 << state);
            let mine = self.letters[state];
            let mut left = users[state];
            while mine != 0 && left != 0 {
                let user = left.trailing_zeros() as usize;
                left &= left - 1;
                let joined = both(self.letters[user], mine);
                if joined != self.letters[user] {
                    self.letters[user] = joined;
                    waiting |= 1 << user;
                }
            }
        }
        self.letters
    }
}

fn first_of(frames: &[u8], at: u16) -> Letters {
    let at = usize::from(at);
    if frames[at] == 0 {
        0
    } else {
        Letters::from(frames[at + 1]) + 1
    }
}

fn last_of(frames: &[u8], at: u16) -> Letters {
    let at = usize::from(at);
    let length = usize::from(frames[at]);
    if length == 0 {
        0
    } else {
        Letters::from(frames[at + length]) + 1
    }
}

fn fronts(frames: &[u8], rows: &[Row], empty: u64) -> Side {
    let mut side = Side {
        letters: [0; 64],
        edges: [0; 64],
    };
    for row in rows {
        let state = usize::from(row.state & 63);
        let mut letter = first_of(frames, row.word[0]);
        for (&kid, &word) in row.children().iter().zip(&row.word[1..]) {
            if letter != 0 {
                break;
            }
            side.edges[state] |= bit(kid);
            if empty & bit(kid) == 0 {
                break;
            }
            letter = first_of(frames, word);
        }
        side.letters[state] = both(side.letters[state], letter);
    }
    side
}

fn backs(frames: &[u8], rows: &[Row], empty: u64) -> Side {
    let mut side = Side {
        letters: [0; 64],
        edges: [0; 64],
    };
    for row in rows {
        let state = usize::from(row.state & 63);
        let kids = row.children();
        let mut letter = last_of(frames, row.word[kids.len()]);
        for (&kid, &word) in kids.iter().zip(&row.word).rev() {
            if letter != 0 {
                break;
            }
            side.edges[state] |= bit(kid);
            if empty & bit(kid) == 0 {
                break;
            }
            letter = last_of(frames, word);
        }
        side.letters[state] = both(side.letters[state], letter);
    }
    side
}

/// The states with the empty word or several letters.
fn open_ended(empty: u64, letters: &[Letters; 64]) -> u64 {
    letters
        .iter()
        .enumerate()
        .fold(empty, |set, (state, &each)| {
            set | (u64::from(each == SEVERAL) << state)
        })
}

/// Whether the word at `at` can be pushed to the left of a state with the empty word and these
/// letters.
fn pushes(frames: &[u8], at: u16, letters: Letters) -> bool {
    let first = first_of(frames, at);
    first != 0 && both(letters, first) != SEVERAL
}

fn rule_is_late(frames: &[u8], row: &Row, letters: &[Letters; 64]) -> bool {
    row.children()
        .iter()
        .zip(&row.word[1..])
        .any(|(&kid, &word)| pushes(frames, word, letters[usize::from(kid & 63)]))
}

/// The judgement of rows: their frames, the number of states, the initial state and the place of
/// the word behind it.
fn judge_rows(
    frames: &[u8],
    rows: &[Row],
    starts: &[u16; 65],
    states: usize,
    start: usize,
    after: usize,
) -> Result<(), No> {
    let links = links(rows);
    refuse_outside(13, reached(start, &links.below), states)?;
    refuse_outside(14, closed(&links, starts, states, |_| true), states)?;
    let quiet = |row: usize| {
        rows[row]
            .words()
            .iter()
            .all(|&word| frames[usize::from(word)] == 0)
    };
    let empty = closed(&links, starts, states, quiet);
    let letters = fronts(frames, rows, empty).spread(states);
    refuse_outside(15, open_ended(empty, &letters), states)?;
    refuse_outside(
        16,
        open_ended(empty, &backs(frames, rows, empty).spread(states)),
        states,
    )?;
    if pushes(frames, after as u16, letters[start]) {
        return Err((17, 0));
    }
    let narrow = (0..states).fold(0, |set, state| {
        set | (u64::from(letters[state] != SEVERAL) << state)
    });
    match (0..rows.len())
        .find(|&row| links.kids[row] & narrow != 0 && rule_is_late(frames, &rows[row], &letters))
    {
        Some(row) => Err((18, row)),
        None => Ok(()),
    }
}

pub fn judge_table(table: &Rows, starts: &[u16; 65]) -> Result<(), No> {
    judge_rows(
        &table.frames,
        &table.list,
        starts,
        table.states,
        table.start,
        table.after,
    )
}

pub fn judge(text: &[u8]) -> Result<(), No> {
    let table = read(text)?;
    judge_table(&table, &starts_of(&table.list))
}
