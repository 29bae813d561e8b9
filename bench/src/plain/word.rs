//! The second program's walk on the bytes that the proved `open` gives: the shape, then a recursive
//! walk that pushes onto a vector.

use crate::opened::{kids_in, rule_in, spot, Opened};
use fadurinko_second::limits::{MAX_DEPTH, MAX_TREE};
use fadurinko_second::refusal::put_into_room;

/// The number of no and the place.
pub type Refused = (u8, usize);

/// A rule of the opened table: where its bytes stand and how many children it has.
struct Rule {
    at: usize,
    kids: usize,
}

fn arity(table: &Opened, symbol: u8) -> Option<u8> {
    let symbol = usize::from(symbol);
    (symbol < table.head().symbols).then(|| table.frames[2 * symbol + 1])
}

fn rule(table: &Opened, state: u8, symbol: u8) -> Option<Rule> {
    let kept = table.row(usize::from(state))[usize::from(symbol)];
    (kept != 0).then(|| Rule {
        at: spot(table.rules(), rule_in(kept)),
        kids: kids_in(kept),
    })
}

fn stretch(table: &Opened, at: usize) -> &[u8] {
    let length = usize::from(table.frames[at]);
    &table.frames[at + 1..at + 1 + length]
}

pub fn check_shape(table: &Opened, tree: &[u8]) -> Result<(), Refused> {
    if tree.is_empty() || tree.len() > MAX_TREE {
        return Err((6, 0));
    }
    let mut due_at_level: Vec<u8> = vec![1];
    for (place, &symbol) in tree.iter().enumerate() {
        let depth = due_at_level.len();
        let Some(due) = due_at_level.last_mut() else {
            return Err((11, place));
        };
        let Some(arity) = arity(table, symbol) else {
            return Err((7, place));
        };
        if depth > MAX_DEPTH {
            return Err((10, place));
        }
        *due -= 1;
        due_at_level.push(arity);
        while due_at_level.last() == Some(&0) {
            due_at_level.pop();
        }
    }
    if due_at_level.is_empty() {
        Ok(())
    } else {
        Err((8, tree.len()))
    }
}

fn append_word(
    table: &Opened,
    state: u8,
    tree: &[u8],
    place: usize,
    out: &mut Vec<u8>,
) -> Result<usize, Refused> {
    let rule = rule(table, state, tree[place]).ok_or((9, place))?;
    let before = stretch(table, rule.at);
    out.extend_from_slice(before);
    let mut next = place + 1;
    let mut field = rule.at + 1 + before.len();
    for _ in 0..rule.kids {
        next = append_word(table, table.frames[field], tree, next, out)?;
        let after = stretch(table, field + 1);
        out.extend_from_slice(after);
        field += 2 + after.len();
    }
    Ok(next)
}

/// Puts the tree's word into the room, by way of `out` (its old content is dropped): length and
/// terms.
pub fn find(
    table: &Opened,
    tree: &[u8],
    out: &mut Vec<u8>,
    room: &mut [u8],
) -> Result<(usize, usize), Refused> {
    check_shape(table, tree)?;
    let head = table.head();
    out.clear();
    out.extend_from_slice(stretch(table, head.before));
    append_word(table, head.start as u8, tree, 0, out)?;
    out.extend_from_slice(stretch(table, head.after));
    put_into_room(out, room).map_err(|no| (no.number, no.place))?;
    let spaces = out.iter().filter(|&&letter| letter == b' ').count();
    Ok((out.len(), spaces + 1))
}
