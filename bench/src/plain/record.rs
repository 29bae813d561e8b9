//! The calls on records: the stream is read, its image built, and its shape and word found as a
//! tree's.

use super::word::{check_shape, find, Refused};
use crate::opened::Opened;
use fadurinko_second::limits::MAX_TREE;
use fadurinko_second::refusal::put_into_room;
use fadurinko_second::stream::CLOSE;

/// The last symbol of a list for records, or 20.
pub fn last_symbol(table: &Opened) -> Result<u8, Refused> {
    let last = table.head().symbols - 1;
    for symbol in 0..=last {
        let due = if symbol < last { 2 } else { 0 };
        if table.frames[2 * symbol + 1] != due {
            return Err((20, symbol));
        }
    }
    Ok(last as u8)
}

/// Whether a stream is a record's, or 21, 22 or 23.
fn check_stream(last: u8, stream: &[u8]) -> Result<(), Refused> {
    let mut open = 0;
    for (place, &byte) in stream.iter().enumerate() {
        if byte == CLOSE {
            if open == 0 {
                return Err((22, place));
            }
            open -= 1;
        } else if byte >= last {
            return Err((21, place));
        } else if open == 0 && place > 0 {
            return Err((23, place));
        } else {
            open += 1;
        }
    }
    if open > 0 || stream.is_empty() {
        return Err((22, stream.len()));
    }
    Ok(())
}

/// The image of a stream's record as tree bytes.
fn image(table: &Opened, stream: &[u8]) -> Result<Vec<u8>, Refused> {
    let last = last_symbol(table)?;
    check_stream(last, stream)?;
    if stream.len() >= MAX_TREE {
        return Err((6, 0));
    }
    let mut tree = Vec::with_capacity(stream.len() + 1);
    for &byte in stream {
        tree.push(if byte == CLOSE { last } else { byte });
    }
    tree.push(last);
    Ok(tree)
}

/// The word of a record: length and terms.
pub fn word(
    table: &Opened,
    stream: &[u8],
    out: &mut Vec<u8>,
    room: &mut [u8],
) -> Result<(usize, usize), Refused> {
    find(table, &image(table, stream)?, out, room)
}

fn put(output: &[u8], room: &mut [u8]) -> Result<usize, Refused> {
    put_into_room(output, room).map_err(|no| (no.number, no.place))?;
    Ok(output.len())
}

/// The tree of a record: its length.
pub fn tree(table: &Opened, stream: &[u8], room: &mut [u8]) -> Result<usize, Refused> {
    let tree = image(table, stream)?;
    check_shape(table, &tree)?;
    put(&tree, room)
}

/// Where the tree that stands at `at` ends, over a list for records; all of it is there.
fn behind(last: u8, tree: &[u8], at: usize) -> usize {
    let mut due = 1;
    let mut at = at;
    while due > 0 {
        due = if tree[at] == last { due - 1 } else { due + 1 };
        at += 1;
    }
    at
}

/// The record of a tree: its length.
pub fn record(table: &Opened, tree: &[u8], room: &mut [u8]) -> Result<usize, Refused> {
    let last = last_symbol(table)?;
    check_shape(table, tree)?;
    if tree.len() == 1 {
        return Err((24, 0));
    }
    let second = behind(last, tree, 1);
    if tree[second] != last {
        return Err((24, second));
    }
    let mut stream = Vec::with_capacity(second);
    for &symbol in &tree[..second] {
        stream.push(if symbol == last { CLOSE } else { symbol });
    }
    put(&stream, room)
}
