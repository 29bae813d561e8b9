//! The calls on records, fast: the stream is looked through by loops without a branch that depends on
//! whether a byte opens or closes, and spelled many bytes at a time. Anything unusual goes to the plain
//! calls.

use super::word::{self, Answer};
use crate::opened::{Head, Opened};
use crate::plain;
use crate::proved::LONGEST;
use fadurinko_second::limits::{MAX_DEPTH, MAX_SYMBOLS};
use fadurinko_second::stream::CLOSE;
use std::hint::select_unpredictable;

/// A number of no and its place.
type No = (u8, usize);

/// The frames of as many labels as there can be.
const LABELS: [u8; 2 * MAX_SYMBOLS] = labels();

const fn labels() -> [u8; 2 * MAX_SYMBOLS] {
    let mut frames = [1; 2 * MAX_SYMBOLS];
    let mut symbol = 0;
    while symbol < MAX_SYMBOLS {
        frames[2 * symbol + 1] = 2;
        symbol += 1;
    }
    frames
}

/// The last symbol of a list for records.
#[inline(always)]
fn last_symbol(table: &Opened) -> Result<u8, No> {
    let Head { symbols, .. } = table.head();
    let last = symbols.wrapping_sub(1) % MAX_SYMBOLS;
    if table.frames[..2 * last] == LABELS[..2 * last] && table.frames[2 * last + 1] == 0 {
        return Ok(last as u8);
    }
    plain::record::last_symbol(table)
}

/// Whether bytes are a record's stream, in which `close` closes. `end` is where all is closed if
/// closes alone come: a label puts it two further.
#[inline(always)]
fn is_record(bytes: &[u8], last: u8, close: u8) -> bool {
    let Some(&first) = bytes.first() else {
        return false;
    };
    let (mut end, mut labels) = (2, 1);
    for (place, &byte) in bytes.iter().enumerate().skip(1) {
        if place == end {
            return false;
        }
        end = if byte == close { end } else { end + 2 };
        labels += usize::from(byte < last);
    }
    first < last && end == bytes.len() && end == 2 * labels
}

/// Whether a record's image has at most 64 levels; `bytes` are all but its last symbol, with `leaf` for
/// each leaf. Elements make at most one level more than they are, so few of them always fit.
#[inline(always)]
fn fits(bytes: &[u8], leaf: u8) -> bool {
    if bytes.len() / 2 < MAX_DEPTH {
        return true;
    }
    let mut waiting = [0u32; 256];
    let mut top: u8 = 1;
    let mut level: u32 = 1;
    for &byte in bytes {
        if level > MAX_DEPTH as u32 {
            return false;
        }
        let (before, behind) = (top.wrapping_sub(1), top.wrapping_add(1));
        let below = waiting[usize::from(before)];
        waiting[usize::from(top)] = level + 1;
        let is_leaf = byte == leaf;
        level = select_unpredictable(is_leaf, below, level + 1);
        top = select_unpredictable(is_leaf, before, behind);
    }
    true
}

/// Whether bytes are all but the last symbol of a record's image, with `close` for each leaf.
#[inline(always)]
fn is_image(bytes: &[u8], last: u8, close: u8) -> bool {
    bytes.len() < LONGEST && is_record(bytes, last, close) && fits(bytes, close)
}

/// Puts bytes into a place, with `new` for each `old`.
#[inline(always)]
fn put_replaced(bytes: &[u8], old: u8, new: u8, place: &mut [u8]) {
    for (to, &byte) in place.iter_mut().zip(bytes) {
        *to = if byte == old { new } else { byte };
    }
}

/// Puts the image of a stream's record into a place that is one byte longer.
#[inline(always)]
fn put_image(stream: &[u8], last: u8, place: &mut [u8]) {
    put_replaced(stream, CLOSE, last, place);
    place[stream.len()] = last;
}

/// The word of a record: length and terms.
pub fn word(
    table: &Opened,
    stream: &[u8],
    (tree, plan): (&mut [u8; LONGEST], &mut [u32; LONGEST]),
    room: &mut [u8],
) -> Answer {
    let last = last_symbol(table)?;
    if stream.len() >= LONGEST || !is_record(stream, last, CLOSE) {
        return plain::record::word(table, stream, &mut Vec::new(), room);
    }
    let tree = &mut tree[..=stream.len()];
    put_image(stream, last, tree);
    word::find(table, tree, plan, room)
}

/// The tree of a record: its length.
pub fn tree(table: &Opened, stream: &[u8], room: &mut [u8]) -> Result<usize, No> {
    let last = last_symbol(table)?;
    if stream.len() >= LONGEST && is_record(stream, last, CLOSE) {
        return Err((6, 0));
    }
    if !is_image(stream, last, CLOSE) {
        return plain::record::tree(table, stream, room);
    }
    let length = stream.len() + 1;
    let place = room.get_mut(..length).ok_or((12, length))?;
    put_image(stream, last, place);
    Ok(length)
}

/// The record of a tree: its length.
pub fn record(table: &Opened, tree: &[u8], room: &mut [u8]) -> Result<usize, No> {
    let last = last_symbol(table)?;
    let Some((&end, symbols)) = tree.split_last() else {
        return Err((6, 0));
    };
    if end != last || !is_image(symbols, last, last) {
        return plain::record::record(table, tree, room);
    }
    let length = symbols.len();
    let place = room.get_mut(..length).ok_or((12, length))?;
    put_replaced(symbols, last, CLOSE, place);
    Ok(length)
}
