//! The word of a tree by an opened table, fast: one measuring loop that leaves a plan of the rules'
//! numbers, then writing by the plan, 32 bytes at a time. It trusts the table to be opened. Anything
//! unusual goes to the plain walk.

use crate::opened::{spot, Opened, Rules, CHILDREN, FRAMES, GRID_FROM};
use crate::plain;
use crate::proved::LONGEST;

/// Length and terms, or the number of no and the place.
pub type Answer = Result<(usize, usize), (u8, usize)>;

/// Where in a planned rule its number of children stands.
const KIDS: u32 = 13;

/// A rule as it is planned: its number and how many children it has.
fn numbered(kept: u64, _: &Rules) -> u32 {
    ((kept >> 9) & 511 | kept >> 61 << KIDS) as u32
}

/// Letters of a tree; none where it is no tree with a word. States are kept times 64, and in what
/// waits there is 4,096 for each symbol above.
#[inline(always)]
fn measure(
    table: &Opened,
    tree: &[u8],
    plan: &mut [u32; LONGEST],
    planned: impl Fn(u64, &Rules) -> u32,
) -> Option<usize> {
    let rules = table.rules();
    let mut waiting = [0u32; 256];
    waiting[0] = 64 * 4096;
    let mut top: u8 = u8::from(!tree.is_empty());
    let mut state = table.head().start * 64;
    let mut level = 0;
    let mut sum = 0;
    for (slot, &f) in plan.get_mut(..tree.len())?.iter_mut().zip(tree) {
        if f > 63 || level > 63 * 4096 {
            return None;
        }
        let x = table.numbers[GRID_FROM + (state + usize::from(f)) % 4096];
        if x == 0 {
            return None;
        }
        *slot = planned(x, rules);
        sum += x & 255;
        let deeper = level + 4096;
        let child = |n: usize| (x >> (CHILDREN[n] - 6)) as u32 & 4032;
        let below = waiting[usize::from(top.wrapping_sub(1))];
        waiting[usize::from(top)] = deeper + child(1);
        waiting[usize::from(top.wrapping_add(1))] = deeper + child(2);
        waiting[usize::from(top.wrapping_add(2))] = deeper + child(3);
        let kids = (x >> 61) as u8;
        state = (if kids == 0 { below & 4032 } else { child(0) }) as usize;
        level = if kids == 0 { below & !4095 } else { deeper };
        top = top.wrapping_add(kids).wrapping_sub(1);
    }
    (top == 0 && !tree.is_empty()).then_some(sum as usize)
}

/// Puts the word at `from` into the room from `at` on, 32 bytes where the room has them, and
/// answers its length.
#[inline(always)]
pub fn put(frames: &[u8; FRAMES], from: usize, room: &mut [u8], at: usize) -> usize {
    let from = from & 16383;
    let n = usize::from(frames[from]);
    if let Some(place) = room.get_mut(at..at + 32) {
        place.copy_from_slice(&frames[from + 1..from + 33]);
    } else {
        put_last(&frames[from + 1..from + 33], n, room, at);
    }
    n
}

#[cold]
fn put_last(word: &[u8], n: usize, room: &mut [u8], at: usize) {
    room[at..at + n].copy_from_slice(&word[..n]);
}

/// The writing pass: it calls itself for each child and lends it the room on from its current end.
/// The letters of the tree.
fn eval(
    frames: &[u8; FRAMES],
    rules: &Rules,
    plan: &mut std::slice::Iter<u32>,
    room: &mut [u8],
) -> usize {
    let Some(&planned) = plan.next() else {
        return 0;
    };
    let mut from = spot(rules, planned as usize);
    let mut left = planned >> KIDS;
    let mut end = 0;
    loop {
        let n = put(frames, from, room, end);
        end += n;
        if left == 0 {
            return end;
        }
        from += n + 2;
        end += eval(frames, rules, plan, room.get_mut(end..).unwrap_or_default());
        left -= 1;
    }
}

/// Lends the writing pass 32 bytes behind the word, where the room has them, and puts them back.
#[inline(always)]
fn lend(room: &mut [u8], end: usize, write: impl FnOnce(&mut [u8])) {
    let behind: Option<[u8; 32]> = room
        .get(end..end + 32)
        .map(|kept| kept.try_into().expect("32 bytes"));
    match behind {
        Some(kept) => {
            write(&mut room[..end + 32]);
            room[end..end + 32].copy_from_slice(&kept);
        }
        None => write(&mut room[..end]),
    }
}

fn stretch(frames: &[u8; FRAMES], at: usize) -> &[u8] {
    &frames[at + 1..at + 1 + usize::from(frames[at])]
}

/// The terms of a word: letters 20 are counted in a byte over pieces that are short enough.
fn terms(word: &[u8]) -> usize {
    let gaps = |piece: &[u8]| -> u8 { piece.iter().map(|&letter| u8::from(letter == b' ')).sum() };
    1 + word
        .chunks(224)
        .map(|piece| usize::from(gaps(piece)))
        .sum::<usize>()
}

/// Measures with rules planned in one way, and writes by such a plan.
#[inline(always)]
pub fn find_by(
    table: &Opened,
    tree: &[u8],
    plan: &mut [u32; LONGEST],
    room: &mut [u8],
    planned: impl Fn(u64, &Rules) -> u32,
    write: impl FnOnce(&[u8; FRAMES], &[u32; LONGEST], &mut [u8]),
) -> Answer {
    let Some(letters) = measure(table, tree, plan, planned) else {
        return plain::word::find(table, tree, &mut Vec::new(), room);
    };
    let head = table.head();
    let before = stretch(&table.frames, head.before);
    let after = stretch(&table.frames, head.after);
    let length = before.len() + letters + after.len();
    if room.len() < length {
        return Err((12, length));
    }
    room[..before.len()].copy_from_slice(before);
    lend(&mut room[before.len()..], letters, |part| {
        write(&table.frames, plan, part)
    });
    room[before.len() + letters..length].copy_from_slice(after);
    Ok((length, terms(&room[..length])))
}

pub fn find(table: &Opened, tree: &[u8], plan: &mut [u32; LONGEST], room: &mut [u8]) -> Answer {
    find_by(table, tree, plan, room, numbered, |frames, plan, part| {
        eval(frames, table.rules(), &mut plan.iter(), part);
    })
}
