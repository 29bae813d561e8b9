//! The form by rounds: all states begin in one class, and a round leaves a state with the first of
//! its class whose rules match up to the classes. Words are compared in the first round only, since
//! states that it leaves together have the same.

use super::judge::{judge, No};
use crate::opened::{kids_in, letters_in, rule_in, spot, Head, Opened, Rules, CHILDREN, FRAMES};

/// What the kept numbers of two rules with the same words share: letters, number of children.
const SHARED: u64 = 255 | 7 << 61;

/// The children's states in turn.
fn children(kept: u64) -> impl Iterator<Item = u8> {
    let kids = kids_in(kept);
    (0..kids).map(move |n| (kept >> CHILDREN[if n == 0 { 0 } else { (kids - n) & 3 }]) as u8 & 63)
}

fn sixteen(frames: &[u8; FRAMES], at: usize) -> u128 {
    u128::from_le_bytes(frames[at..at + 16].try_into().expect("16 bytes"))
}

/// Whether the words of n letters behind the length bytes at p and s are the same.
#[inline(always)]
fn same_letters(frames: &[u8; FRAMES], p: usize, s: usize, n: usize) -> bool {
    let (p, s) = ((p & 16383) + 1, (s & 16383) + 1);
    let differing = sixteen(frames, p) ^ sixteen(frames, s);
    if n <= 16 {
        return n == 0 || differing << (128 - 8 * n) == 0;
    }
    differing == 0
        && (sixteen(frames, p + 16) ^ sixteen(frames, s + 16)) << (256 - 8 * n.min(32)) == 0
}

/// Whether two rules have the same words.
#[inline(always)]
fn same_words(frames: &[u8; FRAMES], rules: &Rules, a: u64, b: u64) -> bool {
    let (mut p, mut s) = (spot(rules, rule_in(a)), spot(rules, rule_in(b)));
    for _ in 0..=kids_in(a) {
        let n = frames[p & 16383];
        if n != frames[s & 16383] || !same_letters(frames, p, s, n.into()) {
            return false;
        }
        p += usize::from(n) + 2;
        s += usize::from(n) + 2;
    }
    true
}

/// Whether two rules' children have the same classes.
#[inline(always)]
fn same_classes(rep: &[u8; 64], a: u64, b: u64) -> bool {
    CHILDREN
        .iter()
        .all(|&shift| rep[(a >> shift) as usize & 63] == rep[(b >> shift) as usize & 63])
}

/// What is kept for a state and each symbol of the table.
#[inline(always)]
fn row(table: &Opened, symbols: usize, state: usize) -> &[u64] {
    &table.row(state)[..symbols.min(64)]
}

/// A round: each state's class is the first state of its old class that leads it.
#[inline(always)]
fn round(table: &Opened, rep: &[u8; 64], same: impl Fn(u64, u64) -> bool) -> [u8; 64] {
    let mut next = [0; 64];
    let mut leaders = [0u64; 64];
    let Head {
        symbols, states, ..
    } = table.head();
    for state in 0..states.min(64) {
        let leaders = &mut leaders[usize::from(rep[state] & 63)];
        let mut left = *leaders;
        next[state] = loop {
            if left == 0 {
                *leaders |= 1 << state;
                break state as u8;
            }
            let leader = left.trailing_zeros() as usize;
            if row(table, symbols, state)
                .iter()
                .zip(row(table, symbols, leader))
                .all(|(&a, &b)| same(a, b))
            {
                break leader as u8;
            }
            left &= left - 1;
        };
    }
    next
}

/// The classes of the states: each state's class is the first state that has the same words.
fn classes(table: &Opened) -> [u8; 64] {
    let (frames, rules): (&[u8; FRAMES], &Rules) = (&table.frames, table.rules());
    let alike =
        |a, b| (a == 0) == (b == 0) && (a ^ b) & SHARED == 0 && same_words(frames, rules, a, b);
    let mut rep = round(table, &[0; 64], |a, b| a == 0 && b == 0 || alike(a, b));
    loop {
        let next = round(table, &rep, |a, b| same_classes(&rep, a, b));
        if next == rep {
            return rep;
        }
        rep = next;
    }
}

/// The states in the order of their numbers, and each class's number.
struct Numbering {
    order: [u8; 64],
    count: usize,
    number: [u8; 64],
}

const UNMET: u8 = 255;

impl Numbering {
    fn meet(&mut self, rep: &[u8; 64], state: u8) {
        let number = &mut self.number[usize::from(rep[usize::from(state & 63)] & 63)];
        if *number == UNMET {
            *number = self.count as u8;
            self.order[self.count & 63] = state;
            self.count += 1;
        }
    }
}

fn numbered(table: &Opened, rep: &[u8; 64]) -> Numbering {
    let mut numbering = Numbering {
        order: [0; 64],
        count: 0,
        number: [UNMET; 64],
    };
    numbering.meet(rep, table.head().start as u8);
    let mut taken = 0;
    while taken < numbering.count {
        for rule in table.rules_of(numbering.order[taken & 63].into()) {
            children(table.kept_of(rule)).for_each(|state| numbering.meet(rep, state));
        }
        taken += 1;
    }
    numbering
}

/// The bytes of a rule's frame.
fn frame_length(kept: u64) -> usize {
    4 + 2 * kids_in(kept) + letters_in(kept)
}

/// Where the first rule's frame stands, or what is behind the rules.
fn rows_from(table: &Opened) -> usize {
    let after = table.head().after;
    after + 1 + usize::from(table.frames[after])
}

fn length(table: &Opened, order: &[u8]) -> usize {
    let line = |rule| 2 * frame_length(table.kept_of(rule)) + 1;
    let lines = |&state: &u8| table.rules_of(state.into()).map(line).sum::<usize>();
    let before = 2 * rows_from(table) + table.head().symbols + 1;
    before + order.iter().map(lines).sum::<usize>() + 3
}

fn digit(value: u8) -> u8 {
    value + b'0' + if value > 9 { b'a' - b'9' - 1 } else { 0 }
}

fn put_byte(room: &mut [u8], at: usize, byte: u8) {
    room[at..at + 2].copy_from_slice(&[digit(byte >> 4), digit(byte & 15)]);
}

/// Writes sixteen bytes as digits.
#[inline(always)]
fn put_sixteen(bytes: &[u8; 16], room: &mut [u8; 32]) {
    for (pair, &byte) in room.chunks_exact_mut(2).zip(bytes) {
        pair[0] = digit(byte >> 4);
        pair[1] = digit(byte & 15);
    }
}

/// Writes n bytes from `from` on as digits, sixteen at a time where the room has them: digits
/// behind are written over by what follows. Where what follows belongs.
#[inline(always)]
fn put_line(frames: &[u8; FRAMES], from: usize, n: usize, room: &mut [u8], at: usize) -> usize {
    let mut done = 0;
    while done < n {
        let Some(part) = room[at + 2 * done..].first_chunk_mut() else {
            (done..n).for_each(|i| put_byte(room, at + 2 * i, frames[from + i]));
            break;
        };
        put_sixteen(
            frames[from + done..][..16].try_into().expect("16 bytes"),
            part,
        );
        done += 16;
    }
    room[at + 2 * n] = b'\n';
    at + 2 * n + 1
}

/// Writes a rule's line with the states' new numbers.
#[inline(always)]
fn put_rule(
    table: &Opened,
    rule: usize,
    numbers: &[u8; 64],
    number: u8,
    room: &mut [u8],
    at: usize,
) -> usize {
    let kept = table.kept_of(rule);
    let mut word = spot(table.rules(), rule);
    let from = word - 3;
    let end = put_line(&table.frames, from, frame_length(kept), room, at);
    put_byte(room, at + 2, number);
    for _ in 0..kids_in(kept) {
        word += usize::from(table.frames[word & 16383]) + 2;
        let state = table.frames[(word - 1) & 16383];
        put_byte(
            room,
            at + 2 * (word - 1 - from),
            numbers[usize::from(state & 63)],
        );
    }
    end
}

fn write(table: &Opened, rep: &[u8; 64], numbering: &Numbering, room: &mut [u8]) {
    let Head {
        symbols,
        before,
        after,
        ..
    } = table.head();
    let numbers: [u8; 64] =
        std::array::from_fn(|state| numbering.number[usize::from(rep[state] & 63)]);
    let mut end = (0..symbols).fold(0, |end, symbol| {
        put_line(&table.frames, 2 * symbol, 2, room, end)
    });
    let start = end;
    let length = rows_from(table) + 2 - before;
    end = put_line(&table.frames, before - 2, length, room, start);
    put_byte(room, start + 2, numbering.count as u8);
    put_byte(room, start + 2 * (after - 1 - (before - 2)), 0);
    for (number, &state) in numbering.order[..numbering.count].iter().enumerate() {
        for rule in table.rules_of(state.into()) {
            end = put_rule(table, rule, &numbers, number as u8, room, end);
        }
    }
    room[end..end + 3].copy_from_slice(b"04\n");
}

/// The form of a text, which is opened into a table that the caller keeps.
pub fn form(text: &[u8], table: &mut Opened, room: &mut [u8]) -> Result<usize, No> {
    judge(text, table)?;
    let rep = classes(table);
    let numbering = numbered(table, &rep);
    let length = length(table, &numbering.order[..numbering.count]);
    if room.len() < length {
        return Err((12, length));
    }
    write(table, &rep, &numbering, &mut room[..length]);
    Ok(length)
}
