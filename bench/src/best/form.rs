//! The form: states with the same rules up to their children form the first classes; then a class
//! is parted by the parents of another until none is (Hopcroft), with sets of states in a word of
//! 64 bits. The lines of the form are the lines of the text with other states.

use super::judge::judge_table;
use super::rows::{read, starts_of, No, Row, Rows};

/// A partition of the states: each state's class and each class's states.
struct Classes {
    of: [u8; 64],
    sets: Vec<u64>,
}

/// What two states with the same words have in common, and few others.
fn fingerprint(table: &Rows, rows: &[Row]) -> u64 {
    let mut sum = rows.len() as u64;
    for row in rows {
        sum = sum.wrapping_mul(0x9e37_79b9_7f4a_7c15) ^ u64::from(row.symbol);
        for &word in row.words() {
            let at = usize::from(word);
            let length = table.frames[at];
            let last = table.frames[at + usize::from(length)];
            sum = sum.rotate_left(17).wrapping_mul(0xbf58_476d_1ce4_e5b9)
                ^ (u64::from(length) << 8 | u64::from(last));
        }
    }
    sum
}

/// Whether two rows have the same symbol and words.
pub fn same_words(one: &Rows, a: &Row, other: &Rows, b: &Row) -> bool {
    let mut words = a.words().iter().zip(b.words());
    a.symbol == b.symbol
        && words.all(|(&x, &y)| one.word(usize::from(x)) == other.word(usize::from(y)))
}

/// The rows of a state.
pub fn rows_at<'a>(table: &'a Rows, starts: &[u16; 65], state: usize) -> &'a [Row] {
    &table.list[usize::from(starts[state])..usize::from(starts[state + 1])]
}

fn alike(table: &Rows, some: &[Row], others: &[Row]) -> bool {
    some.len() == others.len()
        && some
            .iter()
            .zip(others)
            .all(|(a, b)| same_words(table, a, table, b))
}

/// The classes of states whose rules agree up to their children.
fn first_classes(table: &Rows, starts: &[u16; 65]) -> Classes {
    let mut classes = Classes {
        of: [0; 64],
        sets: Vec::with_capacity(64),
    };
    let mut prints = Vec::with_capacity(64);
    for state in 0..table.states {
        let rows = rows_at(table, starts, state);
        let print = fingerprint(table, rows);
        let leads = |class: &usize| {
            let leader = classes.sets[*class].trailing_zeros() as usize;
            prints[*class] == print && alike(table, rows_at(table, starts, leader), rows)
        };
        let class = (0..classes.sets.len())
            .find(leads)
            .unwrap_or(classes.sets.len());
        if class == classes.sets.len() {
            classes.sets.push(0);
            prints.push(print);
        }
        classes.sets[class] |= 1 << state;
        classes.of[state] = class as u8;
    }
    classes
}

/// For each symbol and child, and each state, the states that have it there.
struct Parents {
    sets: Vec<[u64; 64]>,
}

fn parents(table: &Rows) -> Parents {
    let mut first = [0u16; 65];
    for symbol in 0..table.symbols {
        first[symbol + 1] = first[symbol] + u16::from(table.arity(symbol));
    }
    let mut sets = vec![[0; 64]; usize::from(first[table.symbols])];
    for row in &table.list {
        let from = usize::from(first[usize::from(row.symbol)]);
        for (set, &kid) in sets[from..].iter_mut().zip(row.children()) {
            set[usize::from(kid & 63)] |= 1 << row.state;
        }
    }
    Parents { sets }
}

impl Classes {
    /// Parts each class by a set; a class that is to be tried is still so with both its parts, else
    /// the smaller is.
    fn part(&mut self, by: u64, waiting: &mut u64) {
        let mut left = by;
        while left != 0 {
            let class = usize::from(self.of[left.trailing_zeros() as usize]);
            let set = self.sets[class];
            left &= !set;
            let (inside, outside) = (set & by, set & !by);
            if outside != 0 {
                let (kept, moved) = if inside.count_ones() < outside.count_ones() {
                    (outside, inside)
                } else {
                    (inside, outside)
                };
                *waiting |= 1 << self.sets.len();
                self.sets[class] = kept;
                self.rename(moved);
            }
        }
    }

    /// Makes a class of the set.
    fn rename(&mut self, set: u64) {
        let mut left = set;
        while left != 0 {
            self.of[left.trailing_zeros() as usize] = self.sets.len() as u8;
            left &= left - 1;
        }
        self.sets.push(set);
    }
}

fn union(set: &[u64; 64], states: u64) -> u64 {
    let (mut sum, mut left) = (0, states);
    while left != 0 {
        sum |= set[left.trailing_zeros() as usize];
        left &= left - 1;
    }
    sum
}

fn classes(table: &Rows, starts: &[u16; 65]) -> Classes {
    let mut classes = first_classes(table, starts);
    if classes.sets.len() == table.states {
        return classes;
    }
    let parents = parents(table);
    let mut waiting = u64::MAX >> (64 - classes.sets.len());
    while waiting != 0 {
        let splitter = classes.sets[waiting.trailing_zeros() as usize];
        waiting &= waiting - 1;
        for set in &parents.sets {
            classes.part(union(set, splitter), &mut waiting);
        }
    }
    classes
}

/// The states in the order of their numbers, and each class's number.
struct Numbering {
    order: Vec<u8>,
    number: [u8; 64],
}

const UNMET: u8 = 255;

impl Numbering {
    fn meet(&mut self, classes: &Classes, state: u8) {
        let class = usize::from(classes.of[usize::from(state & 63)]);
        if self.number[class] == UNMET {
            self.number[class] = self.order.len() as u8;
            self.order.push(state);
        }
    }
}

fn number(table: &Rows, starts: &[u16; 65], classes: &Classes) -> Numbering {
    let mut numbering = Numbering {
        order: Vec::with_capacity(64),
        number: [UNMET; 64],
    };
    numbering.meet(classes, table.start as u8);
    let mut taken = 0;
    while taken < numbering.order.len() {
        let state = usize::from(numbering.order[taken]);
        for row in rows_at(table, starts, state) {
            row.children()
                .iter()
                .for_each(|&kid| numbering.meet(classes, kid));
        }
        taken += 1;
    }
    numbering
}

const DIGITS: &[u8; 16] = b"0123456789abcdef";

fn put_byte(room: &mut [u8], at: usize, byte: u8) {
    room[at..at + 2].copy_from_slice(&[
        DIGITS[usize::from(byte >> 4)],
        DIGITS[usize::from(byte & 15)],
    ]);
}

/// Copies the line of a frame, and tells where it stands in the room.
fn copy_line(text: &[u8], from: usize, to: usize, room: &mut [u8], end: &mut usize) -> usize {
    let at = *end;
    *end += to - from;
    room[at..*end].copy_from_slice(&text[from..to]);
    at
}

/// Where the row's line ends: two digits for each byte of its frames and of those before, and a
/// line end each.
fn line_end(table: &Rows, row: &Row, index: usize) -> usize {
    let last = usize::from(row.word[usize::from(row.kids)]);
    2 * (last + 1 + usize::from(table.frames[last])) + table.symbols + 2 + index
}

fn length(table: &Rows, starts: &[u16; 65], order: &[u8]) -> usize {
    let line = |index: usize| {
        let row = &table.list[index];
        line_end(table, row, index) - (2 * row.at() + table.symbols + 1 + index)
    };
    let rows = |&state: &u8| {
        (usize::from(starts[usize::from(state)])..usize::from(starts[usize::from(state) + 1]))
            .map(line)
            .sum::<usize>()
    };
    2 * table.first + table.symbols + 1 + order.iter().map(rows).sum::<usize>() + 3
}

fn write(
    table: &Rows,
    text: &[u8],
    starts: &[u16; 65],
    classes: &Classes,
    numbering: &Numbering,
    room: &mut [u8],
) {
    let mut end = 0;
    copy_line(text, 0, 2 * table.first + table.symbols + 1, room, &mut end);
    put_byte(room, 5 * table.symbols + 2, numbering.order.len() as u8);
    put_byte(room, 2 * (table.after - 1) + table.symbols, 0);
    for (number, &state) in numbering.order.iter().enumerate() {
        let rows =
            usize::from(starts[usize::from(state)])..usize::from(starts[usize::from(state) + 1]);
        for index in rows {
            let row = &table.list[index];
            let from = 2 * row.at() + table.symbols + 1 + index;
            let at = copy_line(text, from, line_end(table, row, index), room, &mut end);
            put_byte(room, at + 2, number as u8);
            for (&kid, &word) in row.children().iter().zip(&row.word[1..]) {
                let place = at + 2 * (usize::from(word) - 1 - row.at());
                put_byte(
                    room,
                    place,
                    numbering.number[usize::from(classes.of[usize::from(kid & 63)])],
                );
            }
        }
    }
    room[end..end + 3].copy_from_slice(b"04\n");
}

pub fn form(text: &[u8], room: &mut [u8]) -> Result<usize, No> {
    let table = read(text)?;
    let starts = starts_of(&table.list);
    judge_table(&table, &starts)?;
    let classes = classes(&table, &starts);
    let numbering = number(&table, &starts, &classes);
    let length = length(&table, &starts, &numbering.order);
    if room.len() < length {
        return Err((12, length));
    }
    write(&table, text, &starts, &classes, &numbering, room);
    Ok(length)
}
