//! The proved calls, as the archive exports them.

use crate::opened::{Opened, FRAMES, NUMBERS};

pub const LONGEST: usize = 32768;

/// What a call hands out: the place of a no, length, terms, same, table, and entries that are 0.
type Handed = [usize; 8];

mod raw {
    use super::{Handed, FRAMES, LONGEST, NUMBERS};

    extern "C" {
        pub fn fadurinko_word(
            text: *const u8,
            text_len: usize,
            tree: *const u8,
            tree_len: usize,
            room: *mut u8,
            room_len: usize,
            answer: *mut Handed,
        ) -> u8;
        pub fn fadurinko_judge(text: *const u8, text_len: usize, answer: *mut Handed) -> u8;
        pub fn fadurinko_form(
            text: *const u8,
            text_len: usize,
            room: *mut u8,
            room_len: usize,
            answer: *mut Handed,
        ) -> u8;
        pub fn fadurinko_compare(
            first: *const u8,
            first_len: usize,
            second: *const u8,
            second_len: usize,
            answer: *mut Handed,
        ) -> u8;
        pub fn fadurinko_open(
            text: *const u8,
            text_len: usize,
            frames: *mut [u8; FRAMES],
            numbers: *mut [u64; NUMBERS],
            answer: *mut Handed,
        ) -> u8;
        pub fn fadurinko_find(
            frames: *const [u8; FRAMES],
            numbers: *const [u64; NUMBERS],
            tree: *const u8,
            tree_len: usize,
            plan: *mut [u32; LONGEST],
            room: *mut u8,
            room_len: usize,
            answer: *mut Handed,
        ) -> u8;
        pub fn fadurinko_judge_opened(
            frames: *const [u8; FRAMES],
            numbers: *const [u64; NUMBERS],
            answer: *mut Handed,
        ) -> u8;
        pub fn fadurinko_record_word(
            text: *const u8,
            text_len: usize,
            record: *const u8,
            record_len: usize,
            room: *mut u8,
            room_len: usize,
            answer: *mut Handed,
        ) -> u8;
        pub fn fadurinko_record_word_opened(
            frames: *const [u8; FRAMES],
            numbers: *const [u64; NUMBERS],
            record: *const u8,
            record_len: usize,
            tree: *mut [u8; LONGEST],
            plan: *mut [u32; LONGEST],
            room: *mut u8,
            room_len: usize,
            answer: *mut Handed,
        ) -> u8;
        pub fn fadurinko_record_tree_opened(
            frames: *const [u8; FRAMES],
            numbers: *const [u64; NUMBERS],
            record: *const u8,
            record_len: usize,
            room: *mut u8,
            room_len: usize,
            answer: *mut Handed,
        ) -> u8;
        pub fn fadurinko_tree_record_opened(
            frames: *const [u8; FRAMES],
            numbers: *const [u64; NUMBERS],
            tree: *const u8,
            tree_len: usize,
            room: *mut u8,
            room_len: usize,
            answer: *mut Handed,
        ) -> u8;
    }
}

/// A number of no and its place.
type No = (u8, usize);

/// What a call handed out, or its no.
fn answered(call: impl FnOnce(&mut Handed) -> u8) -> Result<Handed, No> {
    let mut answer = [0; 8];
    match call(&mut answer) {
        0 => Ok(answer),
        number => Err((number, answer[0])),
    }
}

fn word_found([_, length, terms, ..]: Handed) -> (usize, usize) {
    (length, terms)
}

pub fn open(text: &[u8], into: &mut Opened) -> Result<(), No> {
    let Opened { frames, numbers } = into;
    answered(|answer| unsafe {
        raw::fadurinko_open(
            text.as_ptr(),
            text.len(),
            &mut **frames,
            &mut **numbers,
            answer,
        )
    })
    .map(drop)
}

/// Length and terms.
pub fn find(
    table: &Opened,
    tree: &[u8],
    plan: &mut [u32; LONGEST],
    room: &mut [u8],
) -> Result<(usize, usize), No> {
    answered(|answer| unsafe {
        raw::fadurinko_find(
            &*table.frames,
            &*table.numbers,
            tree.as_ptr(),
            tree.len(),
            plan,
            room.as_mut_ptr(),
            room.len(),
            answer,
        )
    })
    .map(word_found)
}

/// Length and terms.
pub fn word(text: &[u8], tree: &[u8], room: &mut [u8]) -> Result<(usize, usize), No> {
    answered(|answer| unsafe {
        raw::fadurinko_word(
            text.as_ptr(),
            text.len(),
            tree.as_ptr(),
            tree.len(),
            room.as_mut_ptr(),
            room.len(),
            answer,
        )
    })
    .map(word_found)
}

/// Length and terms of the word of a record.
pub fn record_word(text: &[u8], record: &[u8], room: &mut [u8]) -> Result<(usize, usize), No> {
    answered(|answer| unsafe {
        raw::fadurinko_record_word(
            text.as_ptr(),
            text.len(),
            record.as_ptr(),
            record.len(),
            room.as_mut_ptr(),
            room.len(),
            answer,
        )
    })
    .map(word_found)
}

/// Length and terms of the word of a record, by an opened table.
pub fn record_word_opened(
    table: &Opened,
    record: &[u8],
    (tree, plan): (&mut [u8; LONGEST], &mut [u32; LONGEST]),
    room: &mut [u8],
) -> Result<(usize, usize), No> {
    answered(|answer| unsafe {
        raw::fadurinko_record_word_opened(
            &*table.frames,
            &*table.numbers,
            record.as_ptr(),
            record.len(),
            tree,
            plan,
            room.as_mut_ptr(),
            room.len(),
            answer,
        )
    })
    .map(word_found)
}

/// The length of the tree of a record.
pub fn record_tree_opened(table: &Opened, record: &[u8], room: &mut [u8]) -> Result<usize, No> {
    answered(|answer| unsafe {
        raw::fadurinko_record_tree_opened(
            &*table.frames,
            &*table.numbers,
            record.as_ptr(),
            record.len(),
            room.as_mut_ptr(),
            room.len(),
            answer,
        )
    })
    .map(|[_, length, ..]| length)
}

/// The length of the record of a tree.
pub fn tree_record_opened(table: &Opened, tree: &[u8], room: &mut [u8]) -> Result<usize, No> {
    answered(|answer| unsafe {
        raw::fadurinko_tree_record_opened(
            &*table.frames,
            &*table.numbers,
            tree.as_ptr(),
            tree.len(),
            room.as_mut_ptr(),
            room.len(),
            answer,
        )
    })
    .map(|[_, length, ..]| length)
}

pub fn judge(text: &[u8]) -> Result<(), No> {
    answered(|answer| unsafe { raw::fadurinko_judge(text.as_ptr(), text.len(), answer) }).map(drop)
}

pub fn judge_opened(table: &Opened) -> Result<(), No> {
    answered(|answer| unsafe {
        raw::fadurinko_judge_opened(&*table.frames, &*table.numbers, answer)
    })
    .map(drop)
}

/// The form's length.
pub fn form(text: &[u8], room: &mut [u8]) -> Result<usize, No> {
    answered(|answer| unsafe {
        raw::fadurinko_form(
            text.as_ptr(),
            text.len(),
            room.as_mut_ptr(),
            room.len(),
            answer,
        )
    })
    .map(|[_, length, ..]| length)
}

/// Whether the tables are the same, or the number of no, the table that it is about, the place.
pub fn compare(first: &[u8], second: &[u8]) -> Result<bool, (u8, usize, usize)> {
    let mut answer = [0; 8];
    let number = unsafe {
        raw::fadurinko_compare(
            first.as_ptr(),
            first.len(),
            second.as_ptr(),
            second.len(),
            &mut answer,
        )
    };
    let [place, _, _, same, table, ..] = answer;
    match number {
        0 => Ok(same == 1),
        _ => Err((number, table, place)),
    }
}
