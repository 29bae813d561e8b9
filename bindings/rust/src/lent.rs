//! The calls as the archive exports them, with everything lent by the caller: nothing allocates.
//!
//! Each returns a number, 0 for a yes, and writes every entry of the [`Answer`] that it is lent. On a
//! no, no other byte changes but in the scratch (plan and tree). The crate's own functions say the same
//! more handily; these are for a caller that has no heap or keeps many tables in memory of its own.
//!
//! All of them are safe to call with any bytes: the proofs ask nothing of what is lent. What `find`
//! and the calls that end in `_opened` answer means something only for arrays that `open` wrote.
//! Whatever stands in them, the calls read and write only what is lent, and their work is linear in the
//! tree or record, the rules and the room (milliseconds); the room's bytes are then left open.
//!
//! What is lent to be written overlaps with nothing else, since the references say so. This does
//! not compile:
//!
//! ```compile_fail,E0502
//! let mut bytes = *b"0100\n0201000000\n03000000\n04\n";
//! let mut answer = fadurinko::lent::Answer::default();
//! fadurinko::lent::form(&bytes, &mut bytes, &mut answer);
//! ```
//!
//! With a room of its own it does:
//!
//! ```
//! let bytes = *b"0100\n0201000000\n03000000\n04\n";
//! let mut room = [0; 32];
//! let mut answer = fadurinko::lent::Answer::default();
//! assert_eq!(fadurinko::lent::form(&bytes, &mut room, &mut answer), 0);
//! assert_eq!(room[..answer.length], bytes);
//! ```

use crate::limit::{ANSWER, FRAMES, NUMBERS, PLAN, TREE};

/// What a call hands out besides its number: one small array, whose entries have names. Those that no
/// call has a use for are 0 and have none, so that a later release adds to an answer and breaks no
/// caller.
#[repr(C)]
#[derive(Clone, Copy, Debug, Default, PartialEq, Eq, Hash)]
pub struct Answer {
    /// The place of a no; 0 for a yes.
    pub place: usize,
    /// Letters of the word, bytes of the form, tree or record; 0 for a no.
    pub length: usize,
    /// The word's terms; 0 for a no.
    pub terms: usize,
    /// Of a comparison: 1 for same; 0 for different and for a no.
    pub same: usize,
    /// The table that a comparison's no is about: 1 or 2, and 0 for number 19.
    pub table: usize,
    kept_for_later: [usize; ANSWER - 5],
}

/// An answer of these entries, in the order of the C header.
impl From<[usize; ANSWER]> for Answer {
    fn from(entries: [usize; ANSWER]) -> Answer {
        let [place, length, terms, same, table, kept_for_later @ ..] = entries;
        Answer {
            place,
            length,
            terms,
            same,
            table,
            kept_for_later,
        }
    }
}

mod exported {
    use super::{Answer, FRAMES, NUMBERS, PLAN, TREE};

    // The declarations of include/fadurinko.h.
    extern "C" {
        pub fn fadurinko_word(
            text: *const u8,
            text_length: usize,
            tree: *const u8,
            tree_length: usize,
            room: *mut u8,
            room_length: usize,
            answer: *mut Answer,
        ) -> u8;
        pub fn fadurinko_judge(text: *const u8, text_length: usize, answer: *mut Answer) -> u8;
        pub fn fadurinko_form(
            text: *const u8,
            text_length: usize,
            room: *mut u8,
            room_length: usize,
            answer: *mut Answer,
        ) -> u8;
        pub fn fadurinko_compare(
            first: *const u8,
            first_length: usize,
            second: *const u8,
            second_length: usize,
            answer: *mut Answer,
        ) -> u8;
        pub fn fadurinko_open(
            text: *const u8,
            text_length: usize,
            frames: *mut [u8; FRAMES],
            numbers: *mut [u64; NUMBERS],
            answer: *mut Answer,
        ) -> u8;
        pub fn fadurinko_find(
            frames: *const [u8; FRAMES],
            numbers: *const [u64; NUMBERS],
            tree: *const u8,
            tree_length: usize,
            plan: *mut [u32; PLAN],
            room: *mut u8,
            room_length: usize,
            answer: *mut Answer,
        ) -> u8;
        pub fn fadurinko_judge_opened(
            frames: *const [u8; FRAMES],
            numbers: *const [u64; NUMBERS],
            answer: *mut Answer,
        ) -> u8;
        pub fn fadurinko_record_word(
            text: *const u8,
            text_length: usize,
            record: *const u8,
            record_length: usize,
            room: *mut u8,
            room_length: usize,
            answer: *mut Answer,
        ) -> u8;
        pub fn fadurinko_record_tree(
            text: *const u8,
            text_length: usize,
            record: *const u8,
            record_length: usize,
            room: *mut u8,
            room_length: usize,
            answer: *mut Answer,
        ) -> u8;
        pub fn fadurinko_tree_record(
            text: *const u8,
            text_length: usize,
            tree: *const u8,
            tree_length: usize,
            room: *mut u8,
            room_length: usize,
            answer: *mut Answer,
        ) -> u8;
        pub fn fadurinko_record_word_opened(
            frames: *const [u8; FRAMES],
            numbers: *const [u64; NUMBERS],
            record: *const u8,
            record_length: usize,
            tree: *mut [u8; TREE],
            plan: *mut [u32; PLAN],
            room: *mut u8,
            room_length: usize,
            answer: *mut Answer,
        ) -> u8;
        pub fn fadurinko_record_tree_opened(
            frames: *const [u8; FRAMES],
            numbers: *const [u64; NUMBERS],
            record: *const u8,
            record_length: usize,
            room: *mut u8,
            room_length: usize,
            answer: *mut Answer,
        ) -> u8;
        pub fn fadurinko_tree_record_opened(
            frames: *const [u8; FRAMES],
            numbers: *const [u64; NUMBERS],
            tree: *const u8,
            tree_length: usize,
            room: *mut u8,
            room_length: usize,
            answer: *mut Answer,
        ) -> u8;
    }
}

/// The word of a tree by a table text: `length` letters in the room and `terms` terms.
pub fn word(text: &[u8], tree: &[u8], room: &mut [u8], answer: &mut Answer) -> u8 {
    // SAFETY: each pointer comes from a reference, with its slice's length, so it is not null, is
    // valid for that many bytes, and what is written to overlaps with nothing. An answer is laid out
    // as the array that the call writes. The call keeps no pointer.
    unsafe {
        exported::fadurinko_word(
            text.as_ptr(),
            text.len(),
            tree.as_ptr(),
            tree.len(),
            room.as_mut_ptr(),
            room.len(),
            answer,
        )
    }
}

/// Whether a table text is earliest.
pub fn judge(text: &[u8], answer: &mut Answer) -> u8 {
    // SAFETY: as in `word`.
    unsafe { exported::fadurinko_judge(text.as_ptr(), text.len(), answer) }
}

/// The form of a table text: `length` bytes in the room.
pub fn form(text: &[u8], room: &mut [u8], answer: &mut Answer) -> u8 {
    // SAFETY: as in `word`.
    unsafe {
        exported::fadurinko_form(
            text.as_ptr(),
            text.len(),
            room.as_mut_ptr(),
            room.len(),
            answer,
        )
    }
}

/// Whether two table texts give every tree the same word: `same` is 1 or 0. On a no `table` is 1
/// or 2, or 0 for number 19.
pub fn compare(first: &[u8], second: &[u8], answer: &mut Answer) -> u8 {
    // SAFETY: as in `word`.
    unsafe {
        exported::fadurinko_compare(
            first.as_ptr(),
            first.len(),
            second.as_ptr(),
            second.len(),
            answer,
        )
    }
}

/// Opens a table text into two arrays. A refused text leaves them as they were.
pub fn open(
    text: &[u8],
    frames: &mut [u8; FRAMES],
    numbers: &mut [u64; NUMBERS],
    answer: &mut Answer,
) -> u8 {
    // SAFETY: as in `word`; the arrays have the lengths that the call expects.
    unsafe { exported::fadurinko_open(text.as_ptr(), text.len(), frames, numbers, answer) }
}

/// The word of a tree by an opened table: as [`word()`]. The plan is scratch: what stands in it makes
/// no difference, and it is written to.
pub fn find(
    frames: &[u8; FRAMES],
    numbers: &[u64; NUMBERS],
    tree: &[u8],
    plan: &mut [u32; PLAN],
    room: &mut [u8],
    answer: &mut Answer,
) -> u8 {
    // SAFETY: as in `word`; the arrays have the lengths that the call expects, and may hold anything.
    unsafe {
        exported::fadurinko_find(
            frames,
            numbers,
            tree.as_ptr(),
            tree.len(),
            plan,
            room.as_mut_ptr(),
            room.len(),
            answer,
        )
    }
}

/// Whether an opened table is earliest.
pub fn judge_opened(frames: &[u8; FRAMES], numbers: &[u64; NUMBERS], answer: &mut Answer) -> u8 {
    // SAFETY: as in `find`.
    unsafe { exported::fadurinko_judge_opened(frames, numbers, answer) }
}

/// The word of a record by a table text: `length` letters in the room and `terms` terms.
pub fn record_word(text: &[u8], record: &[u8], room: &mut [u8], answer: &mut Answer) -> u8 {
    // SAFETY: as in `word`.
    unsafe {
        exported::fadurinko_record_word(
            text.as_ptr(),
            text.len(),
            record.as_ptr(),
            record.len(),
            room.as_mut_ptr(),
            room.len(),
            answer,
        )
    }
}

/// The tree of a record by a table text: `length` bytes in the room.
pub fn record_tree(text: &[u8], record: &[u8], room: &mut [u8], answer: &mut Answer) -> u8 {
    // SAFETY: as in `word`.
    unsafe {
        exported::fadurinko_record_tree(
            text.as_ptr(),
            text.len(),
            record.as_ptr(),
            record.len(),
            room.as_mut_ptr(),
            room.len(),
            answer,
        )
    }
}

/// The record of a tree by a table text: `length` bytes in the room.
pub fn tree_record(text: &[u8], tree: &[u8], room: &mut [u8], answer: &mut Answer) -> u8 {
    // SAFETY: as in `word`.
    unsafe {
        exported::fadurinko_tree_record(
            text.as_ptr(),
            text.len(),
            tree.as_ptr(),
            tree.len(),
            room.as_mut_ptr(),
            room.len(),
            answer,
        )
    }
}

/// The word of a record by an opened table: as [`record_word`]. Tree and plan are scratch: what stands
/// in them makes no difference, and they are written to.
pub fn record_word_opened(
    frames: &[u8; FRAMES],
    numbers: &[u64; NUMBERS],
    record: &[u8],
    tree: &mut [u8; TREE],
    plan: &mut [u32; PLAN],
    room: &mut [u8],
    answer: &mut Answer,
) -> u8 {
    // SAFETY: as in `find`.
    unsafe {
        exported::fadurinko_record_word_opened(
            frames,
            numbers,
            record.as_ptr(),
            record.len(),
            tree,
            plan,
            room.as_mut_ptr(),
            room.len(),
            answer,
        )
    }
}

/// The tree of a record by an opened table: as [`record_tree`].
pub fn record_tree_opened(
    frames: &[u8; FRAMES],
    numbers: &[u64; NUMBERS],
    record: &[u8],
    room: &mut [u8],
    answer: &mut Answer,
) -> u8 {
    // SAFETY: as in `find`.
    unsafe {
        exported::fadurinko_record_tree_opened(
            frames,
            numbers,
            record.as_ptr(),
            record.len(),
            room.as_mut_ptr(),
            room.len(),
            answer,
        )
    }
}

/// The record of a tree by an opened table: as [`tree_record`].
pub fn tree_record_opened(
    frames: &[u8; FRAMES],
    numbers: &[u64; NUMBERS],
    tree: &[u8],
    room: &mut [u8],
    answer: &mut Answer,
) -> u8 {
    // SAFETY: as in `find`.
    unsafe {
        exported::fadurinko_tree_record_opened(
            frames,
            numbers,
            tree.as_ptr(),
            tree.len(),
            room.as_mut_ptr(),
            room.len(),
            answer,
        )
    }
}
