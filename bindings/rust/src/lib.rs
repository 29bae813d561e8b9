//! Rule tables: the word of a tree or of a record, the judgement, the form, the comparison.
//!
//! A rule table reads a tree from its root and writes a word. It is given as a text: lines of
//! lowercase hexadecimal, a frame each (`01` a symbol's arity, `02` the initial rule, `03` a rule,
//! `04` the end). A tree is its symbols in preorder, a byte each. The calls are proved; this crate
//! only hands bytes to them.
//!
//! ```
//! # fn main() -> Result<(), Box<dyn std::error::Error>> {
//! // Symbol 0 has two trees below it, 1 and 2 are leaves. Of three states two are the same.
//! let old = b"0102\n0100\n0100\n0203000200\n03000100\n0300020178\n03010100\n0301020178\n\
//!             0302000000012c0100\n04\n";
//! let tidied = fadurinko::form(old)?;
//! assert_eq!(
//!     tidied,
//!     b"0102\n0100\n0100\n0202000000\n0300000001012c0100\n03010100\n0301020178\n04\n"
//! );
//! assert_eq!(fadurinko::compare(old, &tidied)?, fadurinko::Comparison::Same);
//!
//! // One table and many trees: open it once.
//! let mut table = fadurinko::OpenTable::open(old)?;
//! assert_eq!(table.word(&[0, 2, 1])?, b"x,");
//! assert_eq!(table.word(&[0, 2, 2])?, b"x,x");
//! # Ok(())
//! # }
//! ```
//!
//! A record is an element: a label and the elements inside it. In bytes its label opens it and `ff`
//! closes it; the labels are the symbols but the last, which means "absent". It is read as a tree: an
//! element is its label with two trees below it, the first element inside it and the next one beside it,
//! and an absent one is the last symbol. So in a table for records all symbols have arity 2, and the last
//! has 0.
//!
//! ```
//! # fn main() -> Result<(), fadurinko::Refusal> {
//! // The labels 0 clip, 1 scene and 2 take; 3 is absent. It is examples/records.table.
//! let text = b"0102\n0102\n0102\n0100\n020404636c69700000\n0300000001000200\n\
//!              03010106207363656e6503000100\n03010300\n03020300\n\
//!              030302052b74616b6502000300\n03030300\n04\n";
//! let mut table = fadurinko::OpenTable::open(text)?;
//! // A clip of one scene with two takes.
//! let record = b"\x00\x01\x02\xff\x02\xff\xff\xff";
//! assert_eq!(table.record_word(record)?, b"clip scene+take+take");
//! let tree = table.record_tree(record)?;
//! assert_eq!(tree, [0, 1, 2, 3, 2, 3, 3, 3, 3]);
//! assert_eq!(table.tree_record(&tree)?, record);
//! # Ok(())
//! # }
//! ```
//!
//! The calls are linked from libfadurinko_c.a, which `rt lib` in `crates/fadurinko_c` writes (x86-64).
//! The build looks for it in `crates/fadurinko_c/out`, or in the folder that the variable
//! `FADURINKO_LIB` names. This crate needs no other.
//!
//! Each no is a [`Refusal`] with a number and a place; its `Display` says what to do. How much stack a
//! call takes at most is in [`limit`]: [`limit::STACK_RECORD_WORD`] for the word of a record by a text,
//! which is the most, and [`limit::STACK_FIND`] for finding by an [`OpenTable`].

#![deny(missing_docs)]
#![deny(unsafe_code)]

#[allow(unsafe_code)]
pub mod lent;
pub mod limit;
pub mod number;
mod open_table;
mod records;
mod refusal;

pub use open_table::{OpenTable, Plan};
pub use records::{
    record_tree, record_tree_into, record_word, record_word_into, tree_record, tree_record_into,
};
pub use refusal::{CompareRefusal, Refusal};

use lent::Answer;

/// A word that was put into a room.
#[derive(Clone, Copy, Debug, PartialEq, Eq, Hash)]
pub struct Word {
    /// How many of the room's first bytes are the word.
    pub length: usize,
    /// The number of its terms: its letters 20 (hexadecimal, the space) plus one.
    pub terms: usize,
}

/// What two tables are to each other.
#[derive(Clone, Copy, Debug, PartialEq, Eq, Hash)]
pub enum Comparison {
    /// Every tree has the same word by both tables, or no word by both.
    Same,
    /// Some tree has a word by one table and another word or none by the other.
    Different,
}

/// What a call answered: all that it handed out for a yes, which is number 0.
fn answered(call: impl FnOnce(&mut Answer) -> u8) -> Result<Answer, Refusal> {
    let mut answer = Answer::default();
    match call(&mut answer) {
        0 => Ok(answer),
        number => Err(Refusal {
            number,
            place: answer.place,
        }),
    }
}

/// The word that a call has put into a room.
fn word_found(answer: Answer) -> Word {
    Word {
        length: answer.length,
        terms: answer.terms,
    }
}

/// A word in a list of its own length: asked for with no room first, since number 12 says how much
/// is needed.
fn found(mut find: impl FnMut(&mut [u8]) -> Result<Word, Refusal>) -> Result<Vec<u8>, Refusal> {
    match find(&mut []) {
        Ok(_) => Ok(Vec::new()),
        Err(Refusal {
            number: number::ROOM,
            place,
        }) => {
            let mut room = vec![0; place];
            find(&mut room)?;
            Ok(room)
        }
        Err(refusal) => Err(refusal),
    }
}

/// What a call writes and answers the length of, in a list of that length; this much room is enough.
fn written(
    enough: usize,
    write: impl FnOnce(&mut [u8]) -> Result<usize, Refusal>,
) -> Result<Vec<u8>, Refusal> {
    let mut room = vec![0; enough];
    let length = write(&mut room)?;
    room.truncate(length);
    Ok(room)
}

/// The word of a tree by a table text, or why it has none (1 to 11). For more than one tree open the
/// table once: [`OpenTable`].
///
/// ```
/// assert_eq!(fadurinko::word(b"0100\n0201000000\n0300000161\n04\n", &[0]).unwrap(), b"a");
/// ```
pub fn word(text: &[u8], tree: &[u8]) -> Result<Vec<u8>, Refusal> {
    found(|room| word_into(text, tree, room))
}

/// Puts the word of a tree into the first bytes of a lent room, or says why not (1 to 12). The rest
/// of the room stays as it was, and so does all of it on a no.
///
/// ```
/// let mut room = [b'.'; 2];
/// let word = fadurinko::word_into(b"0100\n0201000000\n0300000161\n04\n", &[0], &mut room).unwrap();
/// assert_eq!((word.length, word.terms, &room), (1, 1, b"a."));
/// ```
pub fn word_into(text: &[u8], tree: &[u8], room: &mut [u8]) -> Result<Word, Refusal> {
    answered(|answer| lent::word(text, tree, room, answer)).map(word_found)
}

/// Nothing if a table text is earliest, or why not (1 to 5, 13 to 18).
///
/// ```
/// assert_eq!(fadurinko::judge(b"0100\n0201000000\n03000000\n04\n"), Ok(()));
/// ```
pub fn judge(text: &[u8]) -> Result<(), Refusal> {
    answered(|answer| lent::judge(text, answer)).map(|_| ())
}

/// The form of a table text, or why it has none (1 to 5, 13 to 18).
///
/// ```
/// let text = b"0100\n0201000000\n03000000\n04\n";
/// assert_eq!(fadurinko::form(text).unwrap(), text);
/// ```
pub fn form(text: &[u8]) -> Result<Vec<u8>, Refusal> {
    // A form is never longer than its text.
    written(text.len().min(limit::TEXT), |room| form_into(text, room))
}

/// Puts the form of a table text into the first bytes of a lent room and answers its length, or says
/// why not (1 to 5, 13 to 18, then 12). The rest of the room stays as it was, and so does all of it
/// on a no.
///
/// ```
/// let text = b"0100\n0201000000\n03000000\n04\n";
/// let mut room = [b'.'; 30];
/// assert_eq!(fadurinko::form_into(text, &mut room).unwrap(), text.len());
/// assert_eq!(&room, b"0100\n0201000000\n03000000\n04\n..");
/// ```
pub fn form_into(text: &[u8], room: &mut [u8]) -> Result<usize, Refusal> {
    answered(|answer| lent::form(text, room, answer)).map(|answer| answer.length)
}

/// Whether two table texts give every tree the same word, or why that cannot be said (1 to 5 and 13
/// to 19).
///
/// ```
/// use fadurinko::Comparison;
/// let one = b"0100\n0201000000\n03000000\n04\n";
/// let other = b"0100\n020101610000\n03000000\n04\n";
/// assert_eq!(fadurinko::compare(one, one), Ok(Comparison::Same));
/// assert_eq!(fadurinko::compare(one, other), Ok(Comparison::Different));
/// ```
pub fn compare(first: &[u8], second: &[u8]) -> Result<Comparison, CompareRefusal> {
    let mut answer = Answer::default();
    let number = lent::compare(first, second, &mut answer);
    match (number, answer.same) {
        (0, 0) => Ok(Comparison::Different),
        (0, _) => Ok(Comparison::Same),
        _ => Err(CompareRefusal {
            table: answer.table as u8,
            refusal: Refusal {
                number,
                place: answer.place,
            },
        }),
    }
}
