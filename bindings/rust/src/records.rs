//! Records by a table text.

use crate::lent;
use crate::limit::TREE;
use crate::{answered, found, word_found, written, Refusal, Word};

/// The word of a record by a table text, or why it has none (1 to 5, 20 to 23, then 6, 10 and 9): the
/// word that the table gives its tree. For more than one record open the table once:
/// [`crate::OpenTable`].
///
/// ```
/// // Label 0 puts what is inside into brackets, and 1 is absent.
/// let text = b"0102\n0100\n0201000000\n03000001280001290000\n03000100\n04\n";
/// let record = [0, 0, 0xff, 0, 0xff, 0xff];
/// assert_eq!(fadurinko::record_word(text, &record).unwrap(), b"(()())");
/// ```
pub fn record_word(text: &[u8], record: &[u8]) -> Result<Vec<u8>, Refusal> {
    found(|room| record_word_into(text, record, room))
}

/// Puts the word of a record into the first bytes of a lent room, or says why not (1 to 5, 20 to 23,
/// then 6, 10, 9 and 12). The rest of the room stays as it was, and so does all of it on a no.
///
/// ```
/// let text = b"0102\n0100\n0201000000\n03000001280001290000\n03000100\n04\n";
/// let mut room = [b'.'; 4];
/// let word = fadurinko::record_word_into(text, &[0, 0xff], &mut room).unwrap();
/// assert_eq!((word.length, word.terms, &room), (2, 1, b"().."));
/// ```
pub fn record_word_into(text: &[u8], record: &[u8], room: &mut [u8]) -> Result<Word, Refusal> {
    answered(|answer| lent::record_word(text, record, room, answer)).map(word_found)
}

/// The tree of a record by a table text, or why it has none (1 to 5, 20 to 23, then 6 and 10). It has
/// one byte more than the record, and [`tree_record`] turns it back.
///
/// ```
/// let text = b"0102\n0100\n0201000000\n03000001280001290000\n03000100\n04\n";
/// let record = [0, 0, 0xff, 0, 0xff, 0xff];
/// let tree = fadurinko::record_tree(text, &record).unwrap();
/// assert_eq!(tree, [0, 0, 1, 0, 1, 1, 1]);
/// assert_eq!(fadurinko::tree_record(text, &tree).unwrap(), record);
/// ```
pub fn record_tree(text: &[u8], record: &[u8]) -> Result<Vec<u8>, Refusal> {
    written(tree_room(record), |room| {
        record_tree_into(text, record, room)
    })
}

/// Puts the tree of a record into the first bytes of a lent room and answers its length, or says why
/// not (1 to 5, 20 to 23, then 6, 10 and 12). The rest of the room stays as it was, and so does all of
/// it on a no.
///
/// ```
/// let text = b"0102\n0100\n0201000000\n03000001280001290000\n03000100\n04\n";
/// let mut room = [b'.'; 5];
/// assert_eq!(fadurinko::record_tree_into(text, &[0, 0xff], &mut room).unwrap(), 3);
/// assert_eq!(&room, b"\x00\x01\x01..");
/// ```
pub fn record_tree_into(text: &[u8], record: &[u8], room: &mut [u8]) -> Result<usize, Refusal> {
    answered(|answer| lent::record_tree(text, record, room, answer)).map(|answer| answer.length)
}

/// The record of a tree by a table text, or why it has none (1 to 5, 20, then 6, 7, 8, 10, 11 and 24).
/// It has one byte less than the tree, and [`record_tree`] turns it back.
///
/// ```
/// let text = b"0102\n0100\n0201000000\n03000001280001290000\n03000100\n04\n";
/// assert_eq!(fadurinko::tree_record(text, &[0, 1, 1]).unwrap(), [0, 0xff]);
/// let no = fadurinko::tree_record(text, &[0, 1, 0, 1, 1]).unwrap_err();
/// assert_eq!((no.number, no.place), (fadurinko::number::IMAGE, 2));
/// ```
pub fn tree_record(text: &[u8], tree: &[u8]) -> Result<Vec<u8>, Refusal> {
    written(record_room(tree), |room| tree_record_into(text, tree, room))
}

/// Puts the record of a tree into the first bytes of a lent room and answers its length, or says why
/// not (1 to 5, 20, then 6, 7, 8, 10, 11, 24 and 12). The rest of the room stays as it was, and so does
/// all of it on a no.
///
/// ```
/// let text = b"0102\n0100\n0201000000\n03000001280001290000\n03000100\n04\n";
/// let mut room = [b'.'; 4];
/// assert_eq!(fadurinko::tree_record_into(text, &[0, 1, 1], &mut room).unwrap(), 2);
/// assert_eq!(&room, b"\x00\xff..");
/// ```
pub fn tree_record_into(text: &[u8], tree: &[u8], room: &mut [u8]) -> Result<usize, Refusal> {
    answered(|answer| lent::tree_record(text, tree, room, answer)).map(|answer| answer.length)
}

/// How much room the tree of a record needs, if it has one.
pub(crate) fn tree_room(record: &[u8]) -> usize {
    TREE.min(record.len() + 1)
}

/// How much room the record of a tree needs, if it has one.
pub(crate) fn record_room(tree: &[u8]) -> usize {
    TREE.min(tree.len().saturating_sub(1))
}
