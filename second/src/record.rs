//! Records from the ingest desks: the word of a record, its tree, and the
//! record of a tree. Refusal 20 comes behind the table's own.

use crate::image::Tree;
use crate::refusal::{put_into_room, Refusal, RECORD_SYMBOLS};
use crate::stream;
use crate::table::{self, Table};
use crate::tree::check_shape;
use crate::walk::{Found, Walker};

/// The number of labels, which is also the number of the absent element: all
/// symbols but the last are labels and have arity 2, the last has arity 0. A
/// table has one symbol at least.
pub fn labels_of(arities: &[u8]) -> Result<u8, Refusal> {
    let labels = arities.len() - 1;
    let is_wrong = |index: &usize| arities[*index] != if *index < labels { 2 } else { 0 };
    match (0..arities.len()).find(is_wrong) {
        Some(index) => Err(Refusal::new(RECORD_SYMBOLS, index)),
        None => Ok(labels as u8),
    }
}

/// Takes records and trees by a table; made once for many.
pub struct Desk<'table> {
    arities: &'table [u8],
    labels: u8,
    walker: Walker<'table>,
}

impl<'table> Desk<'table> {
    /// Only for a table whose symbol list has the shape.
    pub fn new(table: &'table Table) -> Result<Desk<'table>, Refusal> {
        Ok(Desk {
            arities: &table.arities,
            labels: labels_of(&table.arities)?,
            walker: Walker::new(table),
        })
    }

    /// The preorder of a record's image, whose own numbers are not yet asked for.
    fn image(&self, record: &[u8]) -> Result<Vec<u8>, Refusal> {
        let record = stream::read(self.labels, record)?;
        Ok(Tree::of_record(&record, self.labels).preorder())
    }

    /// Writes the record's word into `out` (its old content is dropped).
    pub fn word(&self, record: &[u8], out: &mut Vec<u8>) -> Result<Found, Refusal> {
        self.walker.word(&self.image(record)?, out)
    }

    /// The tree that the record is read as.
    pub fn tree(&self, record: &[u8]) -> Result<Vec<u8>, Refusal> {
        let tree = self.image(record)?;
        check_shape(self.arities, &tree)?;
        Ok(tree)
    }

    /// The stream of the record whose image the tree is.
    pub fn record(&self, tree: &[u8]) -> Result<Vec<u8>, Refusal> {
        check_shape(self.arities, tree)?;
        let record = Tree::of_preorder(tree, self.labels).record()?;
        Ok(stream::write(&record))
    }
}

/// The public call: the word of a record by a table text, put into `room`.
pub fn record_word(text: &[u8], record: &[u8], room: &mut [u8]) -> Result<Found, Refusal> {
    let table = table::read(text)?;
    let mut out = Vec::new();
    let found = Desk::new(&table)?.word(record, &mut out)?;
    put_into_room(&out, room)?;
    Ok(found)
}

/// The public call: puts the tree of a record into `room`, gives its length.
pub fn record_tree(text: &[u8], record: &[u8], room: &mut [u8]) -> Result<usize, Refusal> {
    let table = table::read(text)?;
    let tree = Desk::new(&table)?.tree(record)?;
    put_into_room(&tree, room)?;
    Ok(tree.len())
}

/// The public call: puts the record of a tree into `room`, gives its length.
pub fn tree_record(text: &[u8], tree: &[u8], room: &mut [u8]) -> Result<usize, Refusal> {
    let table = table::read(text)?;
    let record = Desk::new(&table)?.record(tree)?;
    put_into_room(&record, room)?;
    Ok(record.len())
}
