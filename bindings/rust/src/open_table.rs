//! A table that is opened once.

use std::fmt;

use crate::lent;
use crate::limit::{FRAMES, NUMBERS, PLAN, TREE};
use crate::records::{record_room, tree_room};
use crate::{answered, found, word_found, written, Refusal, Word};

/// Scratch for finding words: 160 kilobytes on the heap. What stands in it makes no difference, so one
/// plan serves any number of tables, trees and records, one after the other.
#[derive(Clone)]
pub struct Plan {
    numbers: Box<[u32; PLAN]>,
    tree: Box<[u8; TREE]>,
}

impl Plan {
    /// A plan to lend to [`OpenTable::word_with`], [`OpenTable::record_word_with`] and those that put a
    /// word into a room.
    pub fn new() -> Plan {
        Plan {
            numbers: boxed(),
            tree: boxed(),
        }
    }
}

impl Default for Plan {
    fn default() -> Plan {
        Plan::new()
    }
}

impl fmt::Debug for Plan {
    fn fmt(&self, out: &mut fmt::Formatter<'_>) -> fmt::Result {
        out.debug_struct("Plan").finish_non_exhaustive()
    }
}

/// What opening a text leaves. Finding and judging only read it.
#[derive(Clone)]
struct Arrays {
    frames: Box<[u8; FRAMES]>,
    numbers: Box<[u64; NUMBERS]>,
}

impl Arrays {
    fn find(&self, tree: &[u8], plan: &mut Plan, room: &mut [u8]) -> Result<Word, Refusal> {
        let Arrays { frames, numbers } = self;
        answered(|answer| lent::find(frames, numbers, tree, &mut plan.numbers, room, answer))
            .map(word_found)
    }

    fn record_word(
        &self,
        record: &[u8],
        plan: &mut Plan,
        room: &mut [u8],
    ) -> Result<Word, Refusal> {
        let Arrays { frames, numbers } = self;
        let (tree, plan) = (&mut plan.tree, &mut plan.numbers);
        answered(|answer| {
            lent::record_word_opened(frames, numbers, record, tree, plan, room, answer)
        })
        .map(word_found)
    }
}

/// A table that is opened once and finds the words of many trees and records.
///
/// It owns all that it needs (about 213 kilobytes on the heap) and lets the text go. Finding a word
/// needs a plan, which is scratch. [`OpenTable::word`] and [`OpenTable::record_word`] write to a plan
/// that the table owns too, so they take the table for themselves:
///
/// ```
/// # fn main() -> Result<(), fadurinko::Refusal> {
/// let text = b"0102\n0100\n0100\n0202000000\n0300000001012c0100\n03010100\n0301020178\n04\n";
/// let mut table = fadurinko::OpenTable::open(text)?;
/// assert_eq!(table.word(&[0, 2, 2])?, b"x,x");
/// assert_eq!(table.word(&[0, 2, 1])?, b"x,");
/// assert_eq!(table.word(&[1]).unwrap_err().number, fadurinko::number::RULE);
/// # Ok(())
/// # }
/// ```
///
/// [`OpenTable::word_with`] and [`OpenTable::record_word_with`] are lent a [`Plan`] and only read the
/// table, so that any number of threads can share one table:
///
/// ```
/// # fn main() -> Result<(), fadurinko::Refusal> {
/// use fadurinko::{OpenTable, Plan};
/// let text = b"0102\n0100\n0100\n0202000000\n0300000001012c0100\n03010100\n0301020178\n04\n";
/// let table = OpenTable::open(text)?;
/// std::thread::scope(|threads| {
///     for (tree, word) in [([0, 2, 2], "x,x"), ([0, 2, 1], "x,"), ([0, 1, 1], ",")] {
///         let table = &table;
///         threads.spawn(move || {
///             let mut plan = Plan::new();
///             assert_eq!(table.word_with(&tree, &mut plan).unwrap(), word.as_bytes());
///         });
///     }
/// });
/// # Ok(())
/// # }
/// ```
#[derive(Clone)]
pub struct OpenTable {
    arrays: Arrays,
    plan: Plan,
}

impl fmt::Debug for OpenTable {
    fn fmt(&self, out: &mut fmt::Formatter<'_>) -> fmt::Result {
        let [symbols, states, _, rules, ..] = *self.arrays.numbers;
        out.debug_struct("OpenTable")
            .field("symbols", &symbols)
            .field("states", &states)
            .field("rules", &rules)
            .finish_non_exhaustive()
    }
}

/// An array on the heap that was never on the stack.
fn boxed<T: Clone + Default, const N: usize>() -> Box<[T; N]> {
    match vec![T::default(); N].try_into() {
        Ok(array) => array,
        Err(_) => unreachable!("the list has N entries"),
    }
}

impl OpenTable {
    /// Opens a table text, or says which line is wrong (1 to 5).
    pub fn open(text: &[u8]) -> Result<OpenTable, Refusal> {
        let mut table = OpenTable {
            arrays: Arrays {
                frames: boxed(),
                numbers: boxed(),
            },
            plan: Plan::new(),
        };
        table.reopen(text)?;
        Ok(table)
    }

    /// Opens another table text in the same memory. A refused text leaves the table as it was.
    ///
    /// ```
    /// # fn main() -> Result<(), fadurinko::Refusal> {
    /// let mut table = fadurinko::OpenTable::open(b"0100\n0201000000\n0300000161\n04\n")?;
    /// assert!(table.reopen(b"0100\n").is_err());
    /// assert_eq!(table.word(&[0])?, b"a");
    /// table.reopen(b"0100\n0201000000\n0300000162\n04\n")?;
    /// assert_eq!(table.word(&[0])?, b"b");
    /// # Ok(())
    /// # }
    /// ```
    pub fn reopen(&mut self, text: &[u8]) -> Result<(), Refusal> {
        let Arrays { frames, numbers } = &mut self.arrays;
        answered(|answer| lent::open(text, frames, numbers, answer)).map(|_| ())
    }

    /// Puts the word of a tree into the first bytes of a lent room, or says why not (6 to 12). The
    /// rest of the room stays as it was, and so does all of it on a no. Nothing is allocated.
    ///
    /// ```
    /// # fn main() -> Result<(), fadurinko::Refusal> {
    /// let mut table = fadurinko::OpenTable::open(b"0100\n0201000000\n03000003612062\n04\n")?;
    /// let mut room = [b'.'; 5];
    /// let word = table.word_into(&[0], &mut room)?;
    /// assert_eq!((word.length, word.terms), (3, 2));
    /// assert_eq!(&room, b"a b..");
    /// let no = table.word_into(&[0], &mut room[..2]).unwrap_err();
    /// assert_eq!((no.number, no.place), (fadurinko::number::ROOM, 3));
    /// # Ok(())
    /// # }
    /// ```
    pub fn word_into(&mut self, tree: &[u8], room: &mut [u8]) -> Result<Word, Refusal> {
        self.arrays.find(tree, &mut self.plan, room)
    }

    /// The word of a tree, or why it has none (6 to 11).
    pub fn word(&mut self, tree: &[u8]) -> Result<Vec<u8>, Refusal> {
        found(|room| self.word_into(tree, room))
    }

    /// As [`OpenTable::word_into`], with a plan that is lent apart: the table is only read.
    ///
    /// ```
    /// # fn main() -> Result<(), fadurinko::Refusal> {
    /// let table = fadurinko::OpenTable::open(b"0100\n0201000000\n03000003612062\n04\n")?;
    /// let mut plan = fadurinko::Plan::new();
    /// let mut room = [b'.'; 5];
    /// let word = table.word_into_with(&[0], &mut plan, &mut room)?;
    /// assert_eq!((word.length, word.terms), (3, 2));
    /// assert_eq!(&room, b"a b..");
    /// # Ok(())
    /// # }
    /// ```
    pub fn word_into_with(
        &self,
        tree: &[u8],
        plan: &mut Plan,
        room: &mut [u8],
    ) -> Result<Word, Refusal> {
        self.arrays.find(tree, plan, room)
    }

    /// As [`OpenTable::word`], with a plan that is lent apart: the table is only read.
    pub fn word_with(&self, tree: &[u8], plan: &mut Plan) -> Result<Vec<u8>, Refusal> {
        found(|room| self.word_into_with(tree, plan, room))
    }

    /// Nothing if the table is earliest, or why not (13 to 18).
    ///
    /// ```
    /// # fn main() -> Result<(), fadurinko::Refusal> {
    /// let late = fadurinko::OpenTable::open(b"0100\n0201000000\n0300000161\n04\n")?;
    /// assert_eq!(late.judge().unwrap_err().number, fadurinko::number::PREFIX);
    /// # Ok(())
    /// # }
    /// ```
    pub fn judge(&self) -> Result<(), Refusal> {
        let Arrays { frames, numbers } = &self.arrays;
        answered(|answer| lent::judge_opened(frames, numbers, answer)).map(|_| ())
    }
    /// Puts the word of a record into the first bytes of a lent room, or says why not (20 to 23, then
    /// 6, 10, 9 and 12). The rest of the room stays as it was, and so does all of it on a no. Nothing is
    /// allocated.
    ///
    /// ```
    /// # fn main() -> Result<(), fadurinko::Refusal> {
    /// let text = b"0102\n0100\n0201000000\n03000001280001290000\n03000100\n04\n";
    /// let mut table = fadurinko::OpenTable::open(text)?;
    /// let mut room = [b'.'; 6];
    /// let word = table.record_word_into(&[0, 0, 0xff, 0xff], &mut room)?;
    /// assert_eq!((word.length, word.terms), (4, 1));
    /// assert_eq!(&room, b"(())..");
    /// # Ok(())
    /// # }
    /// ```
    pub fn record_word_into(&mut self, record: &[u8], room: &mut [u8]) -> Result<Word, Refusal> {
        self.arrays.record_word(record, &mut self.plan, room)
    }

    /// The word of a record, or why it has none (20 to 23, then 6, 10 and 9): the word that the table
    /// gives its tree.
    ///
    /// ```
    /// # fn main() -> Result<(), fadurinko::Refusal> {
    /// let text = b"0102\n0100\n0201000000\n03000001280001290000\n03000100\n04\n";
    /// let mut table = fadurinko::OpenTable::open(text)?;
    /// assert_eq!(table.record_word(&[0, 0, 0xff, 0, 0xff, 0xff])?, b"(()())");
    /// let no = table.record_word(&[0, 0xff, 0, 0xff]).unwrap_err();
    /// assert_eq!((no.number, no.place), (fadurinko::number::SECOND_ROOT, 2));
    /// # Ok(())
    /// # }
    /// ```
    pub fn record_word(&mut self, record: &[u8]) -> Result<Vec<u8>, Refusal> {
        found(|room| self.record_word_into(record, room))
    }

    /// As [`OpenTable::record_word_into`], with a plan that is lent apart: the table is only read.
    pub fn record_word_into_with(
        &self,
        record: &[u8],
        plan: &mut Plan,
        room: &mut [u8],
    ) -> Result<Word, Refusal> {
        self.arrays.record_word(record, plan, room)
    }

    /// As [`OpenTable::record_word`], with a plan that is lent apart: the table is only read.
    ///
    /// ```
    /// # fn main() -> Result<(), fadurinko::Refusal> {
    /// let text = b"0102\n0100\n0201000000\n03000001280001290000\n03000100\n04\n";
    /// let table = fadurinko::OpenTable::open(text)?;
    /// let mut plan = fadurinko::Plan::new();
    /// assert_eq!(table.record_word_with(&[0, 0xff], &mut plan)?, b"()");
    /// assert_eq!(table.word_with(&[0, 1, 1], &mut plan)?, b"()");
    /// # Ok(())
    /// # }
    /// ```
    pub fn record_word_with(&self, record: &[u8], plan: &mut Plan) -> Result<Vec<u8>, Refusal> {
        found(|room| self.record_word_into_with(record, plan, room))
    }

    /// Puts the tree of a record into the first bytes of a lent room and answers its length, or says
    /// why not (20 to 23, then 6, 10 and 12). The rest of the room stays as it was, and so does all of
    /// it on a no. Nothing is allocated.
    pub fn record_tree_into(&self, record: &[u8], room: &mut [u8]) -> Result<usize, Refusal> {
        let Arrays { frames, numbers } = &self.arrays;
        answered(|answer| lent::record_tree_opened(frames, numbers, record, room, answer))
            .map(|answer| answer.length)
    }

    /// The tree of a record, or why it has none (20 to 23, then 6 and 10). It has one byte more than
    /// the record, and [`OpenTable::tree_record`] turns it back.
    ///
    /// ```
    /// # fn main() -> Result<(), fadurinko::Refusal> {
    /// let text = b"0102\n0100\n0201000000\n03000001280001290000\n03000100\n04\n";
    /// let table = fadurinko::OpenTable::open(text)?;
    /// let tree = table.record_tree(&[0, 0, 0xff, 0, 0xff, 0xff])?;
    /// assert_eq!(tree, [0, 0, 1, 0, 1, 1, 1]);
    /// assert_eq!(table.tree_record(&tree)?, [0, 0, 0xff, 0, 0xff, 0xff]);
    /// # Ok(())
    /// # }
    /// ```
    pub fn record_tree(&self, record: &[u8]) -> Result<Vec<u8>, Refusal> {
        written(tree_room(record), |room| {
            self.record_tree_into(record, room)
        })
    }

    /// Puts the record of a tree into the first bytes of a lent room and answers its length, or says
    /// why not (20, then 6, 7, 8, 10, 11, 24 and 12). The rest of the room stays as it was, and so does
    /// all of it on a no. Nothing is allocated.
    pub fn tree_record_into(&self, tree: &[u8], room: &mut [u8]) -> Result<usize, Refusal> {
        let Arrays { frames, numbers } = &self.arrays;
        answered(|answer| lent::tree_record_opened(frames, numbers, tree, room, answer))
            .map(|answer| answer.length)
    }

    /// The record of a tree, or why it has none (20, then 6, 7, 8, 10, 11 and 24). It has one byte less
    /// than the tree, and [`OpenTable::record_tree`] turns it back.
    pub fn tree_record(&self, tree: &[u8]) -> Result<Vec<u8>, Refusal> {
        written(record_room(tree), |room| self.tree_record_into(tree, room))
    }
}
