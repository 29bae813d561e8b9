//! The numbers of no, in words.

use std::error::Error;
use std::fmt;

/// A no: its number, 1 to 24, and its place. Nothing was written.
///
/// ```
/// let refusal = fadurinko::judge(b"01").unwrap_err();
/// assert_eq!((refusal.number, refusal.place), (fadurinko::number::LINE, 0));
/// assert_eq!(
///     refusal.to_string(),
///     "no 2 0: a line is empty, has an odd number of digits or another character, or is not closed; \
///      look at the line that starts at byte 0 of the table text"
/// );
/// ```
#[derive(Clone, Copy, Debug, PartialEq, Eq, Hash)]
pub struct Refusal {
    /// What is wrong; the names are in [`crate::number`].
    pub number: u8,
    /// Where it is wrong. What is counted depends on the number.
    pub place: usize,
}

impl Refusal {
    /// What the number means.
    pub fn meaning(&self) -> &'static str {
        match self.number {
            1 => "the table text is empty or longer than 32768 bytes",
            2 => "a line is empty, has an odd number of digits or another character, or is not closed",
            3 => "a frame is unknown or not due here, a rule does not rise, or the end frame is lacking",
            4 => "a number is beyond its range, or there is a 65th symbol or a 513th rule",
            5 => "a frame is too short or too long",
            6 => "the tree is empty or longer than 32768 symbols",
            7 => "a symbol is not in the table's list",
            8 => "the tree stops early",
            9 => "there is no rule for the state and the symbol",
            10 => "the tree has more than 64 levels",
            11 => "there are symbols behind the tree's end",
            12 => "the room is too short",
            13 => "a state is not reached from the initial state",
            14 => "a state has no word",
            15 => "the table is late: the words of a state have a common prefix",
            16 => "the table is late: the words of a state have a common suffix",
            17 => "the table is late: letters of the initial rule could stand further left",
            18 => "the table is late: letters of a rule could stand further left",
            19 => "the symbol lists of the two tables differ",
            20 => "the symbol list is not one for records",
            21 => "a byte of the record is neither a label nor ff",
            22 => "an element is closed that is not open, or the record is empty or left open",
            23 => "a second root stands behind the record's end",
            24 => "the tree is no record's image",
            _ => "no such number is given",
        }
    }

    fn advice(&self, out: &mut fmt::Formatter<'_>) -> fmt::Result {
        let place = self.place;
        match self.number {
            1 => write!(out, "give 1 to 32768 bytes"),
            2..=5 => write!(
                out,
                "look at the line that starts at byte {place} of the table text{}",
                self.line_advice()
            ),
            6 => write!(
                out,
                "give 1 to 32768 symbols, or a record of 1 to 16383 elements"
            ),
            7 => write!(out, "look at the symbol at {place}"),
            10 => write!(
                out,
                "look at the symbol at {place}; in a record each element stands a level below the one that \
                 it is inside of or beside"
            ),
            8 => write!(out, "its {place} symbols need more trees below them"),
            9 => write!(
                out,
                "the table turns this tree down at the symbol at {place}"
            ),
            11 => write!(out, "cut the tree before the symbol at {place}"),
            12 => write!(out, "lend {place} bytes"),
            13..=18 => self.table_advice(out),
            19 => write!(out, "look at the symbol with index {place}, counted from 0"),
            20..=24 => self.record_advice(out),
            _ => write!(
                out,
                "the archive is not the one that this crate was made for"
            ),
        }
    }

    /// What to look for in a faulty line.
    fn line_advice(&self) -> &'static str {
        match self.number {
            3 => "; if the text ends there, close it with the line 04",
            4 => {
                ": a state or symbol must be below its count; often a child is forgotten or a word's \
                 length is wrong, so that the next byte is read as a number that it is not"
            }
            5 => ": compare the word lengths with the letters, and the children with the symbol's arity",
            _ => "",
        }
    }

    /// What to do about a record, or about a table or tree that is to be one.
    fn record_advice(&self, out: &mut fmt::Formatter<'_>) -> fmt::Result {
        let place = self.place;
        match self.number {
            20 => write!(
                out,
                "look at the symbol with index {place}, counted from 0: the last must have arity 0 and \
                 all others 2"
            ),
            21 => write!(
                out,
                "look at the byte at {place}: the labels are the numbers below that of the last symbol"
            ),
            22 => write!(
                out,
                "look at the ff at {place}, which is one too many; if the record ends there, it is empty or \
                 lacks an ff for each open element"
            ),
            23 => write!(
                out,
                "cut the record before the byte at {place} and give the rest as another one"
            ),
            _ if place == 0 => write!(out, "it is a lone leaf, which stands for no element"),
            _ => write!(
                out,
                "another element stands beside its root: the symbol at {place} must be the last one of the \
                 table's list"
            ),
        }
    }

    /// How to change a table that is not earliest. Each change leaves the words of all trees as they
    /// were, but for a rule that is added.
    fn table_advice(&self, out: &mut fmt::Formatter<'_>) -> fmt::Result {
        let place = self.place;
        match self.number {
            13 => write!(out, "drop state {place}{DROPPED}"),
            14 => write!(
                out,
                "give state {place} a rule that ends, or drop it{DROPPED}"
            ),
            15 => write!(
                out,
                "write its first letter in front of every call of state {place}, in its own rules too, \
                 and take it off the front of the first word of each of its rules; where that word is \
                 empty, the letter comes from the first child: move it in front of that child first"
            ),
            16 => write!(
                out,
                "write its last letter behind every call of state {place}, in its own rules too, and \
                 take it off the end of the last word of each of its rules; where that word is empty, \
                 the letter comes from the last child: move it behind that child first"
            ),
            17 => write!(out, "move the letter in front of the state; {TURNED}"),
            _ => write!(
                out,
                "in the rule with index {place}, counted from 0, move the letter in front of the child; \
                 {TURNED}"
            ),
        }
    }
}

/// What goes with a state that is dropped: the states behind it are counted anew.
const DROPPED: &str = ", its rules and the rules that call it; then number the later states one \
                       lower, and lower the count of states";

/// A letter passes a state's words by leaving their front and standing at their end.
const TURNED: &str =
    "if the state has words that begin with it, call a state there whose words end \
                      with it instead";

impl fmt::Display for Refusal {
    fn fmt(&self, out: &mut fmt::Formatter<'_>) -> fmt::Result {
        write!(
            out,
            "no {} {}: {}; ",
            self.number,
            self.place,
            self.meaning()
        )?;
        self.advice(out)
    }
}

impl Error for Refusal {}

/// A no about two tables.
///
/// ```
/// let one = b"0100\n0201000000\n03000000\n04\n";
/// let two = b"0100\n0100\n0201000000\n03000000\n04\n";
/// let no = fadurinko::compare(one, two).unwrap_err();
/// assert_eq!((no.table, no.refusal.number, no.refusal.place), (0, 19, 1));
/// assert_eq!(
///     no.to_string(),
///     "no 19 1: the symbol lists of the two tables differ; \
///      look at the symbol with index 1, counted from 0"
/// );
/// ```
#[derive(Clone, Copy, Debug, PartialEq, Eq, Hash)]
pub struct CompareRefusal {
    /// Which table it is about: 1 or 2, or 0 for number 19, which is about both.
    pub table: u8,
    /// Its number and its place.
    pub refusal: Refusal,
}

impl fmt::Display for CompareRefusal {
    fn fmt(&self, out: &mut fmt::Formatter<'_>) -> fmt::Result {
        match self.table {
            1 => write!(out, "first table: {}", self.refusal),
            2 => write!(out, "second table: {}", self.refusal),
            _ => self.refusal.fmt(out),
        }
    }
}

impl Error for CompareRefusal {}
