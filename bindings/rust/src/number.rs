//! The numbers of no, by name. [`crate::Refusal`] says each in words.

/// The table text is empty or too long; place 0.
pub const TEXT_SIZE: u8 = 1;
/// A line is damaged; place: its start in the text, as for the next three.
pub const LINE: u8 = 2;
/// A frame is unknown or not due, a rule does not rise, or the end is lacking (place: text length).
pub const KIND: u8 = 3;
/// A number is beyond its range, or there are too many symbols or rules.
pub const RANGE: u8 = 4;
/// A frame is too short or too long.
pub const FRAME_LENGTH: u8 = 5;
/// The tree is empty or too long; place 0.
pub const TREE_SIZE: u8 = 6;
/// A symbol is not in the list; place: its position.
pub const SYMBOL: u8 = 7;
/// The tree stops early; place: its length.
pub const TREE_STOPS: u8 = 8;
/// No rule for the state and the symbol; place: the symbol's position.
pub const RULE: u8 = 9;
/// Level 65; place: the symbol's position.
pub const DEPTH: u8 = 10;
/// Symbols behind the tree's end; place: the first of them.
pub const TREE_ENDED: u8 = 11;
/// The room is too short; place: the length needed.
pub const ROOM: u8 = 12;
/// A state is not reached; place: the least such, as for the next three.
pub const REACHED: u8 = 13;
/// A state has no word.
pub const WORD: u8 = 14;
/// Late: the words of a state have a common prefix.
pub const PREFIX: u8 = 15;
/// Late: the words of a state have a common suffix.
pub const SUFFIX: u8 = 16;
/// Late: letters of the initial rule could stand further left; place 0.
pub const INITIAL: u8 = 17;
/// Late: letters of a rule could stand further left; place: the rule's index.
pub const EARLIEST_RULE: u8 = 18;
/// The symbol lists of two tables differ; place: the first index where they do.
pub const SYMBOL_LISTS: u8 = 19;
/// The symbol list is not one for records; place: the first index with a wrong arity.
pub const RECORD_SYMBOLS: u8 = 20;
/// A byte of a record is neither a label nor ff; place: its position, as for the next two.
pub const STREAM_BYTE: u8 = 21;
/// A close without an open element, or a record that is empty or left open (place: its length).
pub const STREAM_CLOSE: u8 = 22;
/// A second root.
pub const SECOND_ROOT: u8 = 23;
/// The tree is no record's image; place: 0 for a lone leaf, else that of the root's second child.
pub const IMAGE: u8 = 24;
