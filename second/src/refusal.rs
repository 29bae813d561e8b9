//! The numbers of no.

use std::fmt;

pub const TEXT_SIZE: u8 = 1;
pub const LINE: u8 = 2;
pub const KIND: u8 = 3;
pub const RANGE: u8 = 4;
pub const FRAME_LENGTH: u8 = 5;
pub const TREE_SIZE: u8 = 6;
pub const UNKNOWN_SYMBOL: u8 = 7;
pub const TREE_STOPS: u8 = 8;
pub const NO_RULE: u8 = 9;
pub const TOO_DEEP: u8 = 10;
pub const BEHIND_TREE: u8 = 11;
pub const ROOM: u8 = 12;
pub const NOT_REACHED: u8 = 13;
pub const NO_WORD: u8 = 14;
pub const COMMON_PREFIX: u8 = 15;
pub const COMMON_SUFFIX: u8 = 16;
pub const LATE_INITIAL_RULE: u8 = 17;
pub const LATE_RULE: u8 = 18;
pub const SYMBOL_LISTS: u8 = 19;
pub const RECORD_SYMBOLS: u8 = 20;
pub const STREAM_BYTE: u8 = 21;
pub const STREAM_CLOSE: u8 = 22;
pub const SECOND_ROOT: u8 = 23;
pub const NO_IMAGE: u8 = 24;

/// A no: its number and its place.
#[derive(Clone, Copy, Debug, PartialEq, Eq, Hash)]
pub struct Refusal {
    pub number: u8,
    pub place: usize,
}

impl Refusal {
    pub const fn new(number: u8, place: usize) -> Refusal {
        Refusal { number, place }
    }
}

impl fmt::Display for Refusal {
    fn fmt(&self, out: &mut fmt::Formatter<'_>) -> fmt::Result {
        write!(out, "no {} {}", self.number, self.place)
    }
}

/// Puts `output` into the first bytes of `room`, or refuses with the length
/// needed and leaves the room as it was.
pub fn put_into_room(output: &[u8], room: &mut [u8]) -> Result<(), Refusal> {
    match room.get_mut(..output.len()) {
        Some(part) => {
            part.copy_from_slice(output);
            Ok(())
        }
        None => Err(Refusal::new(ROOM, output.len())),
    }
}
