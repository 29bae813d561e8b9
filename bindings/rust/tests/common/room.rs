//! Rooms between guard bytes, and answers full of other things before a call.

use fadurinko::lent::Answer;
use fadurinko::{limit, Refusal};

/// Long enough for any copy that is done in pieces of 32.
pub const GUARD: usize = 96;

pub fn pattern(length: usize) -> Vec<u8> {
    (0..length).map(|at| (at * 37 + 11) as u8 ^ 0xa5).collect()
}

/// Calls with a room of this length inside guard bytes. A yes must put `output` to its front; all
/// other bytes stay as they were, and a room that is too short is number 12.
pub fn in_a_room<A>(
    length: usize,
    output: &[u8],
    yes: A,
    call: impl FnOnce(&mut [u8]) -> Result<A, Refusal>,
) where
    A: PartialEq + std::fmt::Debug,
{
    let mut bytes = pattern(length + 2 * GUARD);
    let mut expected = bytes.clone();
    let answer = call(&mut bytes[GUARD..GUARD + length]);
    if length < output.len() {
        assert_eq!(
            answer,
            Err(Refusal {
                number: 12,
                place: output.len()
            }),
            "room {length}"
        );
    } else {
        assert_eq!(answer, Ok(yes), "room {length}");
        expected[GUARD..GUARD + output.len()].copy_from_slice(output);
    }
    assert!(
        bytes == expected,
        "bytes differ, room {length}, output {}",
        output.len()
    );
}

/// None, one, one and two too few, exact, and more.
pub fn lengths(need: usize) -> Vec<usize> {
    let around = need.saturating_sub(34)..=need + 34;
    (0..=2).chain(around).chain([2 * need + 100]).collect()
}

/// What an earlier call may have left in an answer: no entry is 0.
pub fn strange() -> Answer {
    Answer::from([usize::MAX; limit::ANSWER])
}

/// The entries of an answer, of which those behind the table are 0.
pub fn entries(place: usize, length: usize, terms: usize, same: usize, table: usize) -> Answer {
    Answer::from([place, length, terms, same, table, 0, 0, 0])
}

/// Whether the guard bytes before and behind a room that was filled with the pattern are as they were.
pub fn is_guarded(bytes: &[u8]) -> bool {
    let (before, behind) = (pattern(bytes.len()), bytes.len() - GUARD);
    bytes[..GUARD] == before[..GUARD] && bytes[behind..] == before[behind..]
}

/// Numbers that look like any others.
pub fn noise() -> impl FnMut() -> u64 {
    let mut state = 0x9e37_79b9_7f4a_7c15_u64;
    move || {
        state ^= state << 13;
        state ^= state >> 7;
        state ^= state << 17;
        state
    }
}
