//! What the calls answer, and what the second program makes due.

use fadurinko::lent::Answer;
use fadurinko::limit::ANSWER;
use fadurinko_second::refusal::{Refusal, ROOM};

/// A call's number and what it handed out.
pub type Told = (u8, Answer);

/// What a call tells into an answer whose entries are all another number before.
pub fn told(call: impl FnOnce(&mut Answer) -> u8) -> Told {
    let mut answer = Answer::from([usize::MAX; ANSWER]);
    let number = call(&mut answer);
    (number, answer)
}

/// A yes that holds nothing, or a no.
pub fn due<A>(answer: &Result<A, Refusal>) -> Told {
    match answer {
        Ok(_) => (0, Answer::default()),
        Err(refusal) => refused(*refusal),
    }
}

pub fn refused(refusal: Refusal) -> Told {
    refused_about(0, refusal)
}

pub fn refused_about(table: u8, refusal: Refusal) -> Told {
    let Refusal { number, place } = refusal;
    (
        number,
        Answer::from([place, 0, 0, 0, table.into(), 0, 0, 0]),
    )
}

pub fn put(length: usize, terms: usize) -> Told {
    (0, Answer::from([0, length, terms, 0, 0, 0, 0, 0]))
}

pub fn compared(is_same: bool) -> Told {
    (0, Answer::from([0, 0, 0, is_same.into(), 0, 0, 0, 0]))
}

/// What a call that writes is due where the room is long enough: the bytes that it writes and the terms
/// that it tells, or a no.
pub type Output<'bytes> = Result<(&'bytes [u8], usize), Refusal>;

/// The answer that is due in a room of this length, and the bytes that are written there.
pub fn in_a_room(output: Output<'_>, length: usize) -> (Told, &[u8]) {
    match output {
        Ok((bytes, terms)) if bytes.len() <= length => (put(bytes.len(), terms), bytes),
        Ok((bytes, _)) => (refused(Refusal::new(ROOM, bytes.len())), b""),
        Err(refusal) => (refused(refusal), b""),
    }
}

/// Whether an answer about one table has nothing in an entry that it has no use for: a yes has no place,
/// a no has nothing else.
pub fn is_whole(told: Told) -> bool {
    let (
        number,
        Answer {
            place,
            length,
            terms,
            ..
        },
    ) = told;
    match number {
        0 => told == put(length, terms),
        _ => told == refused(Refusal { number, place }),
    }
}

#[cfg(test)]
mod tests {
    use super::*;

    #[test]
    fn a_room_takes_all_or_nothing() {
        let output: Output = Ok((b"abc", 2));
        assert_eq!(in_a_room(output, 4), (put(3, 2), &b"abc"[..]));
        assert_eq!(in_a_room(output, 3), (put(3, 2), &b"abc"[..]));
        let too_short = (refused(Refusal::new(ROOM, 3)), &b""[..]);
        assert_eq!(in_a_room(output, 2), too_short);
        let refusal = Refusal::new(9, 4);
        assert_eq!(in_a_room(Err(refusal), 3), (refused(refusal), &b""[..]));
    }

    #[test]
    fn every_entry_that_is_left_is_seen() {
        assert!(is_whole(put(3, 1)) && is_whole(refused(Refusal::new(9, 4))));
        for number in [0, 9] {
            for left in 0..ANSWER {
                let wrong = match (number, left) {
                    (0, 1 | 2) | (9, 0) => continue,
                    _ => told(|answer| {
                        *answer = Answer::from(std::array::from_fn(|i| usize::from(i == left)));
                        number
                    }),
                };
                assert!(!is_whole(wrong), "number {number}, entry {left}");
            }
        }
    }
}
