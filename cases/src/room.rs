//! Rooms between guard bytes.

use fadurinko::limit::LONGEST;
use fadurinko_second::rng::Rng;

use crate::answer::Output;

/// At least so many guard bytes stand on each side.
const GUARD: usize = 128;
/// A room starts at any of so many places, so that its alignment varies.
const STARTS: usize = 64;
/// How much longer than the longest word a room gets at most.
const MORE: usize = 4_096;

/// Where a room lies in the bytes, and where in the pattern their old content is.
#[derive(Clone, Copy)]
struct Lent {
    start: usize,
    length: usize,
    pattern: usize,
}

pub struct Rooms {
    rng: Rng,
    pattern: Vec<u8>,
    bytes: Vec<u8>,
    lent: Lent,
}

impl Rooms {
    pub fn new(seed: u64) -> Rooms {
        let mut rng = Rng::new(seed ^ 0x0072_6f6f_6d73);
        let size = LONGEST + MORE + 2 * GUARD + STARTS;
        let pattern = (0..size + 256).map(|_| rng.byte()).collect();
        Rooms {
            rng,
            pattern,
            bytes: vec![0; size],
            lent: Lent {
                start: 0,
                length: 0,
                pattern: 0,
            },
        }
    }

    /// The lengths to try for what is due.
    pub fn lengths_for(&mut self, output: Output<'_>) -> Vec<usize> {
        match output {
            Ok((bytes, _)) => self.lengths(bytes.len()),
            Err(_) => self.lengths_for_nothing().to_vec(),
        }
    }

    /// The lengths to try for what is due where so many bytes are given: where nothing is written, also one
    /// in which all of them have place.
    pub fn lengths_for_record(&mut self, output: Output<'_>, given: usize) -> Vec<usize> {
        let mut lengths = self.lengths_for(output);
        if output.is_err() {
            lengths.push(self.rng.between(given, given + 70).min(LONGEST));
        }
        lengths
    }

    /// The lengths to try for an output: none, one, around what is needed, and more.
    fn lengths(&mut self, need: usize) -> Vec<usize> {
        let around = need.saturating_sub(2)..=need + 2;
        let more = [
            self.rng.between(need, need + 70),
            self.rng.between(need, need + MORE),
            self.rng.below(need + 1),
        ];
        let mut lengths: Vec<usize> = [0, 1].into_iter().chain(around).chain(more).collect();
        lengths.sort_unstable();
        lengths.dedup();
        lengths
    }

    /// The lengths to try where nothing is written.
    fn lengths_for_nothing(&mut self) -> [usize; 3] {
        [0, 1, self.rng.between(2, 300)]
    }

    /// A room of this length; what stands in it and around it is fresh.
    pub fn lend(&mut self, length: usize) -> &mut [u8] {
        self.lent = Lent {
            start: GUARD + self.rng.below(STARTS),
            length,
            pattern: self.rng.below(256),
        };
        let Lent { start, pattern, .. } = self.lent;
        let all = start + length + GUARD;
        self.bytes[..all].copy_from_slice(&self.pattern[pattern..pattern + all]);
        &mut self.bytes[start..start + length]
    }

    /// Whether every byte outside the room last lent is as it was.
    pub fn holds_outside(&self) -> Result<(), &'static str> {
        let Lent {
            start,
            length,
            pattern,
        } = self.lent;
        let old = &self.pattern[pattern..];
        let end = start + length;
        let all = end + GUARD;
        if self.bytes[..start] != old[..start] {
            Err("bytes before the room changed")
        } else if self.bytes[end..all] != old[end..all] {
            Err("bytes behind the room changed")
        } else {
            Ok(())
        }
    }

    /// Whether the room last lent has this output in front and every other byte is as it was.
    pub fn holds(&self, output: &[u8]) -> Result<(), &'static str> {
        let Lent {
            start,
            length,
            pattern,
        } = self.lent;
        let old = &self.pattern[pattern..];
        let (written, end) = (start + output.len(), start + length);
        self.holds_outside()?;
        if written > end || self.bytes[start..written] != *output {
            Err("the output is another")
        } else if self.bytes[written..end] != old[written..end] {
            Err("bytes behind the output changed")
        } else {
            Ok(())
        }
    }
}

#[cfg(test)]
mod tests {
    use super::*;

    #[test]
    fn every_wrong_byte_is_seen() {
        let mut rooms = Rooms::new(1);
        let length = 20;
        for wrong in 0..GUARD + STARTS + length + GUARD {
            rooms.lend(length)[..3].copy_from_slice(b"abc");
            assert_eq!(rooms.holds(b"abc"), Ok(()));
            if wrong < rooms.lent.start + length + GUARD {
                rooms.bytes[wrong] ^= 1;
                assert!(rooms.holds(b"abc").is_err(), "byte {wrong}");
            }
        }
        rooms.lend(2);
        assert!(rooms.holds(b"abc").is_err());
        assert_eq!(rooms.holds_outside(), Ok(()));
    }

    #[test]
    fn lengths_lie_around_the_need() {
        let mut rooms = Rooms::new(2);
        for need in [0, 1, 2, 3, 100, LONGEST] {
            let lengths = rooms.lengths(need);
            assert!((need.saturating_sub(2)..=need + 2).all(|length| lengths.contains(&length)));
            assert!(lengths.contains(&0) && lengths.contains(&1));
            for length in lengths {
                rooms.lend(length);
                assert_eq!(rooms.holds(b""), Ok(()));
            }
        }
    }
}
