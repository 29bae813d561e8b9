//! Bytes that come to a program piece by piece.

use std::io::Write;
use std::path::Path;
use std::thread;
use std::time::Duration;

use fadurinko_second::rng::Rng;

/// Between two pieces, so that a program that waits gets the first alone.
const PAUSE: Duration = Duration::from_micros(100);
/// Once in the middle: no program is so slow that both sides of it come in one read.
const LONG_PAUSE: Duration = Duration::from_millis(20);
/// So many pauses are made at most, that long texts do not take long.
const MOST_PAUSES: usize = 200;

/// Pieces and how long to wait between them.
pub struct Pieces {
    pieces: Vec<Vec<u8>>,
    steady: Option<Duration>,
}

impl Pieces {
    pub fn whole(bytes: &[u8]) -> Pieces {
        Pieces {
            pieces: vec![bytes.to_vec()],
            steady: None,
        }
    }

    /// Pieces of one length; the last may be shorter.
    pub fn of_length(bytes: &[u8], length: usize) -> Pieces {
        Pieces {
            pieces: bytes.chunks(length).map(<[u8]>::to_vec).collect(),
            steady: None,
        }
    }

    /// Pieces of one to seven bytes.
    pub fn small(bytes: &[u8], rng: &mut Rng) -> Pieces {
        let mut pieces = Vec::new();
        let mut rest = bytes;
        while !rest.is_empty() {
            let (piece, behind) = rest.split_at(rng.between(1, 7).min(rest.len()));
            pieces.push(piece.to_vec());
            rest = behind;
        }
        Pieces {
            pieces,
            steady: None,
        }
    }

    /// These pieces, with the same time between any two.
    pub fn every(pieces: Vec<Vec<u8>>, between: Duration) -> Pieces {
        Pieces {
            pieces,
            steady: Some(between),
        }
    }

    fn pause_behind(&self, index: usize) -> Option<Duration> {
        let count = self.pieces.len();
        if index + 1 == count {
            None
        } else if self.steady.is_some() {
            self.steady
        } else if index == count / 2 {
            Some(LONG_PAUSE)
        } else {
            let due = index.is_multiple_of(count / MOST_PAUSES + 1);
            due.then_some(PAUSE)
        }
    }

    /// Writes all pieces, as long as somebody reads.
    fn pour(&self, mut to: impl Write) {
        for (index, piece) in self.pieces.iter().enumerate() {
            if to.write_all(piece).and_then(|()| to.flush()).is_err() {
                return;
            }
            if let Some(pause) = self.pause_behind(index) {
                thread::sleep(pause);
            }
        }
    }

    /// Pours from a thread that nobody waits for: where the program stops reading, or ends, the
    /// thread stops too or is left behind.
    pub fn pour_beside(self, to: impl Write + Send + 'static) {
        thread::spawn(move || self.pour(to));
    }

    /// The same into a named pipe, which can be opened once the program has opened it.
    pub fn pour_into_named(self, pipe: &Path) {
        let path = pipe.to_path_buf();
        thread::spawn(move || {
            if let Ok(pipe) = std::fs::OpenOptions::new().write(true).open(path) {
                self.pour(pipe);
            }
        });
    }
}

#[cfg(test)]
mod tests {
    use super::*;

    #[test]
    fn pieces_are_small_and_all_there() {
        let bytes: Vec<u8> = (0..=255).cycle().take(3_000).collect();
        let pieces = Pieces::small(&bytes, &mut Rng::new(3));
        assert!(pieces
            .pieces
            .iter()
            .all(|piece| (1..=7).contains(&piece.len())));
        let mut poured = Vec::new();
        pieces.pour(&mut poured);
        assert_eq!(poured, bytes);
    }

    #[test]
    fn pauses_are_bounded() {
        let pieces = Pieces::of_length(&[0; 50_000], 1);
        let pauses: Vec<_> = (0..50_000)
            .filter_map(|index| pieces.pause_behind(index))
            .collect();
        assert!(pauses.len() <= MOST_PAUSES + 1 && pauses.contains(&LONG_PAUSE));
    }
}
