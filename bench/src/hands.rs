//! Hands that answer with bytes in a room: the word of a tree, and the calls on records.

use crate::proved::LONGEST;
use crate::task::{checking, Task, Work};
use std::hint::black_box;

/// A number of no and its place.
pub type No = (u8, usize);

/// The output's length and terms, or the no.
pub type Answer = Result<(usize, usize), No>;

/// A benchmark's tables and trees live as long as the program.
pub fn kept<T>(value: T) -> &'static T {
    Box::leak(Box::new(value))
}

pub fn plan() -> Box<[u32; LONGEST]> {
    Box::new([0; LONGEST])
}

/// One hand: the answer on what is given, with the output in a room that it keeps.
pub struct Hand<Given: 'static> {
    name: &'static str,
    find: Box<dyn FnMut(&Given, &mut [u8]) -> Answer>,
    room: Vec<u8>,
}

impl<Given> Hand<Given> {
    pub fn new(
        name: &'static str,
        room: usize,
        find: impl FnMut(&Given, &mut [u8]) -> Answer + 'static,
    ) -> Hand<Given> {
        Hand {
            name,
            find: Box::new(find),
            room: vec![0; room],
        }
    }

    /// The answer and the output's bytes.
    fn answer(&mut self, given: &Given) -> (Answer, Vec<u8>) {
        let answer = (self.find)(given, &mut self.room);
        let length = answer.map_or(0, |(length, _)| length);
        (answer, self.room[..length].to_vec())
    }

    fn work(self, all: &'static [Given]) -> (&'static str, Work) {
        let Hand {
            name,
            mut find,
            mut room,
        } = self;
        (
            name,
            Box::new(move || {
                for given in all {
                    black_box(find(black_box(given), &mut room)).ok();
                }
            }),
        )
    }
}

/// What is done again and again: pieces of input with so many units together, and the no that each
/// of them gets, if it gets one.
pub struct Pieces<Given: 'static> {
    pub all: &'static [Given],
    pub unit: &'static str,
    pub units: usize,
    pub refused: Option<No>,
}

/// Every hand gives the same answer and the same bytes on each piece.
fn agree<Given>(name: &str, hands: &mut [Hand<Given>], pieces: &Pieces<Given>) {
    let (first, others) = hands.split_first_mut().expect("there is a proved hand");
    for given in pieces.all {
        let answer = first.answer(given);
        assert_eq!(answer.0.err(), pieces.refused, "{name}");
        for other in others.iter_mut() {
            assert!(
                other.answer(given) == answer,
                "{name}: {} and {} differ",
                first.name,
                other.name
            );
        }
    }
}

/// The outputs of a hand.
fn outputs<Given>(hand: &mut Hand<Given>, all: &[Given]) -> Vec<Vec<u8>> {
    all.iter().map(|given| hand.answer(given).1).collect()
}

/// Copying the outputs, for scale.
fn copying(
    name: &'static str,
    outputs: &'static [Vec<u8>],
    copy: impl Fn(&[u8], &mut [u8]) + 'static,
) -> (&'static str, Work) {
    let longest = outputs.iter().map(Vec::len).max().unwrap_or(0);
    let mut room = vec![0; longest];
    (
        name,
        Box::new(move || {
            outputs
                .iter()
                .for_each(|output| copy(black_box(output), black_box(&mut room)))
        }),
    )
}

/// Copying the outputs one byte after the other: the compiler may not take several together.
pub fn copying_by_bytes(outputs: &'static [Vec<u8>]) -> (&'static str, Work) {
    copying("bytes", outputs, |output, room| {
        for (to, &byte) in room.iter_mut().zip(output) {
            *to = byte;
            black_box(());
        }
    })
}

/// The task of all hands, of which the first is the proved one, beside the outputs copied at once.
pub fn task<Given>(name: &str, mut hands: Vec<Hand<Given>>, pieces: Pieces<Given>) -> Task {
    if checking() {
        agree(name, &mut hands, &pieces);
    }
    let copies = pieces.refused.is_none().then(|| {
        let outputs = kept(outputs(&mut hands[0], pieces.all));
        copying("memcpy", outputs, |output, room| {
            room[..output.len()].copy_from_slice(output)
        })
    });
    let works = hands.into_iter().map(|hand| hand.work(pieces.all));
    Task {
        name: name.to_string(),
        unit: pieces.unit,
        units: pieces.units,
        hands: works.chain(copies).collect(),
    }
}
