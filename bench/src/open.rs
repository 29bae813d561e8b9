//! Opening a table text.

use crate::grow;
use crate::opened::Opened;
use crate::plain;
use crate::proved;
use crate::task::{checking, wanted, Task, Work};
use crate::tuned;
use fadurinko_second::table;
use std::hint::black_box;

type Answer = Result<(), (u8, usize)>;
type Open = fn(&[u8], &mut Opened) -> Answer;

const HANDS: [(&str, Open); 3] = [
    ("proved", proved::open),
    ("plain", plain::open::open),
    ("tuned", tuned::open::open),
];

/// An opened table that is full of other things: what opening leaves alone shows as well.
fn dirty() -> Opened {
    let mut opened = Opened::blank();
    opened.frames.fill(170);
    opened.numbers.fill(u64::MAX / 3);
    opened
}

fn answer(open: Open, text: &[u8]) -> (Answer, Opened) {
    let mut opened = dirty();
    let answer = open(text, &mut opened);
    (answer, opened)
}

fn same(one: &(Answer, Opened), other: &(Answer, Opened)) -> bool {
    one.0 == other.0 && one.1.frames == other.1.frames && one.1.numbers == other.1.numbers
}

/// Every hand gives the same answer and the same bytes, also on spoiled texts.
fn agree(name: &str, text: &[u8]) {
    let (_, first) = HANDS[0];
    assert_eq!(answer(first, text).0, Ok(()), "{name}");
    for text in spoiled(text) {
        let expected = answer(first, &text);
        let second = table::read(&text)
            .map(|_| ())
            .map_err(|no| (no.number, no.place));
        assert!(second == expected.0, "{name}: second differs");
        for (hand, open) in HANDS {
            assert!(
                same(&answer(open, &text), &expected),
                "{name}: {hand} differs"
            );
        }
    }
}

/// The text itself, cut in many places, and with one byte changed in many places.
fn spoiled(text: &[u8]) -> Vec<Vec<u8>> {
    let mut texts = vec![text.to_vec()];
    for (turn, at) in (0..text.len()).step_by(1 + text.len() / 60).enumerate() {
        texts.push(text[..at].to_vec());
        let mut changed = text.to_vec();
        changed[at] = b"0123456789abcdefg\n"[turn * 7 % 18];
        texts.push(changed);
    }
    texts
}

fn work(open: Open, texts: &'static [Vec<u8>]) -> Work {
    let mut opened = Opened::blank();
    Box::new(move || {
        for text in texts {
            black_box(open(black_box(text), black_box(&mut opened))).ok();
        }
    })
}

fn second_work(texts: &'static [Vec<u8>]) -> Work {
    Box::new(move || {
        for text in texts {
            black_box(table::read(black_box(text))).ok();
        }
    })
}

/// Texts of this size, about 32,000 bytes together: so many that no branch is learned by heart.
fn task(name: &str, bytes: usize) -> Option<Task> {
    if !wanted(name) {
        return None;
    }
    let texts: Vec<Vec<u8>> = (0..32_000 / bytes as u64)
        .map(|seed| grow::text_of(seed, bytes))
        .collect();
    let texts: &'static [Vec<u8>] = Box::leak(Box::new(texts));
    if checking() {
        texts.iter().take(4).for_each(|text| agree(name, text));
        // These have 64 states; one with fewer leaves numbers alone.
        agree(name, &grow::text(bytes as u64, 8));
    }
    let mut hands: Vec<(&'static str, Work)> =
        HANDS.map(|(hand, open)| (hand, work(open, texts))).into();
    hands.push(("second", second_work(texts)));
    Some(Task {
        name: name.to_string(),
        unit: "byte",
        units: texts.iter().map(Vec::len).sum(),
        hands,
    })
}

pub fn tasks() -> Vec<Task> {
    let all = [
        task("open, texts of 500 bytes", 500),
        task("open, texts of 4,000 bytes", 4_000),
        task("open, a text of 32,000 bytes", 32_000),
    ];
    all.into_iter().flatten().collect()
}
