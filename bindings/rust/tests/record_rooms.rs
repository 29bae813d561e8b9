//! Rooms of every length around what a record, its tree or its word needs, with guard bytes before and
//! behind.

mod common;

use common::room::{entries, in_a_room, is_guarded, lengths, noise, pattern, strange, GUARD};
use common::{brackets, full_tree, record_of, text, Rule, CLOSE, RECORDS};
use fadurinko::lent::{self, Answer};
use fadurinko::{
    limit, record_tree_into, record_word_into, tree_record_into, OpenTable, Plan, Word,
};

/// The word of a record by every call that writes it.
fn word_in_every_room(text: &[u8], record: &[u8], output: &[u8], terms: usize) {
    let mut table = OpenTable::open(text).unwrap();
    let mut plan = Plan::new();
    for length in lengths(output.len()) {
        let yes = Word {
            length: output.len(),
            terms,
        };
        in_a_room(length, output, yes, |room| {
            record_word_into(text, record, room)
        });
        in_a_room(length, output, yes, |room| {
            table.record_word_into(record, room)
        });
        in_a_room(length, output, yes, |room| {
            table.record_word_into_with(record, &mut plan, room)
        });
    }
}

/// The tree of a record and the record of a tree by every call that writes them.
fn both_in_every_room(text: &[u8], record: &[u8], tree: &[u8]) {
    let table = OpenTable::open(text).unwrap();
    for length in lengths(tree.len()) {
        let call = |room: &mut [u8]| record_tree_into(text, record, room);
        in_a_room(length, tree, tree.len(), call);
        let call = |room: &mut [u8]| table.record_tree_into(record, room);
        in_a_room(length, tree, tree.len(), call);
    }
    for length in lengths(record.len()) {
        let call = |room: &mut [u8]| tree_record_into(text, tree, room);
        in_a_room(length, record, record.len(), call);
        let call = |room: &mut [u8]| table.tree_record_into(tree, room);
        in_a_room(length, record, record.len(), call);
    }
}

#[test]
fn the_example() {
    for (tree, word, terms) in [
        (&[0, 3, 3][..], "clip", 1),
        (&[0, 1, 2, 3, 2, 3, 3, 3, 3], "clip scene+take+take", 2),
    ] {
        let record = record_of(tree, 3);
        word_in_every_room(RECORDS, &record, word.as_bytes(), terms);
        both_in_every_room(RECORDS, &record, tree);
    }
}

#[test]
fn an_empty_word_needs_no_room() {
    let rules: [Rule; 2] = [(0, 0, b"", vec![(0, b""), (0, b"")]), (0, 1, b"", vec![])];
    let text = text(&[2, 0], 1, (b"", 0, b""), &rules);
    word_in_every_room(&text, &[0, 0, CLOSE, CLOSE], b"", 1);
    assert_eq!(fadurinko::record_word(&text, &[0, CLOSE]), Ok(vec![]));
}

#[test]
fn records_of_many_lengths() {
    let text = brackets();
    let full = (1..=13).map(|levels| [&[0][..], &full_tree(levels, 0), &[2]].concat());
    let beside = (0..=62).map(|count| [&[0][..], &[1, 2].repeat(count), &[2, 2]].concat());
    for tree in full.chain(beside) {
        let record = record_of(&tree, 2);
        let word = fadurinko::word(&text, &tree).unwrap();
        word_in_every_room(&text, &record, &word, 1);
        both_in_every_room(&text, &record, &tree);
    }
}

/// Every call writes every entry, on a yes and on a no.
#[test]
fn every_entry_is_written() {
    let mut frames = [0; limit::FRAMES];
    let mut numbers = [0; limit::NUMBERS];
    let mut scratch = [u8::MAX; limit::TREE];
    let mut plan = [u32::MAX; limit::PLAN];
    let room = &mut [0; 100][..];
    let told = |number: u8, due: Answer, call: &mut dyn FnMut(&mut Answer) -> u8| {
        let mut answer = strange();
        assert_eq!((call(&mut answer), answer), (number, due));
    };
    told(0, entries(0, 0, 0, 0, 0), &mut |answer| {
        lent::open(RECORDS, &mut frames, &mut numbers, answer)
    });
    for (record, number, due) in [
        (&[0, 1, CLOSE, CLOSE][..], 0, entries(0, 10, 2, 0, 0)),
        (&[0, 1, CLOSE], 22, entries(3, 0, 0, 0, 0)),
        (&[0, 2, CLOSE, CLOSE], 9, entries(1, 0, 0, 0, 0)),
    ] {
        told(number, due, &mut |answer| {
            lent::record_word(RECORDS, record, room, answer)
        });
        told(number, due, &mut |answer| {
            let (tree, plan) = (&mut scratch, &mut plan);
            lent::record_word_opened(&frames, &numbers, record, tree, plan, room, answer)
        });
    }
    for (record, number, due) in [
        (&[0, 1, CLOSE, CLOSE][..], 0, entries(0, 5, 0, 0, 0)),
        (&[0, CLOSE, 1], 23, entries(2, 0, 0, 0, 0)),
    ] {
        told(number, due, &mut |answer| {
            lent::record_tree(RECORDS, record, room, answer)
        });
        told(number, due, &mut |answer| {
            lent::record_tree_opened(&frames, &numbers, record, room, answer)
        });
    }
    for (tree, number, due) in [
        (&[0, 1, 3, 3, 3][..], 0, entries(0, 4, 0, 0, 0)),
        (&[0, 1, 3, 3, 1, 3, 3], 24, entries(4, 0, 0, 0, 0)),
    ] {
        told(number, due, &mut |answer| {
            lent::tree_record(RECORDS, tree, room, answer)
        });
        told(number, due, &mut |answer| {
            lent::tree_record_opened(&frames, &numbers, tree, room, answer)
        });
    }
}

/// Arrays that no call of `open` wrote, half of them with a symbol list for records at their front: the
/// answer means nothing, but no byte outside the room may change, and every call comes to an end soon.
#[test]
fn arrays_that_were_never_opened() {
    let mut next = noise();
    let mut frames = [0; limit::FRAMES];
    let mut numbers = [0; limit::NUMBERS];
    let mut scratch = [u8::MAX; limit::TREE];
    let mut plan = [u32::MAX; limit::PLAN];
    for round in 0..400 {
        let (most, rest) = [(5, 1_000_000), (256, u64::MAX)][round / 2 % 2];
        frames.fill_with(|| (next() % most) as u8);
        numbers.fill_with(|| next() % rest);
        if round % 2 == 0 {
            numbers[0] = 3;
            frames[..6].copy_from_slice(&[1, 2, 1, 2, 1, 0]);
        }
        let tree = [vec![0], full_tree(1 + (next() % 12) as u32, 0), vec![2]].concat();
        let record = record_of(&tree, 2);
        let room = next() as usize % 5_000;
        let mut bytes = pattern(room + 2 * GUARD);
        let lent_room = &mut bytes[GUARD..GUARD + room];
        let (scratch, plan, answer) = (&mut scratch, &mut plan, &mut strange());
        lent::record_word_opened(&frames, &numbers, &record, scratch, plan, lent_room, answer);
        lent::record_tree_opened(&frames, &numbers, &record, lent_room, answer);
        lent::tree_record_opened(&frames, &numbers, &tree, lent_room, answer);
        assert!(is_guarded(&bytes));
    }
}
