//! The calls on records: the word, beside the word of the same tree already spelled out; the tree of
//! a record and the record of a tree, beside copies of the same bytes; and streams that are too long
//! for a tree, or wrong at their end.

use fadurinko_second::record::{self as second, Desk};
use fadurinko_second::refusal::{put_into_room, Refusal};
use fadurinko_second::stream::CLOSE;
use fadurinko_second::table::{self, Table};
use fadurinko_second::walk::Found;

use crate::grow;
use crate::hands::{self, kept, plan, Answer, No, Pieces};
use crate::opened::Opened;
use crate::plain;
use crate::proved::{self, LONGEST};
use crate::task::{wanted, Task};
use crate::tuned;

type Hand = hands::Hand<Given>;

/// A record, its image, and the text of a table.
struct Given {
    text: &'static [u8],
    record: Vec<u8>,
    tree: Vec<u8>,
}

/// What is read: records, and the table of the first one opened.
struct Case {
    given: &'static [Given],
    table: &'static Opened,
    second: &'static Table,
}

fn case(given: Vec<Given>) -> Case {
    let mut opened = Opened::blank();
    assert_eq!(proved::open(given[0].text, &mut opened), Ok(()));
    let second = table::read(given[0].text).expect("the text is a table");
    Case {
        given: kept(given),
        table: kept(opened),
        second: kept(second),
    }
}

/// Bytes enough for every word, tree and record here.
const ROOM: usize = 1 << 20;

fn tree() -> Box<[u8; LONGEST]> {
    Box::new([0; LONGEST])
}

fn told(no: Refusal) -> No {
    (no.number, no.place)
}

/// An output that is put into the room has a length and no terms.
fn put(output: Result<Vec<u8>, Refusal>, room: &mut [u8]) -> Result<usize, Refusal> {
    output.and_then(|output| put_into_room(&output, room).map(|()| output.len()))
}

fn length(answer: Result<usize, No>) -> Answer {
    answer.map(|length| (length, 0))
}

fn word_found(found: Found) -> (usize, usize) {
    (found.length, found.terms)
}

/// The word of a record by an opened table.
fn word_hands(case: &Case) -> Vec<Hand> {
    let table = case.table;
    let (mut one, mut other, mut third) = ((tree(), plan()), (tree(), plan()), plan());
    let (mut out, mut second_out) = (Vec::new(), Vec::new());
    let desk = Desk::new(case.second).expect("the list is one for records");
    vec![
        Hand::new("proved", ROOM, move |given, room| {
            proved::record_word_opened(table, &given.record, (&mut one.0, &mut one.1), room)
        }),
        Hand::new("plain", ROOM, move |given, room| {
            plain::record::word(table, &given.record, &mut out, room)
        }),
        Hand::new("tuned", ROOM, move |given, room| {
            tuned::record::word(table, &given.record, (&mut other.0, &mut other.1), room)
        }),
        Hand::new("spelled", ROOM, move |given, room| {
            proved::find(table, &given.tree, &mut third, room)
        }),
        Hand::new("second", ROOM, move |given, room| {
            let found = desk.word(&given.record, &mut second_out);
            found
                .and_then(|found| put_into_room(&second_out, room).map(|()| word_found(found)))
                .map_err(told)
        }),
    ]
}

/// The word of a record by a text, which is opened each time.
fn text_hands(_: &Case) -> Vec<Hand> {
    let (mut plain_table, mut out) = (Opened::blank(), Vec::new());
    let (mut tuned_table, mut one) = (Opened::blank(), (tree(), plan()));
    vec![
        Hand::new("proved", ROOM, move |given, room| {
            proved::record_word(given.text, &given.record, room)
        }),
        Hand::new("plain", ROOM, move |given, room| {
            plain::open::open(given.text, &mut plain_table)?;
            plain::record::word(&plain_table, &given.record, &mut out, room)
        }),
        Hand::new("tuned", ROOM, move |given, room| {
            tuned::open::open(given.text, &mut tuned_table)?;
            let scratch = (&mut *one.0, &mut *one.1);
            tuned::record::word(&tuned_table, &given.record, scratch, room)
        }),
        Hand::new("spelled", ROOM, move |given, room| {
            proved::word(given.text, &given.tree, room)
        }),
        Hand::new("second", ROOM, move |given, room| {
            let found = second::record_word(given.text, &given.record, room);
            found.map(word_found).map_err(told)
        }),
    ]
}

/// The tree of a record.
fn tree_hands(case: &Case) -> Vec<Hand> {
    let desk = Desk::new(case.second).expect("the list is one for records");
    let mut hands = stream_hands(case);
    hands.push(Hand::new("second", ROOM, move |given, room| {
        length(put(desk.tree(&given.record), room).map_err(told))
    }));
    hands
}

/// The tree of a record, without the second program, which takes long over long streams.
fn stream_hands(case: &Case) -> Vec<Hand> {
    let table = case.table;
    vec![
        Hand::new("proved", ROOM, move |given, room| {
            length(proved::record_tree_opened(table, &given.record, room))
        }),
        Hand::new("plain", ROOM, move |given, room| {
            length(plain::record::tree(table, &given.record, room))
        }),
        Hand::new("tuned", ROOM, move |given, room| {
            length(tuned::record::tree(table, &given.record, room))
        }),
    ]
}

/// The record of a tree.
fn back_hands(case: &Case) -> Vec<Hand> {
    let table = case.table;
    let desk = Desk::new(case.second).expect("the list is one for records");
    vec![
        Hand::new("proved", ROOM, move |given, room| {
            length(proved::tree_record_opened(table, &given.tree, room))
        }),
        Hand::new("plain", ROOM, move |given, room| {
            length(plain::record::record(table, &given.tree, room))
        }),
        Hand::new("tuned", ROOM, move |given, room| {
            length(tuned::record::record(table, &given.tree, room))
        }),
        Hand::new("second", ROOM, move |given, room| {
            length(put(desk.record(&given.tree), room).map_err(told))
        }),
    ]
}

/// A record of so many elements under the table of a text.
fn given(text: &'static [u8], seed: u64, labels: usize, elements: usize) -> Given {
    let record = grow::record(seed, labels, elements);
    let absent = labels as u8;
    let symbol = |&byte: &u8| if byte == CLOSE { absent } else { byte };
    let tree = record.iter().map(symbol).chain([absent]).collect();
    Given { text, record, tree }
}

/// Records of so many elements under one table, 30,000 symbols together: so many that no branch is
/// learned by heart.
fn records(labels: usize, elements: usize) -> Vec<Given> {
    let text: &'static [u8] = kept(grow::records_text(8, labels));
    (0..15_000 / elements as u64)
        .map(|seed| given(text, seed, labels, elements))
        .collect()
}

/// Records of ten elements, each under a table of its own.
fn each_its_table() -> Vec<Given> {
    (0..20)
        .map(|seed| given(kept(grow::records_text(seed, LABELS)), seed, LABELS, 10))
        .collect()
}

/// A stream that is too long for a tree; its last byte can be made wrong.
fn long_stream(bytes: usize, wrong: bool) -> Vec<Given> {
    let mut one = given(kept(grow::records_text(8, LABELS)), 1, LABELS, bytes / 2);
    if wrong {
        one.record[bytes - 1] = CLOSE - 1;
    }
    vec![one]
}

/// Labels of a table, where it is not said how many.
const LABELS: usize = 11;

fn symbols(case: &Case) -> Pieces<Given> {
    Pieces {
        all: case.given,
        unit: "symbol",
        units: case.given.iter().map(|given| given.tree.len()).sum(),
        refused: None,
    }
}

fn task(name: &str, given: impl Fn() -> Vec<Given>, hands: fn(&Case) -> Vec<Hand>) -> Option<Task> {
    wanted(name).then(|| {
        let case = case(given());
        hands::task(name, hands(&case), symbols(&case))
    })
}

/// A task whose output has as many bytes as its input, one more or one less: also beside a copy byte
/// by byte.
fn copied(
    name: &str,
    elements: usize,
    hands: fn(&Case) -> Vec<Hand>,
    output: fn(&Given) -> Vec<u8>,
) -> Option<Task> {
    wanted(name).then(|| {
        let case = case(records(LABELS, elements));
        let mut task = hands::task(name, hands(&case), symbols(&case));
        let outputs: Vec<Vec<u8>> = case.given.iter().map(output).collect();
        task.hands.push(hands::copying_by_bytes(kept(outputs)));
        task
    })
}

fn tree_task(name: &str, elements: usize) -> Option<Task> {
    copied(name, elements, tree_hands, |given| given.tree.clone())
}

fn back_task(name: &str, elements: usize) -> Option<Task> {
    copied(name, elements, back_hands, |given| given.record.clone())
}

fn stream_task(name: &str, bytes: usize, wrong: bool) -> Option<Task> {
    wanted(name).then(|| {
        let case = case(long_stream(bytes, wrong));
        let refused = if wrong { (21, bytes - 1) } else { (6, 0) };
        let pieces = Pieces {
            all: case.given,
            unit: "byte",
            units: bytes,
            refused: Some(refused),
        };
        hands::task(name, stream_hands(&case), pieces)
    })
}

pub fn tasks() -> Vec<Task> {
    let all = [
        task(
            "record word, trees of 21",
            || records(LABELS, 10),
            word_hands,
        ),
        task(
            "record word, trees of 21, 63 labels",
            || records(63, 10),
            word_hands,
        ),
        task(
            "record word, trees of 301",
            || records(LABELS, 150),
            word_hands,
        ),
        task(
            "record word, 30,001 symbols",
            || records(LABELS, 15_000),
            word_hands,
        ),
        task(
            "record word on texts, trees of 21",
            each_its_table,
            text_hands,
        ),
        task(
            "record word on texts, trees of 301",
            || records(LABELS, 150),
            text_hands,
        ),
        task(
            "record word on texts, 30,001 symbols",
            || records(LABELS, 15_000),
            text_hands,
        ),
        tree_task("record tree, trees of 21", 10),
        tree_task("record tree, trees of 301", 150),
        tree_task("record tree, 30,001 symbols", 15_000),
        back_task("record back, trees of 21", 10),
        back_task("record back, trees of 301", 150),
        back_task("record back, 30,001 symbols", 15_000),
        stream_task("record stream, 1 MB", 1_000_000, false),
        stream_task("record stream, 10 MB", 10_000_000, false),
        stream_task("record stream, 1 MB, wrong at its end", 1_000_000, true),
        stream_task("record stream, 10 MB, wrong at its end", 10_000_000, true),
    ];
    all.into_iter().flatten().collect()
}

/// The unproved hands are tried on generated records and trees, which are refused in every way, with
/// rooms that are too short too.
#[cfg(test)]
mod tests {
    use super::*;
    use fadurinko_second::gen::records;

    /// The answer, and what a room full of other bytes holds then.
    fn answered(size: usize, call: impl FnOnce(&mut [u8]) -> Answer) -> (Answer, Vec<u8>) {
        let mut room = vec![170; size];
        let answer = call(&mut room);
        (answer, room)
    }

    /// All hands answer as the first, in rooms around what its output needs.
    fn same(hands: &mut [&mut dyn FnMut(&mut [u8]) -> Answer]) {
        let (first, others) = hands.split_first_mut().expect("there is a first");
        let needed = first(&mut vec![0; ROOM]).map_or(0, |(length, _)| length);
        for size in [needed.saturating_sub(1), needed, needed + 50] {
            let answer = answered(size, &mut *first);
            for other in others.iter_mut() {
                assert!(answered(size, &mut **other) == answer);
            }
        }
    }

    fn same_words(opened: &Opened, text: &[u8], stream: &[u8]) {
        let (mut trees, mut plans) = (tree(), plan());
        same(&mut [
            &mut |room| {
                let found = second::record_word(text, stream, room);
                found.map(word_found).map_err(told)
            },
            &mut |room| plain::record::word(opened, stream, &mut Vec::new(), room),
            &mut |room| tuned::record::word(opened, stream, (&mut trees, &mut plans), room),
        ]);
    }

    fn same_trees(opened: &Opened, text: &[u8], stream: &[u8]) {
        same(&mut [
            &mut |room| length(second::record_tree(text, stream, room).map_err(told)),
            &mut |room| length(plain::record::tree(opened, stream, room)),
            &mut |room| length(tuned::record::tree(opened, stream, room)),
        ]);
    }

    fn same_records(opened: &Opened, text: &[u8], tree: &[u8]) {
        same(&mut [
            &mut |room| length(second::tree_record(text, tree, room).map_err(told)),
            &mut |room| length(plain::record::record(opened, tree, room)),
            &mut |room| length(tuned::record::record(opened, tree, room)),
        ]);
    }

    #[test]
    fn all_hands_take_records_as_the_second_program_does() {
        let mut opened = Opened::blank();
        for index in 0..160 {
            let case = records::case(5, index);
            if tuned::open::open(&case.table, &mut opened).is_err() {
                continue;
            }
            for stream in case.streams() {
                same_words(&opened, &case.table, &stream);
                same_trees(&opened, &case.table, &stream);
            }
            for tree in case.trees() {
                same_records(&opened, &case.table, &tree);
            }
        }
    }
}
