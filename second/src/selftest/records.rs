//! Checks of records.

use std::collections::{HashMap, HashSet};

use super::{in_every_room, is_expected, shown, tiny_table, Tally};
use crate::brute;
use crate::brute::records::{
    all_records, counted_reading, list_reading, stream_of_tree, tree_of_stream, Streams,
};
use crate::gen::records;
use crate::record::{labels_of, record_tree, record_word, tree_record, Desk};
use crate::refusal::{Refusal, NO_IMAGE};
use crate::rng::Rng;
use crate::stream::{self, CLOSE};
use crate::table::{self, Table};

/// A symbol list of the right shape.
fn list_of(labels: u8) -> Vec<u8> {
    let mut arities = vec![2; usize::from(labels)];
    arities.push(0);
    arities
}

/// All byte strings over these bytes up to a length.
fn strings_over(bytes: &[u8], length: usize) -> Vec<Vec<u8>> {
    let mut longest: Vec<Vec<u8>> = vec![Vec::new()];
    let mut strings = longest.clone();
    for _ in 0..length {
        let longer = |string: &Vec<u8>| -> Vec<Vec<u8>> {
            let longer = bytes.iter().map(|byte| [&string[..], &[*byte]].concat());
            longer.collect()
        };
        longest = longest.iter().flat_map(longer).collect();
        strings.extend(longest.iter().cloned());
    }
    strings
}

/// All short lists, and long ones with one arity changed.
pub fn lists(_: &mut Rng, tally: &mut Tally) {
    let mut lists = strings_over(&[0, 1, 2, 3, 4], 4);
    lists.retain(|list| !list.is_empty());
    for labels in [5, 62, 63] {
        for index in 0..=usize::from(labels) {
            for arity in 0..=4 {
                let mut list = list_of(labels);
                list[index] = arity;
                lists.push(list);
            }
        }
    }
    for list in lists {
        let expected = list_reading(&list).map(|()| list.len() as u8 - 1);
        tally.expect(labels_of(&list) == expected, || format!("{list:?}"));
    }
}

/// How many records of one element, of two, and so on there are over two labels.
const COUNTS: [usize; 6] = [2, 4, 16, 80, 448, 2688];

/// Every record of up to six elements over two labels: from its stream to its
/// image and back, and no two alike.
pub fn both_ways(rng: &mut Rng, tally: &mut Tally) {
    let table = tiny_table(rng, &list_of(2), 1);
    let desk = Desk::new(&table).expect("the list has the shape");
    let (mut streams, mut images) = (HashSet::new(), HashSet::new());
    for (fewer, &count) in COUNTS.iter().enumerate() {
        let records = all_records(2, fewer + 1);
        tally.expect(records.len() == count, || {
            format!("{} records", records.len())
        });
        for record in records {
            let (stream, image) = (record.stream(), record.image(2).preorder());
            let holds = desk.tree(&stream).as_ref() == Ok(&image)
                && desk.record(&image).as_ref() == Ok(&stream)
                && stream.len() == 2 * fewer + 2
                && image.len() == 2 * fewer + 3;
            tally.expect(holds, || format!("{stream:?}"));
            let is_new = streams.insert(stream) && images.insert(image);
            tally.expect(is_new, || format!("{record:?} once more"));
        }
    }
}

/// A stream is a record's exactly if it is among the streams of all records, and
/// is refused where none of these goes on.
pub fn short_streams(_: &mut Rng, tally: &mut Tally) {
    let tries: [(u8, &[u8], usize); 4] = [
        (0, &[0, 1, 0xfe, CLOSE], 5),
        (1, &[0, 1, 2, CLOSE], 7),
        (1, &[0, 1, CLOSE], 9),
        (2, &[0, 1, 2, 3, 0xfe, CLOSE], 6),
    ];
    for (labels, bytes, length) in tries {
        let streams = Streams::up_to(labels, length);
        for string in strings_over(bytes, length) {
            let expected = streams.reading(&string);
            let read = stream::read(labels, &string);
            let written = read.as_ref().map(stream::write);
            let holds = match expected {
                Ok(()) => written.as_ref() == Ok(&string),
                Err(refusal) => written == Err(&refusal),
            };
            let counted = counted_reading(labels, &string) == expected;
            tally.expect(holds && counted, || format!("{labels} {string:?} {read:?}"));
        }
    }
}

/// A tree is written back exactly if it is among the images of all records, and
/// then as the stream of that one.
pub fn short_trees(rng: &mut Rng, tally: &mut Tally) {
    let tries: [(u8, &[u8], usize); 4] = [
        (0, &[0, 1, CLOSE], 5),
        (1, &[0, 1], 11),
        (1, &[0, 1, 2, CLOSE], 7),
        (2, &[0, 1, 2, 3], 7),
    ];
    for (labels, bytes, length) in tries {
        let table = tiny_table(rng, &list_of(labels), 1);
        let desk = Desk::new(&table).expect("the list has the shape");
        let records = (1..=length / 2).flat_map(|count| all_records(labels, count));
        let stream_of_image: HashMap<Vec<u8>, Vec<u8>> = records
            .map(|record| (record.image(labels).preorder(), record.stream()))
            .collect();
        for string in strings_over(bytes, length) {
            let tree = brute::tree_of_bytes(&table.arities, &string);
            let expected = tree.and_then(|tree| match stream_of_image.get(&string) {
                Some(stream) => Ok(stream.clone()),
                None => {
                    let before_second = tree.children.first().map_or(0, |inside| 1 + inside.size());
                    Err(Refusal::new(NO_IMAGE, before_second))
                }
            });
            let holds = desk.record(&string) == expected
                && stream_of_tree(&table.arities, &string) == expected;
            tally.expect(holds, || format!("{labels} {string:?}"));
        }
    }
}

pub fn words(rng: &mut Rng, tally: &mut Tally) {
    for _ in 0..200 {
        let labels = rng.byte_between(1, 2);
        let states = rng.between(1, 3);
        let table = tiny_table(rng, &list_of(labels), states);
        let desk = Desk::new(&table).expect("the list has the shape");
        for record in (1..=4).flat_map(|count| all_records(labels, count)) {
            let mut out = Vec::new();
            let answer = desk.word(&record.stream(), &mut out);
            let image = record.image(labels);
            let expected = brute::word_of_bytes(&table, &image.preorder());
            let has_word = brute::word_of_table(&table, &image).is_some() == answer.is_ok();
            let holds = has_word && is_expected(answer, &out, expected);
            tally.expect(holds, || format!("{} {record:?}", shown(&table)));
        }
    }
}

/// What a call must answer by a table that may be refused, for its list too.
fn behind_list<T>(
    table: &Result<Table, Refusal>,
    answer: impl FnOnce(&Table) -> Result<T, Refusal>,
) -> Result<T, Refusal> {
    let table = table.as_ref().map_err(|refusal| *refusal)?;
    list_reading(&table.arities)?;
    answer(table)
}

/// Every line by other hands, and what is written goes back to what was read.
pub fn generated_lines(rng: &mut Rng, tally: &mut Tally) {
    let seed = rng.below(1 << 30) as u64;
    for index in 0..256 {
        let case = records::case(seed, index);
        let table = table::read(&case.table);
        let desk = match &table {
            Ok(table) => Desk::new(table),
            Err(refusal) => Err(*refusal),
        };
        let desk = desk.as_ref().map_err(|refusal| *refusal);
        let start = |bytes: &[u8]| bytes[..bytes.len().min(40)].to_vec();
        for stream in case.streams() {
            let tree = desk.and_then(|desk| desk.tree(&stream));
            let expected = behind_list(&table, |table| tree_of_stream(&table.arities, &stream));
            let mut out = Vec::new();
            let word = desk.and_then(|desk| desk.word(&stream, &mut out));
            let expected_word = match (&expected, &table) {
                (Ok(tree), Ok(table)) => brute::word_of_bytes(table, tree),
                _ => expected.clone(),
            };
            let back = tree.clone().and_then(|tree| desk?.record(&tree));
            let holds = tree == expected
                && is_expected(word, &out, expected_word)
                && (tree.is_err() || back.as_ref() == Ok(&stream));
            tally.expect(holds, || {
                format!("case {index} of seed {seed}: record {:?}", start(&stream))
            });
        }
        for tree in case.trees() {
            let stream = desk.and_then(|desk| desk.record(&tree));
            let expected = behind_list(&table, |table| stream_of_tree(&table.arities, &tree));
            let back = stream.clone().and_then(|stream| desk?.tree(&stream));
            let holds = stream == expected && (stream.is_err() || back.as_ref() == Ok(&tree));
            tally.expect(holds, || {
                format!("case {index} of seed {seed}: tree {:?}", start(&tree))
            });
        }
    }
}

pub fn in_rooms(rng: &mut Rng, tally: &mut Tally) {
    for _ in 0..40 {
        let labels = rng.byte_between(1, 2);
        let table = tiny_table(rng, &list_of(labels), 2);
        let text = table::write(&table);
        for record in (1..=3).flat_map(|count| all_records(labels, count)) {
            let (stream, image) = (record.stream(), record.image(labels));
            let tree = image.preorder();
            let mut results = vec![
                in_every_room(&tree, |room| record_tree(&text, &stream, room)),
                in_every_room(&stream, |room| tree_record(&text, &tree, room)),
            ];
            if let Some(word) = brute::word_of_table(&table, &image) {
                results.push(in_every_room(&word, |room| {
                    record_word(&text, &stream, room).map(|found| found.length)
                }));
            }
            let holds = results.iter().all(|result| result.is_ok());
            tally.expect(holds, || {
                format!("{} {record:?} {results:?}", shown(&table))
            });
        }
    }
}
