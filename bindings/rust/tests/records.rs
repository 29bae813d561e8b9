//! Records: their words, their trees and back, by each call that can answer.

mod common;

use common::{brackets, full_tree, record_of, text, wordy, CLOSE, RECORDS, T};
use fadurinko::{limit, record_tree, record_word, tree_record, word, OpenTable, Plan, Refusal};

fn no<A>(number: u8, place: usize) -> Result<A, Refusal> {
    Err(Refusal { number, place })
}

/// The word of a record by the text, by the opened table and with a plan apart.
fn word_every_way(text: &[u8], record: &[u8]) -> Result<Vec<u8>, Refusal> {
    let by_text = record_word(text, record);
    let by_table = OpenTable::open(text).and_then(|mut table| {
        let by_table = table.record_word(record);
        assert_eq!(table.record_word_with(record, &mut Plan::new()), by_table);
        by_table
    });
    assert_eq!(by_text, by_table);
    by_text
}

fn tree_both_ways(text: &[u8], record: &[u8]) -> Result<Vec<u8>, Refusal> {
    let by_text = record_tree(text, record);
    let by_table = OpenTable::open(text).and_then(|table| table.record_tree(record));
    assert_eq!(by_text, by_table);
    by_text
}

fn back_both_ways(text: &[u8], tree: &[u8]) -> Result<Vec<u8>, Refusal> {
    let by_text = tree_record(text, tree);
    let by_table = OpenTable::open(text).and_then(|table| table.tree_record(tree));
    assert_eq!(by_text, by_table);
    by_text
}

/// The record is refused so by every call that takes one.
fn refused(text: &[u8], record: &[u8], number: u8, place: usize) {
    assert_eq!(word_every_way(text, record), no(number, place));
    assert_eq!(tree_both_ways(text, record), no(number, place));
}

/// Record and tree are each other's, and have the same word.
fn paired(text: &[u8], record: &[u8], tree: &[u8]) {
    assert_eq!(tree_both_ways(text, record).as_deref(), Ok(tree));
    assert_eq!(back_both_ways(text, tree).as_deref(), Ok(record));
    assert_eq!(word_every_way(text, record), word(text, tree));
}

#[test]
fn words_of_the_example() {
    for (record, word) in [
        (&[0, CLOSE][..], "clip"),
        (&[0, 1, CLOSE, CLOSE], "clip scene"),
        (
            &[0, 1, 2, CLOSE, 2, CLOSE, CLOSE, 1, 2, CLOSE, CLOSE, CLOSE],
            "clip scene+take+take scene+take",
        ),
    ] {
        assert_eq!(word_every_way(RECORDS, record).unwrap(), word.as_bytes());
    }
    // A take stands in a scene, and nothing but a clip is the root.
    assert_eq!(word_every_way(RECORDS, &[0, 2, CLOSE, CLOSE]), no(9, 1));
    assert_eq!(word_every_way(RECORDS, &[1, CLOSE]), no(9, 0));
    assert_eq!(fadurinko::judge(RECORDS), Ok(()));
    assert_eq!(fadurinko::form(RECORDS).unwrap(), RECORDS);
}

#[test]
fn symbol_lists() {
    let table = |arities: &[u8]| text(arities, 1, (b"", 0, b""), &[]);
    for (arities, place) in [
        (&[2][..], 0),
        (&[0, 0], 0),
        (&[1, 0], 0),
        (&[2, 2], 1),
        (&[2, 0, 0], 1),
        (&[2, 3, 0], 1),
        (&[2, 2, 1], 2),
        (&[2, 2, 0, 2], 2),
    ] {
        refused(&table(arities), &[], 20, place);
        refused(&table(arities), &[0, CLOSE], 20, place);
        assert_eq!(back_both_ways(&table(arities), &[]), no(20, place));
    }
    refused(T, &[0, CLOSE], 20, 1);
    // One leaf is a list for records that has no label.
    refused(&table(&[0]), &[], 22, 0);
    refused(&table(&[0]), &[0, CLOSE], 21, 0);
    refused(&table(&[0]), &[CLOSE], 22, 0);
    assert_eq!(back_both_ways(&table(&[0]), &[0]), no(24, 0));
    // The most symbols that a table may have.
    let most = table(&[&[2; 63][..], &[0]].concat());
    paired(&most, &[62, CLOSE], &[62, 63, 63]);
    refused(&most, &[63, CLOSE], 21, 0);
}

#[test]
fn streams() {
    let table = brackets();
    refused(&table, &[], 22, 0);
    refused(&table, &[CLOSE], 22, 0);
    refused(&table, &[0], 22, 1);
    refused(&table, &[0, 0, CLOSE], 22, 3);
    refused(&table, &[0, CLOSE, CLOSE], 22, 2);
    refused(&table, &[0, CLOSE, 1, CLOSE], 23, 2);
    refused(&table, &[2], 21, 0);
    refused(&table, &[0, 2, CLOSE], 21, 1);
    refused(&table, &[0, 254, CLOSE], 21, 1);
    // Behind the root's end too, and what comes first is told.
    refused(&table, &[0, CLOSE, 2], 21, 2);
    refused(&table, &[0, CLOSE, 0, 2], 23, 2);
    refused(&table, &[0, CLOSE, CLOSE, 2, 0], 22, 2);
    paired(&table, &[1, CLOSE], &[1, 2, 2]);
}

#[test]
fn trees_that_are_no_records() {
    let table = brackets();
    for (tree, number, place) in [
        (&[][..], 6, 0),
        (&[3], 7, 0),
        (&[0, 2], 8, 2),
        (&[0, 2, 2, 2], 11, 3),
        (&[2], 24, 0),
        (&[0, 2, 1, 2, 2], 24, 2),
        (&[0, 1, 2, 2, 1, 2, 2], 24, 4),
        (&[0, 0, 2, 2, 0, 2], 8, 6), // the shape comes before 24
    ] {
        assert_eq!(back_both_ways(&table, tree), no(number, place), "{tree:?}");
    }
}

#[test]
fn levels() {
    let table = brackets();
    let nested = |count: usize| [vec![0; count], vec![CLOSE; count]].concat();
    let beside = |count: usize| [&[0][..], &[1, CLOSE].repeat(count), &[CLOSE]].concat();
    let tree = |record: &[u8]| {
        let symbols = record
            .iter()
            .map(|&byte| if byte == CLOSE { 2 } else { byte });
        symbols.chain([2]).collect::<Vec<u8>>()
    };
    for fits in [nested(1), nested(63), beside(0), beside(62)] {
        paired(&table, &fits, &tree(&fits));
    }
    refused(&table, &nested(64), 10, 64);
    refused(&table, &beside(63), 10, 2 * 63);
    assert_eq!(back_both_ways(&table, &tree(&nested(64))), no(10, 64));
    assert_eq!(back_both_ways(&table, &tree(&beside(63))), no(10, 2 * 63));
}

#[test]
fn elements() {
    let table = brackets();
    // A full tree has 16,383 elements; below a root there is one too many.
    let full = full_tree(15, 0);
    let too_many = [&[0][..], &full, &[2]].concat();
    refused(&table, &record_of(&too_many, 2), 6, 0);
    assert_eq!(back_both_ways(&table, &too_many), no(6, 0));
    // A leaf in place of the element at the bottom left.
    let bottom = full.iter().position(|&symbol| symbol == 2).unwrap() - 1;
    let most = [&[0], &full[..bottom], &full[bottom + 2..], &[2]].concat();
    assert_eq!(most.len(), limit::TREE - 1);
    let record = record_of(&most, 2);
    assert_eq!(record.len(), 2 * 16_383);
    paired(&table, &record, &most);
    assert_eq!(word_every_way(&table, &record).unwrap().len(), 3 * 16_383);
}

/// The whole stream is looked at before 6 is told.
#[test]
fn a_megabyte_that_is_wrong_at_its_last_byte() {
    let table = brackets();
    let inside = [1, CLOSE].repeat(500_000);
    let record = [&[0][..], &inside, &[CLOSE]].concat();
    let length = record.len();
    refused(&table, &record, 6, 0);
    refused(&table, &record[..length - 1], 22, length - 1);
    for (last, number) in [(2, 21), (CLOSE, 22), (1, 23)] {
        refused(&table, &[&record[..], &[last]].concat(), number, length);
    }
    refused(&table, &[0, CLOSE].repeat(5_000_000), 23, 2);
    refused(&table, &[0].repeat(10_000_000), 22, 10_000_000);
}

/// An element, by the definition: its label and the elements inside it.
#[derive(Clone)]
struct Element(u8, Vec<Element>);

fn stream(Element(label, inside): &Element) -> Vec<u8> {
    [
        vec![*label],
        inside.iter().flat_map(stream).collect(),
        vec![CLOSE],
    ]
    .concat()
}

/// Elements beside each other as a tree: the first one's label, what is inside it, and the others.
fn image(elements: &[Element]) -> Vec<u8> {
    match elements.split_first() {
        Some((Element(label, inside), beside)) => {
            [vec![*label], image(inside), image(beside)].concat()
        }
        None => vec![2],
    }
}

/// All rows of elements with the labels 0 and 1 that have so many elements with those inside.
fn rows(count: usize) -> Vec<Vec<Element>> {
    let mut all = if count == 0 { vec![vec![]] } else { vec![] };
    for inside in 0..count {
        for first in rows(inside) {
            for beside in rows(count - 1 - inside) {
                for label in [0, 1] {
                    let first = Element(label, first.clone());
                    all.push([&[first], &beside[..]].concat());
                }
            }
        }
    }
    all
}

#[test]
fn every_record_of_up_to_six_elements() {
    let text = brackets();
    let mut table = OpenTable::open(&text).unwrap();
    let mut records = 0;
    for inside in (0..6).flat_map(rows) {
        for label in [0, 1] {
            let root = Element(label, inside.clone());
            let (record, tree) = (stream(&root), image(&[root]));
            assert_eq!(table.record_tree(&record), Ok(tree.clone()));
            assert_eq!(table.tree_record(&tree), Ok(record.clone()));
            assert_eq!(table.record_word(&record), table.word(&tree));
            records += 1;
        }
    }
    assert_eq!(records, 2 + 4 + 16 + 80 + 448 + 2_688);
}

/// Two threads find words of records by one table that is only read, each with a plan of its own.
#[test]
fn one_table_lent_to_two_threads() {
    let text = brackets();
    let records: Vec<Vec<u8>> = (1..=13)
        .map(|levels| record_of(&[&[0][..], &full_tree(levels, 0), &[2]].concat(), 2))
        .collect();
    let words: Vec<Vec<u8>> = records
        .iter()
        .map(|record| record_word(&text, record).unwrap())
        .collect();
    let table = &OpenTable::open(&text).unwrap();
    let find_all = |first: usize| {
        let mut plan = Plan::default();
        let all = records.iter().zip(&words).cycle().skip(first);
        all.take(40 * records.len())
            .filter(|(record, word)| table.record_word_with(record, &mut plan).as_ref() != Ok(word))
            .count()
    };
    std::thread::scope(|threads| {
        let other = threads.spawn(|| find_all(records.len() / 2));
        assert_eq!(find_all(0), 0);
        assert_eq!(other.join().unwrap(), 0);
    });
}

/// One plan serves trees and records, and tables of either kind, in turn.
#[test]
fn one_plan_for_trees_and_records() {
    let (records, trees) = (brackets(), wordy(1));
    let (records, trees) = (
        OpenTable::open(&records).unwrap(),
        OpenTable::open(&trees).unwrap(),
    );
    let tree = [&[0][..], &full_tree(13, 0), &[2]].concat();
    let record = record_of(&tree, 2);
    let mut plan = Plan::new();
    for _ in 0..3 {
        let word = records.record_word_with(&record, &mut plan);
        assert_eq!(word, records.word_with(&tree, &mut plan));
        let length = trees
            .word_with(&full_tree(14, 1), &mut plan)
            .map(|word| word.len());
        assert_eq!(length, Ok(2 * (1 << 14) + 1));
        assert_eq!(trees.record_word_with(&record, &mut plan), no(20, 1));
    }
}
