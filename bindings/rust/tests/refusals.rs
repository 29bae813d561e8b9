//! Every number from 1 to 24, by every call that can give it, and what it says in words.

mod common;

use common::{text, Rule, CLOSE, RECORDS, T};
use fadurinko::{
    compare, form, form_into, judge, number, record_tree, record_tree_into, record_word,
    record_word_into, tree_record, tree_record_into, word, word_into, CompareRefusal, OpenTable,
    Plan, Refusal,
};
use std::collections::BTreeSet;

/// A table text with the refusal that reading it gives (1 to 5).
fn unreadable() -> Vec<(Vec<u8>, u8, usize)> {
    let cut = |length: usize| T[..length].to_vec();
    vec![
        (vec![], 1, 0),
        (b"0".repeat(32_769), 1, 0),
        (b"\n".to_vec(), 2, 0),
        (b"0102\n010\n".to_vec(), 2, 5),
        (b"0102\n01G0\n".to_vec(), 2, 5),
        (b"0102\n010A\n".to_vec(), 2, 5),
        (cut(T.len() - 1), 2, T.len() - 3),
        (cut(T.len() - 3), 3, T.len() - 3),
        (b"05\n".to_vec(), 3, 0),
        ([T, b"04\n"].concat(), 3, T.len()),
        (b"0105\n".to_vec(), 4, 0),
        (b"0100\n".repeat(65), 4, 64 * 5),
        (b"01\n".to_vec(), 5, 0),
        (b"010000\n".to_vec(), 5, 0),
    ]
}

/// A table text with the refusal that judging it gives (13 to 18).
fn not_earliest() -> Vec<(Vec<u8>, u8, usize)> {
    let leaf = |state, symbol, word| -> Rule<'static> { (state, symbol, word, vec![]) };
    let quiet: (&[u8], u8, &[u8]) = (b"", 0, b"");
    vec![
        (
            text(&[0], 2, quiet, &[leaf(0, 0, b""), leaf(1, 0, b"")]),
            13,
            1,
        ),
        (text(&[0], 1, quiet, &[]), 14, 0),
        (text(&[0], 1, quiet, &[leaf(0, 0, b"a")]), 15, 0),
        (
            text(&[0, 0], 1, quiet, &[leaf(0, 0, b"ac"), leaf(0, 1, b"bc")]),
            16,
            0,
        ),
        (
            text(
                &[0, 0],
                1,
                (b"", 0, b"a"),
                &[leaf(0, 0, b""), leaf(0, 1, b"a")],
            ),
            17,
            0,
        ),
        (
            text(
                &[0, 0, 1],
                2,
                quiet,
                &[
                    leaf(0, 0, b""),
                    (0, 2, b"", vec![(1, b"a")]),
                    leaf(1, 0, b""),
                    leaf(1, 1, b"a"),
                ],
            ),
            18,
            1,
        ),
    ]
}

/// A tree with the refusal that T gives it (6 to 11).
fn refused_trees() -> Vec<(Vec<u8>, u8, usize)> {
    vec![
        (vec![], 6, 0),
        (vec![0; 32_769], 6, 0),
        (vec![3], 7, 0),
        (vec![0, 1, 255], 7, 2),
        (vec![0, 2], 8, 2),
        (vec![1], 9, 0),
        (vec![0, 1, 0, 1, 1], 9, 2),
        (vec![0; 65], 10, 64),
        (vec![1, 1], 11, 1),
        (vec![0, 1, 1, 255], 11, 3),
    ]
}

/// A table and a record with the refusal that its word and its tree have (20 to 23, 6, 10).
fn refused_records() -> Vec<(&'static [u8], Vec<u8>, u8, usize)> {
    vec![
        (T, vec![0, CLOSE], 20, 1),
        (T, vec![], 20, 1),
        (RECORDS, vec![0, 3, CLOSE], 21, 1),
        (RECORDS, vec![0, CLOSE, 3], 21, 2),
        (RECORDS, vec![], 22, 0),
        (RECORDS, vec![CLOSE], 22, 0),
        (RECORDS, vec![0, 1, CLOSE], 22, 3),
        (RECORDS, vec![0, CLOSE, CLOSE], 22, 2),
        (RECORDS, vec![0, CLOSE, 0, CLOSE], 23, 2),
        (RECORDS, [[0; 16_384], [CLOSE; 16_384]].concat(), 6, 0),
        (RECORDS, [[0; 64], [CLOSE; 64]].concat(), 10, 64),
    ]
}

/// A table and a tree with the refusal that its record has (20, 6 to 11 but for 9, 24).
fn refused_images() -> Vec<(&'static [u8], Vec<u8>, u8, usize)> {
    let trees = refused_trees().into_iter();
    let shapeless = trees.filter(|&(_, number, _)| matches!(number, 6 | 8 | 10));
    let mut all: Vec<_> = shapeless
        .map(|(tree, number, place)| (RECORDS, tree, number, place))
        .collect();
    all.extend([
        (T, vec![], 20, 1),
        (T, vec![0, 1, 1], 20, 1),
        (RECORDS, vec![4], 7, 0),
        (RECORDS, vec![0, 3, CLOSE], 7, 2),
        (RECORDS, vec![3, 3], 11, 1),
        (RECORDS, vec![0, 3, 3, 255], 11, 3),
        (RECORDS, vec![3], 24, 0),
        (RECORDS, vec![0, 3, 1, 3, 3], 24, 2),
    ]);
    all
}

const FILL: u8 = 0xa5;

/// A room for a call that is refused: none of its bytes may change.
fn untouched<A>(call: impl FnOnce(&mut [u8]) -> Result<A, Refusal>) -> Refusal {
    let mut room = [FILL; 300];
    let refusal = call(&mut room).err().expect("the call is refused");
    assert_eq!(room, [FILL; 300]);
    refusal
}

#[test]
fn table_texts() {
    for (text, number, place) in unreadable() {
        let expected = Refusal { number, place };
        assert_eq!(judge(&text), Err(expected));
        assert_eq!(form(&text), Err(expected));
        assert_eq!(word(&text, &[0]), Err(expected));
        assert_eq!(OpenTable::open(&text).unwrap_err(), expected);
        assert_eq!(untouched(|room| form_into(&text, room)), expected);
        assert_eq!(untouched(|room| word_into(&text, &[0], room)), expected);
        // The table comes before the tree.
        assert_eq!(word(&text, &[]), Err(expected));
        assert_eq!(record_word(&text, &[]), Err(expected));
        assert_eq!(record_tree(&text, &[]), Err(expected));
        assert_eq!(tree_record(&text, &[]), Err(expected));
        let record = [0, CLOSE];
        for refusal in [
            untouched(|room| record_word_into(&text, &record, room)),
            untouched(|room| record_tree_into(&text, &record, room)),
            untouched(|room| tree_record_into(&text, &[0, 1, 1], room)),
        ] {
            assert_eq!(refusal, expected);
        }
    }
}

#[test]
fn judgements() {
    for (text, number, place) in not_earliest() {
        let expected = Refusal { number, place };
        assert_eq!(judge(&text), Err(expected));
        assert_eq!(OpenTable::open(&text).unwrap().judge(), Err(expected));
        assert_eq!(form(&text), Err(expected));
        assert_eq!(untouched(|room| form_into(&text, room)), expected);
        // 12 comes last.
        assert_eq!(form_into(&text, &mut []), Err(expected));
    }
}

#[test]
fn trees() {
    let mut table = OpenTable::open(T).unwrap();
    for (tree, number, place) in refused_trees() {
        let expected = Refusal { number, place };
        assert_eq!(word(T, &tree), Err(expected));
        assert_eq!(table.word(&tree), Err(expected));
        assert_eq!(untouched(|room| word_into(T, &tree, room)), expected);
        assert_eq!(untouched(|room| table.word_into(&tree, room)), expected);
        // 12 comes last.
        assert_eq!(table.word_into(&tree, &mut []), Err(expected));
    }
}

#[test]
fn records() {
    for (text, record, number, place) in refused_records() {
        let expected = Refusal { number, place };
        let mut table = OpenTable::open(text).unwrap();
        let mut plan = Plan::new();
        assert_eq!(record_word(text, &record), Err(expected));
        assert_eq!(record_tree(text, &record), Err(expected));
        assert_eq!(table.record_word(&record), Err(expected));
        assert_eq!(table.record_word_with(&record, &mut plan), Err(expected));
        assert_eq!(table.record_tree(&record), Err(expected));
        for refusal in [
            untouched(|room| record_word_into(text, &record, room)),
            untouched(|room| record_tree_into(text, &record, room)),
            untouched(|room| table.record_word_into(&record, room)),
            untouched(|room| table.record_word_into_with(&record, &mut plan, room)),
            untouched(|room| table.record_tree_into(&record, room)),
        ] {
            assert_eq!(refusal, expected);
        }
        // 12 comes last.
        assert_eq!(table.record_word_into(&record, &mut []), Err(expected));
        assert_eq!(table.record_tree_into(&record, &mut []), Err(expected));
    }
    // 9 only where the word is asked for, and before 12.
    let (expected, strange) = (
        Refusal {
            number: 9,
            place: 1,
        },
        [0, 2, CLOSE, CLOSE],
    );
    let mut table = OpenTable::open(RECORDS).unwrap();
    assert_eq!(record_word(RECORDS, &strange), Err(expected));
    assert_eq!(table.record_word_into(&strange, &mut []), Err(expected));
    assert_eq!(table.record_tree(&strange).unwrap(), [0, 2, 3, 3, 3]);
}

#[test]
fn images() {
    for (text, tree, number, place) in refused_images() {
        let expected = Refusal { number, place };
        let table = OpenTable::open(text).unwrap();
        assert_eq!(tree_record(text, &tree), Err(expected), "{tree:?}");
        assert_eq!(table.tree_record(&tree), Err(expected));
        for refusal in [
            untouched(|room| tree_record_into(text, &tree, room)),
            untouched(|room| table.tree_record_into(&tree, room)),
        ] {
            assert_eq!(refusal, expected);
        }
        // 12 comes last.
        assert_eq!(table.tree_record_into(&tree, &mut []), Err(expected));
    }
}

#[test]
fn rooms() {
    let expected = Refusal {
        number: number::ROOM,
        place: 3,
    };
    assert_eq!(word_into(T, &[0, 2, 2], &mut [0; 2]), Err(expected));
    assert_eq!(
        OpenTable::open(T)
            .unwrap()
            .word_into(&[0, 2, 2], &mut [0; 2]),
        Err(expected)
    );
    let expected = Refusal {
        number: number::ROOM,
        place: 68,
    };
    assert_eq!(form_into(T, &mut [0; 67]), Err(expected));
}

#[test]
fn two_tables() {
    let about = |table, number, place| {
        Err(CompareRefusal {
            table,
            refusal: Refusal { number, place },
        })
    };
    for (text, number, place) in unreadable().into_iter().chain(not_earliest()) {
        assert_eq!(compare(&text, T), about(1, number, place));
        assert_eq!(compare(T, &text), about(2, number, place));
        assert_eq!(compare(&text, &[]), about(1, number, place));
    }
    let leaf = |arities: &[u8]| text(arities, 1, (b"", 0, b""), &[(0, 0, b"", vec![])]);
    assert_eq!(compare(&leaf(&[0]), &leaf(&[0, 0])), about(0, 19, 1));
    assert_eq!(
        compare(&leaf(&[0, 1, 2]), &leaf(&[0, 1, 3])),
        about(0, 19, 2)
    );
}

#[test]
fn every_number_occurs_above() {
    let texts = unreadable()
        .into_iter()
        .chain(not_earliest())
        .chain(refused_trees());
    let records = refused_records().into_iter().chain(refused_images());
    let records = records.map(|(_, _, number, _)| number);
    let numbers = texts.map(|(_, number, _)| number).chain([12, 19]);
    let numbers: BTreeSet<u8> = numbers.chain(records).collect();
    assert_eq!(numbers, (1..=24).collect());
}

#[test]
fn every_number_says_something_of_its_own() {
    let said = |number| Refusal { number, place: 77 }.to_string();
    let all: BTreeSet<String> = (1..=24).map(said).collect();
    assert_eq!(all.len(), 24);
    for number in 1..=24 {
        assert!(said(number).starts_with(&format!("no {number} 77: ")));
        assert!(!said(number).contains(&said(0)["no 0 77: ".len()..]));
    }
    let second = CompareRefusal {
        table: 2,
        refusal: Refusal {
            number: 14,
            place: 3,
        },
    };
    assert_eq!(
        second.to_string(),
        "second table: no 14 3: a state has no word; give state 3 a rule that ends, or drop it, its \
         rules and the rules that call it; then number the later states one lower, and lower the count \
         of states"
    );
    let error: Box<dyn std::error::Error + Send + Sync> = Box::new(second.refusal);
    assert!(error.downcast_ref::<Refusal>().is_some());
}
