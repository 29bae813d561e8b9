//! Both sides of every limit, empty slices, and one table for several threads.

mod common;

use common::{full_tree, own_form, text, wordy, Rule, RECORDS, T};
use fadurinko::{
    compare, form, judge, limit, record_tree, record_word, tree_record, word, Comparison,
    OpenTable, Plan, Refusal,
};

fn no<A>(number: u8, place: usize) -> Result<A, Refusal> {
    Err(Refusal { number, place })
}

fn leaves(count: usize) -> Vec<u8> {
    text(&vec![0; count], 1, (b"", 0, b""), &[(0, 0, b"", vec![])])
}

#[test]
fn empty_slices() {
    assert_eq!(word(&[], &[]), no(1, 0));
    assert_eq!(word(T, &[]), no(6, 0));
    assert_eq!(judge(&[]), no(1, 0));
    assert_eq!(form(&[]), no(1, 0));
    assert_eq!(
        OpenTable::open(&[]).unwrap_err(),
        Refusal {
            number: 1,
            place: 0
        }
    );
    assert_eq!(OpenTable::open(T).unwrap().word(&[]), no(6, 0));
    assert_eq!(record_word(&[], &[]), no(1, 0));
    assert_eq!(record_tree(&[], &[]), no(1, 0));
    assert_eq!(tree_record(&[], &[]), no(1, 0));
    assert_eq!(record_word(RECORDS, &[]), no(22, 0));
    assert_eq!(record_tree(RECORDS, &[]), no(22, 0));
    assert_eq!(tree_record(RECORDS, &[]), no(6, 0));
    let refused = compare(&[], &[]).unwrap_err();
    assert_eq!(
        (refused.table, refused.refusal.number, refused.refusal.place),
        (1, 1, 0)
    );
    let refused = compare(T, &[]).unwrap_err();
    assert_eq!(
        (refused.table, refused.refusal.number, refused.refusal.place),
        (2, 1, 0)
    );
}

#[test]
fn texts() {
    let longest = own_form(limit::TEXT);
    assert_eq!(longest.len(), 32_768);
    assert_eq!(judge(&longest), Ok(()));
    assert_eq!(word(&longest, &[0, 0, 2]), Ok(vec![b'c'; 32]));
    assert_eq!(compare(&longest, &longest), Ok(Comparison::Same));
    let longer = [&longest[..], b"\n"].concat();
    assert_eq!(longer.len(), 32_769);
    assert_eq!(word(&longer, &[0]), no(1, 0));
    assert_eq!(judge(&longer), no(1, 0));
    assert_eq!(form(&longer), no(1, 0));
    assert_eq!(
        OpenTable::open(&longer).unwrap_err(),
        Refusal {
            number: 1,
            place: 0
        }
    );
    assert_eq!(
        compare(T, &longer).unwrap_err().refusal,
        Refusal {
            number: 1,
            place: 0
        }
    );
    assert_eq!(judge(&vec![b'0'; 10_000_000]), no(1, 0));
}

#[test]
fn symbols_arities_states_words() {
    assert_eq!(judge(&leaves(64)), Ok(()));
    assert_eq!(judge(&leaves(65)), no(4, 64 * 5));
    let by_arity = |arity: u8| text(&[0, arity], 1, (b"", 0, b""), &[(0, 0, b"", vec![])]);
    assert_eq!(judge(&by_arity(4)), Ok(()));
    assert_eq!(judge(&by_arity(5)), no(4, 5));
    let by_states = |states: u8| text(&[0], states, (b"", 0, b""), &[(0, 0, b"", vec![])]);
    assert_eq!(judge(&by_states(1)), Ok(()));
    assert_eq!(judge(&by_states(64)), no(13, 1));
    assert_eq!(judge(&by_states(65)), no(4, 5));
    assert_eq!(judge(&by_states(0)), no(4, 5));
    let by_word = |letters: usize| {
        let word = vec![b'a'; letters];
        text(&[0], 1, (&word, 0, b""), &[(0, 0, b"", vec![])])
    };
    assert_eq!(judge(&by_word(32)), Ok(()));
    assert_eq!(word(&by_word(32), &[0]), Ok(vec![b'a'; 32]));
    assert_eq!(judge(&by_word(33)), no(4, 5));
}

#[test]
fn rules() {
    let numbered = |count: usize| {
        let rules: Vec<Rule> = (0..count)
            .map(|at| ((at / 64) as u8, (at % 64) as u8, &b""[..], vec![]))
            .collect();
        text(&[0; 64], 16, (b"", 0, b""), &rules)
    };
    assert_eq!(word(&numbered(512), &[63]), Ok(vec![]));
    let refused = word(&numbered(513), &[63]);
    assert_eq!(refused, no(4, 64 * 5 + 11 + 512 * 9));
}

#[test]
fn trees() {
    let mut table = OpenTable::open(&wordy(1)).unwrap();
    let full = full_tree(15, 1);
    assert_eq!(full.len(), limit::TREE);
    assert_eq!(
        table.word(&full).map(|word| word.len()),
        Ok(2 * limit::TREE + 1)
    );
    let longer = full_tree(15, 2);
    assert_eq!(longer.len(), 32_769);
    assert_eq!(table.word(&longer), no(6, 0));
    assert_eq!(word(&wordy(1), &longer), no(6, 0));
    let chain = |depth: usize| [vec![1; depth - 1], vec![2]].concat();
    assert_eq!(
        table.word(&chain(64)).map(|word| word.len()),
        Ok(2 * 64 + 1)
    );
    assert_eq!(table.word(&chain(65)), no(10, 64));
}

#[test]
fn one_table_for_several_threads() {
    fn is_sent_and_shared<T: Send + Sync + Clone>(_: &T) {}
    let table = OpenTable::open(T).unwrap();
    is_sent_and_shared(&table);
    is_sent_and_shared(&Plan::new());
    let threads: Vec<_> = (0..4)
        .map(|_| {
            let mut table = table.clone();
            std::thread::spawn(move || {
                (0..1_000).all(|_| table.word(&[0, 2, 2]).unwrap() == b"x,x")
            })
        })
        .collect();
    assert!(threads.into_iter().all(|thread| thread.join().unwrap()));
    assert!(format!("{table:?}").contains("states: 3"));
}

/// Two threads find by one table that is only read, each with a plan of its own and in another order.
#[test]
fn one_table_lent_to_two_threads() {
    let text = wordy(3);
    let trees: Vec<Vec<u8>> = (1..=12)
        .flat_map(|levels| (0..4).map(move |chain| full_tree(levels, chain)))
        .collect();
    let words: Vec<Vec<u8>> = trees
        .iter()
        .map(|tree| word(&text, tree).unwrap())
        .collect();
    let table = &OpenTable::open(&text).unwrap();
    let find_all = |first: usize| {
        let mut plan = Plan::default();
        let all = trees.iter().zip(&words).cycle().skip(first);
        all.take(20 * trees.len())
            .filter(|(tree, word)| table.word_with(tree, &mut plan).as_ref() != Ok(word))
            .count()
    };
    std::thread::scope(|threads| {
        let other = threads.spawn(|| find_all(trees.len() / 2));
        assert_eq!(find_all(0), 0);
        assert_eq!(other.join().unwrap(), 0);
    });
}
