//! The listing of document 01 and every case under "Both sides of each line", the starred ones
//! included, by each call that can answer it.

mod common;

use common::{counting, m1, m1_earliest, m2, turn, T, T_FORM};
use fadurinko::{compare, form, judge, word, word_into, Comparison, OpenTable, Refusal, Word};

fn no<A>(number: u8, place: usize) -> Result<A, Refusal> {
    Err(Refusal { number, place })
}

/// The word by the text and by the opened table.
fn word_both_ways(text: &[u8], tree: &[u8]) -> Result<Vec<u8>, Refusal> {
    let by_text = word(text, tree);
    let by_table = OpenTable::open(text).and_then(|mut table| table.word(tree));
    assert_eq!(by_text, by_table);
    by_text
}

fn judged_both_ways(text: &[u8]) -> Result<(), Refusal> {
    let by_text = judge(text);
    let by_table = OpenTable::open(text).and_then(|table| table.judge());
    assert_eq!(by_text, by_table);
    by_text
}

#[test]
fn listing_in_full() {
    assert_eq!(form(T), Ok(T_FORM.to_vec()));
    assert_eq!(form(T_FORM), Ok(T_FORM.to_vec()));
    assert_eq!(judged_both_ways(T), Ok(()));
    assert_eq!(compare(T, T_FORM), Ok(Comparison::Same));
}

#[test]
fn starred_words_of_t() {
    assert_eq!(word_both_ways(T, &[0, 2, 1]), Ok(b"x,".to_vec()));
    assert_eq!(word_both_ways(T, &[0, 2, 2]), Ok(b"x,x".to_vec()));
    let mut room = [0; 2];
    let found = word_into(T, &[0, 2, 1], &mut room);
    assert_eq!(
        found,
        Ok(Word {
            length: 2,
            terms: 1
        })
    );
    assert_eq!(room, [0x78, 0x2c]);
}

#[test]
fn starred_refusals_of_t() {
    assert_eq!(word_both_ways(T, &[0, 2]), no(8, 2));
    assert_eq!(word_both_ways(T, &[1]), no(9, 0));
    assert_eq!(word_both_ways(T, &[1, 1]), no(11, 1));
    assert_eq!(word_both_ways(T, &[3]), no(7, 0));
}

#[test]
fn starred_rooms_of_t() {
    let mut table = OpenTable::open(T).unwrap();
    assert_eq!(word_into(T, &[0, 1, 1], &mut []), no(12, 1));
    assert_eq!(table.word_into(&[0, 1, 1], &mut []), no(12, 1));
    let mut room = [0];
    assert_eq!(
        table.word_into(&[0, 1, 1], &mut room),
        Ok(Word {
            length: 1,
            terms: 1
        })
    );
    assert_eq!(room, [0x2c]);
}

#[test]
fn starred_m1() {
    assert_eq!(word_both_ways(&m1(), &[0, 1, 2, 2]), Ok(b"abcac".to_vec()));
    assert_eq!(word_both_ways(&m1(), &[0, 2, 2]), Ok(b"ac".to_vec()));
    assert_eq!(judged_both_ways(&m1()), no(15, 0));
    assert_eq!(judged_both_ways(&m1_earliest()), Ok(()));
    assert_eq!(
        word_both_ways(&m1_earliest(), &[0, 1, 2, 2]),
        Ok(b"abcac".to_vec())
    );
}

#[test]
fn starred_m2() {
    assert_eq!(
        word_both_ways(&m2(true), &[0, 1, 2, 2]),
        Ok(b"aab".to_vec())
    );
    assert_eq!(judged_both_ways(&m2(true)), no(18, 0));
    assert_eq!(judged_both_ways(&m2(false)), Ok(()));
    // Four states in its form: the byte behind the kind of the initial frame.
    let form = form(&m2(false)).unwrap();
    let initial = form
        .split(|&byte| byte == b'\n')
        .find(|line| line.starts_with(b"02"));
    assert!(initial.unwrap().starts_with(b"0204"));
}

#[test]
fn starred_turn() {
    assert_eq!(word_both_ways(&turn(), &[0, 1, 1, 2]), Ok(b"bba".to_vec()));
    assert_eq!(judged_both_ways(&turn()), Ok(()));
}

#[test]
fn counting_table() {
    assert_eq!(
        word_both_ways(&counting(), &[0, 0, 1, 2, 1]),
        Ok(b"ccccc".to_vec())
    );
}

#[test]
fn tables_that_are_not_the_same() {
    let changed = T.iter().map(|&byte| if byte == b'c' { b'd' } else { byte });
    let changed: Vec<u8> = changed.collect();
    assert_eq!(compare(T, &changed), Ok(Comparison::Different));
    // abc q and q abc may mean the same, but then one of them is late.
    let refused = compare(&m1_earliest(), &m1()).unwrap_err();
    assert_eq!(
        (refused.table, refused.refusal),
        (
            2,
            Refusal {
                number: 15,
                place: 0
            }
        )
    );
}
