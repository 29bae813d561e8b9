//! The errors that look like sense (document 01), each in a table of its own,
//! and the checks against the definitions.

use fadurinko_second::compare::{compare, Comparison};
use fadurinko_second::form::form_text;
use fadurinko_second::judge::judge;
use fadurinko_second::refusal::Refusal;
use fadurinko_second::{selftest, table};

fn no(number: u8, place: usize) -> Result<(), Refusal> {
    Err(Refusal::new(number, place))
}

#[test]
fn one_first_letter_but_the_empty_word_too() {
    // Two leaves: the empty word and "a".
    assert_eq!(
        judge(b"0100\n0100\n0201000000\n03000000\n0300010161\n04\n"),
        Ok(())
    );
    // Only "a" and "ab".
    let text = b"0100\n0100\n0201000000\n030000026162\n0300010161\n04\n";
    assert_eq!(judge(text), no(15, 0));
    // Only "a" and "ba".
    let text = b"0100\n0100\n0201000000\n030000026261\n0300010161\n04\n";
    assert_eq!(judge(text), no(16, 0));
}

/// Symbols f of arity 2 and leaves; state 0 has the rule for f and "x" and "y",
/// state 1 the empty word.
fn with_rule_for_f(words: &str) -> Vec<u8> {
    let text = format!(
        "0102\n0100\n0100\n0202000000\n030000{words}\n0300010178\n0300020179\n03010100\n04\n"
    );
    text.into_bytes()
}

#[test]
fn second_condition_at_every_child() {
    assert_eq!(judge(&with_rule_for_f("0001000100")), Ok(()));
    // "a" behind the last child, which gives nothing: the tail there begins with a.
    assert_eq!(judge(&with_rule_for_f("000000010161")), no(18, 0));
    // "a" behind the first child, which gives nothing.
    assert_eq!(judge(&with_rule_for_f("000101610000")), no(18, 0));
    // "a" behind a child that gives x or y.
    assert_eq!(judge(&with_rule_for_f("000100000161")), Ok(()));
    assert_eq!(judge(&with_rule_for_f("000001610100")), Ok(()));
}

#[test]
fn second_condition_in_the_initial_rule() {
    assert_eq!(judge(b"0100\n0201000000\n03000000\n04\n"), Ok(()));
    assert_eq!(judge(b"0100\n020100000161\n03000000\n04\n"), no(17, 0));
    // L(q) has the empty word and "b": "a" behind it cannot be pushed.
    let text = b"0100\n0100\n020100000161\n03000000\n0300010162\n04\n";
    assert_eq!(judge(text), Ok(()));
    let text = b"0100\n0100\n020100000161\n03000000\n0300010161\n04\n";
    assert_eq!(judge(text), no(17, 0));
}

#[test]
fn states_that_agree_where_both_have_words_stay_two() {
    // f(q1, q2): q1 knows one leaf, q2 knows two; all words are empty.
    let text = b"0102\n0100\n0100\n0203000000\n0300000001000200\n03000100\n\
        03010100\n03020100\n03020200\n04\n";
    let form = form_text(text).unwrap();
    assert_eq!(table::read(&form).unwrap().states, 3);
    let other = b"0102\n0100\n0100\n0203000000\n0300000002000100\n03000100\n\
        03010100\n03020100\n03020200\n04\n";
    assert_eq!(compare(text, other), Ok(Comparison::Different));
}

#[test]
fn words_before_and_behind_a_state() {
    // abc q against q abc for a chain: the first is earliest, the other is not
    // different but late.
    let first = b"0101\n0100\n0201000000\n030000036162630000\n03000100\n04\n";
    assert_eq!(judge(first), Ok(()));
    let second = b"0101\n0100\n0201000000\n030000000003616263\n03000100\n04\n";
    assert_eq!(judge(second), no(18, 0));
}

#[test]
fn numbers_come_in_their_order() {
    // State 1 is not reached and has no word.
    assert_eq!(judge(b"0100\n0202000000\n03000000\n04\n"), no(13, 1));
    // No rules.
    assert_eq!(judge(b"0100\n0201000000\n04\n"), no(14, 0));
    assert_eq!(judge(b"0100\n0202000100\n04\n"), no(13, 0));
    // A state that leads to itself only.
    assert_eq!(judge(b"0101\n0201000000\n030000000000\n04\n"), no(14, 0));
}

#[test]
fn checks_against_the_definitions() {
    let mut lines = Vec::new();
    assert!(selftest::run(20, &mut lines).unwrap());
}
