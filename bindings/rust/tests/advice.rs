//! The advice of the refusals, followed: what it says to change makes the table earliest, and no tree
//! gets another word.

mod common;

use common::{brackets, m1, m1_earliest, m2, text, Rule, CLOSE, T};
use fadurinko::{judge, record_tree, record_word, tree_record, word, Refusal};

const QUIET: (&[u8], u8, &[u8]) = (b"", 0, b"");

/// Trees of up to four levels over symbols of arity 0 to 2, some of them more than once.
fn trees(arities: &[u8]) -> Vec<Vec<u8>> {
    let mut trees: Vec<Vec<u8>> = vec![];
    for level in 0..4 {
        let below = trees.clone();
        for (symbol, arity) in (0..).zip(arities) {
            match arity {
                0 if level == 0 => trees.push(vec![symbol]),
                1 => trees.extend(below.iter().map(|tree| [&[symbol][..], tree].concat())),
                2 => trees.extend(below.iter().flat_map(|left| {
                    let pair = move |right| [&[symbol][..], left, right].concat();
                    below.iter().map(move |right| pair(&right[..]))
                })),
                _ => {}
            }
        }
    }
    trees
}

/// The table was refused so, the mended one is earliest, and both give each tree the same word or none.
fn mends(late: &[u8], number: u8, place: usize, arities: &[u8], mended: &[u8]) {
    assert_eq!(judge(late), Err(Refusal { number, place }));
    assert_eq!(judge(mended), Ok(()));
    let trees = trees(arities);
    assert!(trees.iter().any(|tree| word(late, tree).is_ok()));
    for tree in trees {
        assert_eq!(word(late, &tree).ok(), word(mended, &tree).ok(), "{tree:?}");
    }
}

/// What is said behind the meaning.
fn advice(number: u8) -> String {
    let refusal = Refusal { number, place: 7 };
    let meaning = format!("no {number} 7: {}; ", refusal.meaning());
    refusal.to_string().replacen(&meaning, "", 1)
}

/// The rules of a state that writes b for each symbol 1, down to the leaf 0.
fn writes_b(state: u8) -> [Rule<'static>; 2] {
    [
        (state, 0, b"", vec![]),
        (state, 1, b"b", vec![(state, b"")]),
    ]
}

#[test]
fn a_state_that_is_not_reached_is_dropped() {
    let arities = [0, 1];
    let first = |next| -> [Rule; 2] { [(0, 0, b"", vec![]), (0, 1, b"", vec![(next, b"")])] };
    let lonely: [Rule; 2] = [(1, 0, b"", vec![]), (1, 1, b"", vec![(2, b"")])];
    let late = text(
        &arities,
        3,
        QUIET,
        &[first(2), lonely, writes_b(2)].concat(),
    );
    let mended = text(&arities, 2, QUIET, &[first(1), writes_b(1)].concat());
    mends(&late, 13, 1, &arities, &mended);
    assert_eq!(
        advice(13),
        "drop state 7, its rules and the rules that call it; then number the later states one lower, \
         and lower the count of states"
    );
}

#[test]
fn a_state_that_has_no_word_ends_or_is_dropped() {
    let arities = [0, 1, 1];
    let first = |next| -> [Rule; 2] { [(0, 0, b"", vec![]), (0, 1, b"", vec![(next, b"")])] };
    let call: [Rule; 1] = [(0, 2, b"", vec![(1, b"")])];
    let ends: [Rule; 1] = [(1, 0, b"", vec![])];
    let endless: [Rule; 1] = [(1, 1, b"", vec![(1, b"")])];
    let table = |rules: &[&[Rule<'static>]], states| text(&arities, states, QUIET, &rules.concat());
    let late = table(&[&first(2), &call, &endless, &writes_b(2)], 3);
    let dropped = table(&[&first(1), &writes_b(1)], 2);
    mends(&late, 14, 1, &arities, &dropped);
    let ended = table(&[&first(2), &call, &ends, &endless, &writes_b(2)], 3);
    assert_eq!(judge(&ended), Ok(()));
    assert_eq!(
        advice(14),
        "give state 7 a rule that ends, or drop it, its rules and the rules that call it; then number \
         the later states one lower, and lower the count of states"
    );
}

#[test]
fn a_prefix_goes_in_front_of_every_call() {
    let arities = [0, 0, 1];
    let late: [Rule; 3] = [
        (0, 0, b"xa", vec![]),
        (0, 1, b"xb", vec![]),
        (0, 2, b"xz", vec![(0, b"y")]),
    ];
    let mended: [Rule; 3] = [
        (0, 0, b"a", vec![]),
        (0, 1, b"b", vec![]),
        (0, 2, b"zx", vec![(0, b"y")]),
    ];
    let mended = text(&arities, 1, (b"x", 0, b""), &mended);
    mends(&text(&arities, 1, QUIET, &late), 15, 0, &arities, &mended);
    // In M1 the first word is empty: the letter first passes the child's words.
    mends(&m1(), 15, 0, &[2, 1, 0], &m1_earliest());
    assert_eq!(
        advice(15),
        "write its first letter in front of every call of state 7, in its own rules too, and take it \
         off the front of the first word of each of its rules; where that word is empty, the letter \
         comes from the first child: move it in front of that child first"
    );
}

#[test]
fn a_suffix_goes_behind_every_call() {
    let arities = [0, 0, 1];
    let late: [Rule; 3] = [
        (0, 0, b"ax", vec![]),
        (0, 1, b"bx", vec![]),
        (0, 2, b"y", vec![(0, b"zx")]),
    ];
    let mended: [Rule; 3] = [
        (0, 0, b"a", vec![]),
        (0, 1, b"b", vec![]),
        (0, 2, b"y", vec![(0, b"xz")]),
    ];
    let mended = text(&arities, 1, (b"", 0, b"x"), &mended);
    mends(&text(&arities, 1, QUIET, &late), 16, 0, &arities, &mended);
    assert_eq!(
        advice(16),
        "write its last letter behind every call of state 7, in its own rules too, and take it off \
         the end of the last word of each of its rules; where that word is empty, the letter comes \
         from the last child: move it behind that child first"
    );
}

#[test]
fn a_letter_is_moved_to_the_left() {
    let arities = [0, 0];
    let late: [Rule; 2] = [(0, 0, b"", vec![]), (0, 1, b"ab", vec![])];
    let turned: [Rule; 2] = [(0, 0, b"", vec![]), (0, 1, b"ba", vec![])];
    let late = text(&arities, 1, (b"", 0, b"a"), &late);
    let mended = text(&arities, 1, (b"a", 0, b""), &turned);
    mends(&late, 17, 0, &arities, &mended);
    mends(&m2(true), 18, 0, &[2, 1, 0], &m2(false));
    let turned =
        "if the state has words that begin with it, call a state there whose words end with \
                  it instead";
    assert_eq!(
        advice(17),
        format!("move the letter in front of the state; {turned}")
    );
    assert_eq!(
        advice(18),
        format!(
            "in the rule with index 7, counted from 0, move the letter in front of the child; {turned}"
        )
    );
}

#[test]
fn a_symbol_list_becomes_one_for_records() {
    let table = |arities: &[u8]| text(arities, 1, QUIET, &[]);
    let refused = record_tree(&table(&[2, 0, 2, 0]), &[1, CLOSE]);
    let refusal = Refusal {
        number: 20,
        place: 1,
    };
    assert_eq!(refused, Err(refusal));
    let mended = record_tree(&table(&[2, 2, 2, 0]), &[1, CLOSE]);
    assert_eq!(mended.unwrap(), [1, 3, 3]);
    assert_eq!(
        advice(20),
        "look at the symbol with index 7, counted from 0: the last must have arity 0 and all others 2"
    );
}

/// The record was refused so, and the mended one has a word.
fn mends_record(record: &[u8], number: u8, place: usize, mended: &[u8]) {
    let text = brackets();
    assert_eq!(record_word(&text, record), Err(Refusal { number, place }));
    assert!(record_word(&text, mended).is_ok());
}

#[test]
fn a_record_is_mended() {
    mends_record(&[0, 2, CLOSE, CLOSE], 21, 1, &[0, 1, CLOSE, CLOSE]);
    assert_eq!(
        advice(21),
        "look at the byte at 7: the labels are the numbers below that of the last symbol"
    );
    mends_record(&[0, CLOSE, CLOSE], 22, 2, &[0, CLOSE]);
    mends_record(&[0, 1, 1], 22, 3, &[0, 1, 1, CLOSE, CLOSE, CLOSE]);
    assert_eq!(
        advice(22),
        "look at the ff at 7, which is one too many; if the record ends there, it is empty or lacks an \
         ff for each open element"
    );
    let two = [0, CLOSE, 1, CLOSE];
    mends_record(&two, 23, 2, &two[..2]);
    mends_record(&two, 23, 2, &two[2..]);
    assert_eq!(
        advice(23),
        "cut the record before the byte at 7 and give the rest as another one"
    );
}

#[test]
fn a_tree_becomes_that_of_a_record() {
    let text = brackets();
    let refusal = |place| Refusal { number: 24, place };
    let beside = [0, 1, 2, 2, 1, 2, 2];
    assert_eq!(tree_record(&text, &beside), Err(refusal(4)));
    let alone = [&beside[..4], &[2]].concat();
    assert_eq!(tree_record(&text, &alone).unwrap(), [0, 1, CLOSE, CLOSE]);
    assert_eq!(
        advice(24),
        "another element stands beside its root: the symbol at 7 must be the last one of the table's \
         list"
    );
    assert_eq!(tree_record(&text, &[2]), Err(refusal(0)));
    assert_eq!(
        refusal(0).to_string(),
        "no 24 0: the tree is no record's image; it is a lone leaf, which stands for no element"
    );
}

/// The tree's own numbers say what they mean for a record.
#[test]
fn the_limits_of_a_record() {
    assert_eq!(
        advice(6),
        "give 1 to 32768 symbols, or a record of 1 to 16383 elements"
    );
    assert_eq!(
        advice(10),
        "look at the symbol at 7; in a record each element stands a level below the one that it is \
         inside of or beside"
    );
}

/// A line of T with a fault, and the number that it gets.
#[test]
fn forgotten_children_and_wrong_word_lengths() {
    let pair = "0302000000012c0100\n";
    let faulty = |line: &str| {
        let table = String::from_utf8(T.to_vec()).unwrap();
        judge(table.replacen(pair, line, 1).as_bytes())
    };
    let place = T.windows(4).position(|four| four == b"0302").unwrap();
    for (line, number) in [
        ("03020000012c0100\n", 4),   // the first child's state is forgotten
        ("0302000000002c0100\n", 4), // a word is longer than it says
        ("0303000000012c0100\n", 4), // there are three states, 0 to 2
        ("0302000000012c\n", 5),     // the second child is forgotten
        ("0302000000022c0100\n", 5), // a word is shorter than it says
    ] {
        assert_eq!(faulty(line), Err(Refusal { number, place }), "{line}");
    }
    let line = "look at the line that starts at byte 7 of the table text: ";
    assert_eq!(
        advice(4),
        line.to_owned()
            + "a state or symbol must be below its count; often a child is forgotten or a word's length \
               is wrong, so that the next byte is read as a number that it is not"
    );
    assert_eq!(
        advice(5),
        line.to_owned()
            + "compare the word lengths with the letters, and the children with the symbol's arity"
    );
}
