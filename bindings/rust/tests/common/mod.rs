//! Tables for the tests, written out as texts.
#![allow(dead_code)]

pub mod room;

/// The table on the left of document 01's listing, and what the listing prints.
pub const T: &[u8] = b"0102\n0100\n0100\n0203000200\n03000100\n0300020178\n03010100\n0301020178\n\
    0302000000012c0100\n04\n";
pub const T_FORM: &[u8] =
    b"0102\n0100\n0100\n0202000000\n0300000001012c0100\n03010100\n0301020178\n04\n";

/// The example table for records: the labels 0 clip, 1 scene and 2 take; 3 is absent.
pub const RECORDS: &[u8] = include_bytes!("../../../../examples/records.table");

/// The byte that closes an element of a record.
pub const CLOSE: u8 = 0xff;

/// A rule: state, symbol, first word, then each child's state and word.
pub type Rule<'words> = (u8, u8, &'words [u8], Vec<(u8, &'words [u8])>);

fn put_word(frame: &mut Vec<u8>, word: &[u8]) {
    frame.push(word.len() as u8);
    frame.extend(word);
}

/// The text of a table; nothing is checked, so that faulty ones can be written too.
pub fn text(
    arities: &[u8],
    states: u8,
    initial: (&[u8], u8, &[u8]),
    rules: &[Rule<'_>],
) -> Vec<u8> {
    let mut frames: Vec<Vec<u8>> = arities.iter().map(|&arity| vec![1, arity]).collect();
    let mut head = vec![2, states];
    put_word(&mut head, initial.0);
    head.push(initial.1);
    put_word(&mut head, initial.2);
    frames.push(head);
    for (state, symbol, word, children) in rules {
        let mut frame = vec![3, *state, *symbol];
        put_word(&mut frame, word);
        for (state, word) in children {
            frame.push(*state);
            put_word(&mut frame, word);
        }
        frames.push(frame);
    }
    frames.push(vec![4]);
    let line = |frame: &Vec<u8>| {
        frame
            .iter()
            .map(|byte| format!("{byte:02x}"))
            .collect::<String>()
            + "\n"
    };
    frames.iter().map(line).collect::<String>().into_bytes()
}

/// M1 of document 001; symbols f, g, a.
pub fn m1() -> Vec<u8> {
    let rules: [Rule; 3] = [
        (0, 0, b"", vec![(1, b"ac"), (1, b"")]),
        (1, 1, b"", vec![(1, b"abc")]),
        (1, 2, b"", vec![]),
    ];
    text(&[2, 1, 0], 2, (b"", 0, b""), &rules)
}

/// Its earliest table, with the core that document 01 sets right.
pub fn m1_earliest() -> Vec<u8> {
    let rules: [Rule; 5] = [
        (0, 0, b"", vec![(1, b""), (2, b"")]),
        (1, 1, b"bca", vec![(1, b"")]),
        (1, 2, b"", vec![]),
        (2, 1, b"cab", vec![(2, b"")]),
        (2, 2, b"", vec![]),
    ];
    text(&[2, 1, 0], 3, (b"a", 0, b"c"), &rules)
}

/// M2 of document 001 (`late`), or its earliest table.
pub fn m2(late: bool) -> Vec<u8> {
    let pair: Rule = match late {
        true => (0, 0, b"", vec![(1, b""), (3, b"ab")]),
        false => (0, 0, b"a", vec![(1, b"b"), (3, b"")]),
    };
    let rules: [Rule; 8] = [
        pair,
        (0, 2, b"ba", vec![]),
        (1, 1, b"a", vec![(2, b"")]),
        (1, 2, b"", vec![]),
        (2, 1, if late { b"ab" } else { b"ba" }, vec![(3, b"")]),
        (2, 2, b"", vec![]),
        (3, 1, b"", vec![(3, b"")]),
        (3, 2, b"", vec![]),
    ];
    text(&[2, 1, 0], 4, (b"", 0, b""), &rules)
}

/// The table of document 001 that turns a chain; symbols a, b, ⊥.
pub fn turn() -> Vec<u8> {
    let rules: [Rule; 3] = [
        (0, 0, b"", vec![(0, b"a")]),
        (0, 1, b"", vec![(0, b"b")]),
        (0, 2, b"", vec![]),
    ];
    text(&[1, 1, 0], 1, (b"", 0, b""), &rules)
}

/// The counting table, 6.4 of document 000; symbols f, a, b.
pub fn counting() -> Vec<u8> {
    let rules: [Rule; 3] = [
        (0, 0, b"cc", vec![(0, b""), (0, b"")]),
        (0, 1, b"", vec![]),
        (0, 2, b"", vec![]),
    ];
    text(&[2, 0, 0], 1, (b"c", 0, b""), &rules)
}

/// One state over symbols f (two trees), g (one) and a (none), every word with this many letters.
pub fn wordy(letters: usize) -> Vec<u8> {
    let words = [
        b"0123456789abcdefghijklmnopqrstuv".repeat(2),
        b" ".repeat(64),
    ]
    .concat();
    let word = |from: usize| &words[from..from + letters];
    let rules: [Rule; 3] = [
        (0, 0, word(0), vec![(0, word(1)), (0, word(2))]),
        (0, 1, word(3), vec![(0, word(64))]),
        (0, 2, word(5), vec![]),
    ];
    text(&[2, 1, 0], 1, (word(6), 0, word(7)), &rules)
}

/// A table for records with the labels 0 and 1, which write a and b, what is inside between brackets,
/// and then what is beside them; 2 is absent.
pub fn brackets() -> Vec<u8> {
    let label = |symbol, word| -> Rule<'static> { (0, symbol, word, vec![(0, b")"), (0, b"")]) };
    let rules = [label(0, b"a("), label(1, b"b("), (0, 2, b"", vec![])];
    text(&[2, 2, 0], 1, (b"", 0, b""), &rules)
}

/// The record of which these bytes are the tree, if they are one's, where this symbol is the last: it
/// closes an element, and stands once more at the end.
pub fn record_of(tree: &[u8], last: u8) -> Vec<u8> {
    let closed = tree[..tree.len() - 1].iter();
    closed
        .map(|&symbol| if symbol == last { CLOSE } else { symbol })
        .collect()
}

/// A full tree of f and a for `wordy`, below so many g.
pub fn full_tree(levels: u32, chain: usize) -> Vec<u8> {
    let full = (1..levels).fold(vec![2], |tree, _| [&[0][..], &tree, &tree].concat());
    [vec![1; chain], full].concat()
}

/// An earliest table that is its own form, with exactly this many bytes (32,000 and more): eight
/// states in a ring, each with the empty word and with words of its own letter.
pub fn own_form(length: usize) -> Vec<u8> {
    let letters: Vec<[u8; 32]> = (b'a'..=b'h').map(|letter| [letter; 32]).collect();
    let mut rules: Vec<Rule> = Vec::new();
    for state in 0..8 {
        rules.push((state, 0, b"", vec![((state + 1) % 8, b"")]));
        rules.push((state, 1, b"", vec![]));
    }
    let arities = [&[1][..], &[0; 63]].concat();
    let left = length - text(&arities, 8, (b"", 0, b""), &rules).len();
    // A rule without letters takes 9 bytes, and a letter 2.
    let fits =
        |count: &usize| 9 * count <= left && left <= 73 * count && (left - 9 * count) % 2 == 0;
    let count = (0..=8 * 62).find(fits).expect("the length can be made");
    let mut due = (left - 9 * count) / 2;
    for at in 0..count {
        let here = due.min(32);
        due -= here;
        rules.push((
            at as u8 % 8,
            2 + (at / 8) as u8,
            &letters[at % 8][..here],
            vec![],
        ));
    }
    rules.sort_by_key(|rule| (rule.0, rule.1));
    text(&arities, 8, (b"", 0, b""), &rules)
}
