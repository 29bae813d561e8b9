//! The listing of document 01 and every case under "Both sides of each line".

use fadurinko_second::compare::{compare, Comparison, PairRefusal};
use fadurinko_second::examples::{
    counting, m1, m1_earliest, m2, m2_earliest, turn, A, F, G, LISTING_INPUT, LISTING_OUTPUT,
};
use fadurinko_second::form::{form, form_text};
use fadurinko_second::judge::judge;
use fadurinko_second::refusal::Refusal;
use fadurinko_second::table::{self, Table};
use fadurinko_second::walk::{word, Found};

const T: &[u8] = LISTING_INPUT.as_bytes();

/// The word of a tree in a room that is large enough.
fn word_by(text: &[u8], tree: &[u8]) -> Result<(Vec<u8>, usize), Refusal> {
    let mut room = vec![0xee; 4_000_000];
    let found = word(text, tree, &mut room)?;
    assert!(room[found.length..].iter().all(|&byte| byte == 0xee));
    room.truncate(found.length);
    Ok((room, found.terms))
}

fn found(letters: &[u8], terms: usize) -> Result<(Vec<u8>, usize), Refusal> {
    Ok((letters.to_vec(), terms))
}

fn no<T>(number: u8, place: usize) -> Result<T, Refusal> {
    Err(Refusal::new(number, place))
}

fn text(table: &Table) -> Vec<u8> {
    table::write(table)
}

#[test]
fn listing_in_full() {
    assert_eq!(form_text(T), Ok(LISTING_OUTPUT.into()));
    assert_eq!(
        form_text(LISTING_OUTPUT.as_bytes()),
        Ok(LISTING_OUTPUT.into())
    );
    assert_eq!(judge(T), Ok(()));
}

#[test]
fn starred_words_of_t() {
    assert_eq!(word_by(T, &[0, 2, 1]), found(&[0x78, 0x2c], 1));
    assert_eq!(word_by(T, &[0, 2, 2]), found(&[0x78, 0x2c, 0x78], 1));
}

#[test]
fn starred_refusals_of_t() {
    assert_eq!(word_by(T, &[0, 2]), no(8, 2));
    assert_eq!(word_by(T, &[1]), no(9, 0));
    assert_eq!(word_by(T, &[1, 1]), no(11, 1));
    assert_eq!(word_by(T, &[3]), no(7, 0));
}

#[test]
fn starred_rooms_of_t() {
    assert_eq!(word(T, &[0, 1, 1], &mut []), no(12, 1));
    let mut room = [0];
    let expected = Found {
        length: 1,
        terms: 1,
    };
    assert_eq!(word(T, &[0, 1, 1], &mut room), Ok(expected));
    assert_eq!(room, [0x2c]);
}

#[test]
fn m1_and_its_earliest_table() {
    let m1 = text(&m1());
    assert_eq!(word_by(&m1, &[F, G, A, A]), found(b"abcac", 1));
    assert_eq!(word_by(&m1, &[F, A, A]), found(b"ac", 1));
    assert_eq!(judge(&m1), no(15, 0));
    let earliest = text(&m1_earliest());
    assert_eq!(judge(&earliest), Ok(()));
    assert_eq!(form_text(&earliest), Ok(earliest.clone()));
    assert_eq!(word_by(&earliest, &[F, G, A, A]), found(b"abcac", 1));
    assert_eq!(word_by(&earliest, &[F, A, G, A]), found(b"acabc", 1));
    assert_eq!(word_by(&m1, &[F, A, G, A]), found(b"acabc", 1));
}

#[test]
fn m2_and_its_earliest_table() {
    let m2 = text(&m2());
    assert_eq!(word_by(&m2, &[F, G, A, A]), found(b"aab", 1));
    assert_eq!(judge(&m2), no(18, 0));
    let earliest = text(&m2_earliest());
    assert_eq!(judge(&earliest), Ok(()));
    let form = form_text(&earliest).unwrap();
    assert_eq!(table::read(&form).unwrap().states, 4);
    for tree in [
        &[A][..],
        &[F, A, A],
        &[F, G, A, G, A],
        &[F, G, G, G, A, G, A],
    ] {
        assert_eq!(word_by(&earliest, tree), word_by(&m2, tree));
    }
    assert_eq!(word_by(&m2, &[F, G, G, A, A]), found(b"aabab", 1));
    assert_eq!(word_by(&m2, &[A]), found(b"ba", 1));
}

#[test]
fn turn_table() {
    let turn = text(&turn());
    assert_eq!(word_by(&turn, &[0, 1, 1, 2]), found(b"bba", 1));
    assert_eq!(judge(&turn), Ok(()));
    assert_eq!(form_text(&turn), Ok(turn.clone()));
}

#[test]
fn counting_table() {
    let counting = text(&counting());
    assert_eq!(word_by(&counting, &[0, 0, 1, 2, 1]), found(b"ccccc", 1));
    assert_eq!(judge(&counting), Ok(()));
    assert_eq!(form_text(&counting), Ok(counting.clone()));
}

/// A chain of so many symbols of the turn table, the last one ⊥.
fn chain(depth: usize) -> Vec<u8> {
    let mut tree = vec![0; depth];
    tree[depth - 1] = 2;
    tree
}

#[test]
fn depth_64_passes_and_65_is_number_10() {
    let turn = text(&turn());
    assert_eq!(word_by(&turn, &chain(64)), found(&[b'a'; 63], 1));
    assert_eq!(word_by(&turn, &chain(65)), no(10, 64));
    let counting = text(&counting());
    // To the right: f leaf f leaf .. leaf.
    let along_last_children = |depth: usize| {
        let mut tree = [0, 1].repeat(depth - 1);
        tree.push(1);
        tree
    };
    let letters = along_last_children(64).len();
    assert_eq!(
        word_by(&counting, &along_last_children(64)),
        found(&vec![b'c'; letters], 1)
    );
    assert_eq!(word_by(&counting, &along_last_children(65)), no(10, 127));
}

#[test]
fn unknown_symbol_comes_before_depth_at_one_position() {
    let turn = text(&turn());
    let mut tree = chain(65);
    tree[64] = 3;
    assert_eq!(word_by(&turn, &tree), no(7, 64));
    let mut tree = chain(66);
    tree[65] = 3;
    assert_eq!(word_by(&turn, &tree), no(10, 64));
}

#[test]
fn unknown_symbol_behind_the_end_is_number_11() {
    assert_eq!(word_by(T, &[1, 9]), no(11, 1));
    assert_eq!(word_by(T, &[0, 1, 2, 200, 201]), no(11, 3));
}

#[test]
fn word_of_32_letters_passes_and_33_is_number_4() {
    let mut table = turn();
    for (length, expected) in [(32, Ok(())), (33, no(4, 15))] {
        table.initial.before = vec![b'a'; length];
        assert_eq!(judge(&text(&table)), expected);
    }
    let mut table = turn();
    for (length, expected) in [(32, Ok(())), (33, no(4, 26))] {
        table.rules[0].before = vec![b'a'; length];
        assert_eq!(judge(&text(&table)), expected);
    }
    let mut table = turn();
    for (length, expected) in [(32, Ok(())), (33, no(4, 26))] {
        table.rules[0].children[0].after = vec![b'a'; length];
        assert_eq!(judge(&text(&table)), expected);
    }
}

#[test]
fn trees_of_32768_symbols_pass_and_one_more_is_number_6() {
    let mut table = counting();
    table.arities.push(1);
    let child = table::Child {
        state: 0,
        after: vec![],
    };
    table.rules.push(table::Rule {
        state: 0,
        symbol: 3,
        before: b" ".to_vec(),
        children: vec![child],
    });
    let mut full = vec![1];
    while full.len() < 32_767 {
        full = [&[0], &full[..], &full[..]].concat();
    }
    let text = text(&table);
    let longest = [&[3], &full[..]].concat();
    assert_eq!(longest.len(), 32_768);
    let (word, terms) = word_by(&text, &longest).unwrap();
    assert_eq!((word.len(), terms), (32_768, 2));
    let too_long = [&[3], &longest[..]].concat();
    assert_eq!(word_by(&text, &too_long), no(6, 0));
    assert_eq!(word_by(&text, &[]), no(6, 0));
}

#[test]
fn terms_are_spaces_plus_one() {
    let mut table = turn();
    table.initial.before = b"  a ".to_vec();
    assert_eq!(word_by(&text(&table), &[2]), found(b"  a ", 4));
    table.initial.before = vec![];
    assert_eq!(word_by(&text(&table), &[2]), found(b"", 1));
}

#[test]
fn rooms_of_forms() {
    let needed = LISTING_OUTPUT.len();
    let mut room = vec![7; needed - 1];
    assert_eq!(form(T, &mut room), no(12, needed));
    assert!(room.iter().all(|&byte| byte == 7));
    let mut room = vec![7; needed + 2];
    assert_eq!(form(T, &mut room), Ok(needed));
    assert_eq!(&room[..needed], LISTING_OUTPUT.as_bytes());
    assert_eq!(&room[needed..], [7, 7]);
}

fn refused(table: u8, number: u8, place: usize) -> Result<Comparison, PairRefusal> {
    Err(PairRefusal {
        table,
        refusal: Refusal::new(number, place),
    })
}

#[test]
fn comparisons_of_worked_tables() {
    let same = Ok(Comparison::Same);
    let different = Ok(Comparison::Different);
    assert_eq!(compare(T, LISTING_OUTPUT.as_bytes()), same);
    assert_eq!(compare(T, T), same);
    let (m1, m2) = (text(&m1_earliest()), text(&m2_earliest()));
    assert_eq!(compare(&m1, &m2), different);
    assert_eq!(compare(T, &m1), refused(0, 19, 1));
    assert_eq!(compare(T, &text(&turn())), refused(0, 19, 0));
    assert_eq!(compare(T, &text(&counting())), different);
    let late = text(&fadurinko_second::examples::m1());
    assert_eq!(compare(&late, b""), refused(1, 15, 0));
    assert_eq!(compare(T, b""), refused(2, 1, 0));
    assert_eq!(compare(T, &late), refused(2, 15, 0));
    let mut longer = table::read(T).unwrap();
    longer.arities.push(0);
    assert_eq!(compare(T, &text(&longer)), refused(0, 19, 3));
    assert_eq!(compare(&text(&longer), T), refused(0, 19, 3));
}
