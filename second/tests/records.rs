//! Records from the ingest desks (W1): every refusal, every line's both sides.

use std::collections::HashSet;

use fadurinko_second::examples::{brackets, LISTING_INPUT};
use fadurinko_second::record::{record_tree, record_word, tree_record, Desk};
use fadurinko_second::refusal::Refusal;
use fadurinko_second::stream::CLOSE;
use fadurinko_second::table::{self, Table};

/// The last symbol of the table of brackets.
const ABSENT: u8 = 2;

fn no<T>(number: u8, place: usize) -> Result<T, Refusal> {
    Err(Refusal::new(number, place))
}

fn text() -> Vec<u8> {
    table::write(&brackets())
}

/// What a call puts into a room that is large enough.
fn put(call: impl Fn(&mut [u8]) -> Result<usize, Refusal>) -> Result<Vec<u8>, Refusal> {
    let mut room = vec![0xee; 200_000];
    let length = call(&mut room)?;
    assert!(room[length..].iter().all(|&byte| byte == 0xee));
    room.truncate(length);
    Ok(room)
}

fn word_by(text: &[u8], record: &[u8]) -> Result<Vec<u8>, Refusal> {
    put(|room| record_word(text, record, room).map(|found| found.length))
}

fn tree_by(text: &[u8], record: &[u8]) -> Result<Vec<u8>, Refusal> {
    put(|room| record_tree(text, record, room))
}

fn record_by(text: &[u8], tree: &[u8]) -> Result<Vec<u8>, Refusal> {
    put(|room| tree_record(text, tree, room))
}

fn tree(record: &[u8]) -> Result<Vec<u8>, Refusal> {
    tree_by(&text(), record)
}

fn record(tree: &[u8]) -> Result<Vec<u8>, Refusal> {
    record_by(&text(), tree)
}

/// The stream is refused alike whether its word or its tree is asked for.
#[track_caller]
fn assert_refused(record: &[u8], number: u8, place: usize) {
    assert_eq!(word_by(&text(), record), no(number, place));
    assert_eq!(tree(record), no(number, place));
}

/// All that the record is taken for, and back.
#[track_caller]
fn assert_taken(stream: &[u8], image: &[u8]) {
    assert_eq!(tree(stream), Ok(image.to_vec()));
    assert_eq!(record(image), Ok(stream.to_vec()));
    let word = stream_in_brackets(stream);
    assert_eq!(word_by(&text(), stream), Ok(word));
}

fn stream_in_brackets(stream: &[u8]) -> Vec<u8> {
    let mut open = Vec::new();
    let bracket = |&byte: &u8| match byte {
        0 => {
            open.push(b')');
            b'('
        }
        1 => {
            open.push(b']');
            b'['
        }
        _ => open.pop().unwrap(),
    };
    stream.iter().map(bracket).collect()
}

/// A root with so many childless elements inside.
fn siblings(count: usize) -> Vec<u8> {
    [&[0][..], &[1, CLOSE].repeat(count), &[CLOSE]].concat()
}

fn nested(count: usize) -> Vec<u8> {
    [vec![0; count], vec![CLOSE; count]].concat()
}

#[test]
fn small_records() {
    assert_taken(&[0, CLOSE], &[0, 2, 2]);
    assert_taken(&[1, CLOSE], &[1, 2, 2]);
    // Two nested: the second is the first's first child.
    assert_taken(&[0, 1, CLOSE, CLOSE], &[0, 1, 2, 2, 2]);
    // a(b(a), b): b's children are a and the second b.
    let stream = [0, 1, 0, CLOSE, CLOSE, 1, CLOSE, CLOSE];
    assert_taken(&stream, &[0, 1, 0, 2, 2, 1, 2, 2, 2]);
    let (mut word, table) = (Vec::new(), brackets());
    let found = Desk::new(&table).unwrap().word(&stream, &mut word).unwrap();
    assert_eq!(word, b"([()][])");
    assert_eq!((found.length, found.terms), (8, 1));
}

#[test]
fn streams_that_are_empty_or_left_open() {
    assert_refused(&[], 22, 0);
    assert_refused(&[0], 22, 1);
    assert_refused(&[0, 1], 22, 2);
    assert_refused(&[0, 1, CLOSE], 22, 3);
    assert_refused(&[0, 1, CLOSE, 0, CLOSE], 22, 5);
}

#[test]
fn closes_without_open() {
    assert_refused(&[CLOSE], 22, 0);
    assert_refused(&[CLOSE, 0, CLOSE], 22, 0);
    assert_refused(&[0, CLOSE, CLOSE], 22, 2);
    assert_refused(&[0, 1, CLOSE, CLOSE, CLOSE, 9], 22, 4);
    assert_refused(&[0, CLOSE, CLOSE, 0], 22, 2);
}

#[test]
fn bytes_that_are_neither_label_nor_close() {
    // The number of the last symbol is no label.
    assert_refused(&[2], 21, 0);
    assert_refused(&[0, 2, CLOSE], 21, 1);
    for byte in 2..CLOSE {
        assert_refused(&[byte, CLOSE], 21, 0);
        assert_refused(&[0, byte], 21, 1);
        assert_refused(&[0, 1, CLOSE, byte, CLOSE, CLOSE], 21, 3);
    }
}

#[test]
fn second_roots() {
    assert_refused(&[0, CLOSE, 0], 23, 2);
    assert_refused(&[0, CLOSE, 1, CLOSE], 23, 2);
    assert_refused(&[0, 1, CLOSE, CLOSE, 1, 7], 23, 4);
    assert_refused(&[0, CLOSE, 1, CLOSE, CLOSE], 23, 2);
    // Behind the root's end a byte that is no label is 21 all the same.
    assert_refused(&[0, CLOSE, 2], 21, 2);
    assert_refused(&[0, CLOSE, 0xfe, 0], 21, 2);
    // From left to right: the 21 behind the second root isn't come to.
    assert_refused(&[0, CLOSE, 0, 2], 23, 2);
}

#[test]
fn levels_count_siblings() {
    let symbols = |stream: &[u8]| tree(stream).map(|tree| tree.len());
    assert_eq!(symbols(&siblings(62)), Ok(127));
    assert_refused(&siblings(63), 10, 126);
    assert_eq!(symbols(&nested(63)), Ok(127));
    assert_refused(&nested(64), 10, 64);
    assert_taken(&siblings(62), &tree(&siblings(62)).unwrap());
    assert_taken(&nested(63), &tree(&nested(63)).unwrap());
    // Behind 31 nested ones, which are not below them.
    let beside_nested = |count: usize| {
        let beside = [0, CLOSE].repeat(count);
        [&[0][..], &nested(31), &beside, &[CLOSE]].concat()
    };
    assert_eq!(symbols(&beside_nested(61)), Ok(187));
    assert_refused(&beside_nested(62), 10, 186);
    assert_refused(&beside_nested(63), 10, 186);
}

#[test]
fn level_65_is_told_in_the_tree() {
    // The tree that is spelled out is refused at the same position.
    let tree = [vec![0; 64], vec![ABSENT; 65]].concat();
    assert_eq!(record(&tree), no(10, 64));
    let tree = [vec![0], [1, ABSENT].repeat(63), vec![ABSENT; 2]].concat();
    assert_eq!(record(&tree), no(10, 126));
}

/// A record of so many elements with few levels: each list is halved, one part
/// goes inside its first element.
fn bushy(elements: usize) -> Vec<u8> {
    fn push_list(elements: usize, stream: &mut Vec<u8>) {
        if elements > 0 {
            let inside = (elements - 1) / 2;
            stream.push((elements % 2) as u8);
            push_list(inside, stream);
            stream.push(CLOSE);
            push_list(elements - 1 - inside, stream);
        }
    }
    let mut stream = vec![0];
    push_list(elements - 1, &mut stream);
    stream.push(CLOSE);
    stream
}

#[test]
fn elements_up_to_16383() {
    let most = bushy(16_383);
    assert_eq!(most.len(), 32_766);
    let image = tree(&most).unwrap();
    assert_eq!(image.len(), 32_767);
    assert_taken(&most, &image);
    assert_refused(&bushy(16_384), 6, 0);
    // The size comes before the levels.
    assert_refused(&siblings(16_382), 10, 126);
    assert_refused(&siblings(16_383), 6, 0);
    assert_refused(&nested(16_383), 10, 64);
    assert_refused(&nested(16_384), 6, 0);
    // A tree of 32,769 symbols, whatever it is, and of 32,768, which is none.
    assert_eq!(record(&[ABSENT; 32_769]), no(6, 0));
    assert_eq!(record(&[ABSENT; 32_768]), no(11, 1));
}

#[test]
fn a_megabyte_is_looked_at_to_its_last_byte() {
    const HALF: usize = 500_000;
    let longest = [nested(HALF), siblings(HALF - 1)];
    for stream in longest {
        let end = stream.len();
        let with_last = |byte: u8| [&stream[..end - 1], &[byte]].concat();
        let and_then = |byte: u8| [&stream[..], &[byte]].concat();
        assert_refused(&stream, 6, 0);
        assert_refused(&stream[..end - 1], 22, end - 1);
        assert_refused(&with_last(0), 22, end);
        assert_refused(&with_last(2), 21, end - 1);
        assert_refused(&and_then(CLOSE), 22, end);
        assert_refused(&and_then(1), 23, end);
        assert_refused(&and_then(0xfe), 21, end);
    }
    assert_refused(&[0; 1_000_000], 22, 1_000_000);
    assert_refused(&[vec![0; 1_000_000], vec![9]].concat(), 21, 1_000_000);
}

#[test]
fn trees_that_are_no_image() {
    // A lone leaf.
    assert_eq!(record(&[2]), no(24, 0));
    // A sibling at the root.
    assert_eq!(record(&[0, 2, 1, 2, 2]), no(24, 2));
    assert_eq!(record(&[0, 1, 2, 2, 1, 2, 2]), no(24, 4));
    assert_eq!(record(&[0, 1, 2, 1, 2, 2, 0, 0, 2, 2, 2]), no(24, 6));
    // Inside, siblings are as they should be.
    assert_eq!(record(&[0, 1, 2, 1, 2, 2, 2]).map(|it| it.len()), Ok(6));
}

#[test]
fn shapes_before_images() {
    assert_eq!(record(&[]), no(6, 0));
    assert_eq!(record(&[3]), no(7, 0));
    assert_eq!(record(&[0, CLOSE, 2]), no(7, 1));
    assert_eq!(record(&[0, 2]), no(8, 2));
    assert_eq!(record(&[0, 2, 1, 2]), no(8, 4));
    assert_eq!(record(&[0, 2, 1, 2, 2, 2]), no(11, 5));
    assert_eq!(record(&[2, 2]), no(11, 1));
    let deep_behind_root = [vec![0, 2], vec![0; 63], vec![2; 64]].concat();
    assert_eq!(record(&deep_behind_root), no(10, 65));
}

fn with_list(arities: &[u8]) -> Vec<u8> {
    let mut table = brackets();
    table.arities = arities.to_vec();
    table.rules.clear();
    table::write(&table)
}

#[test]
fn symbol_lists_of_another_shape() {
    let wrong: [(&[u8], usize); 12] = [
        (&[1], 0),
        (&[2], 0),
        (&[4], 0),
        (&[0, 0], 0),
        (&[1, 0], 0),
        (&[3, 2], 0),
        (&[2, 2], 1),
        (&[2, 1], 1),
        (&[2, 0, 0], 1),
        (&[2, 0, 2], 1),
        (&[2, 2, 2, 3, 4], 3),
        (&[2, 2, 2, 2, 4], 4),
    ];
    for (arities, place) in wrong {
        let text = with_list(arities);
        for bytes in [&[][..], &[0, CLOSE], &[0], &[0, 1, 1], &[9], &[0; 40_000]] {
            assert_eq!(word_by(&text, bytes), no(20, place));
            assert_eq!(tree_by(&text, bytes), no(20, place));
            assert_eq!(record_by(&text, bytes), no(20, place));
        }
    }
    // The listing's table has two leaves.
    assert_eq!(tree_by(LISTING_INPUT.as_bytes(), &[0, CLOSE]), no(20, 1));
    for labels in [1, 2, 62] {
        let text = with_list(&[vec![2; labels], vec![0]].concat());
        let last = labels as u8;
        assert_eq!(tree_by(&text, &[0, CLOSE]), Ok(vec![0, last, last]));
        let stream = [last - 1, CLOSE];
        assert_eq!(tree_by(&text, &stream), Ok(vec![last - 1, last, last]));
        assert_eq!(tree_by(&text, &[last, CLOSE]), no(21, 0));
    }
}

#[test]
fn a_list_of_one_leaf_has_no_label() {
    let text = with_list(&[0]);
    assert_eq!(tree_by(&text, &[]), no(22, 0));
    assert_eq!(tree_by(&text, &[CLOSE]), no(22, 0));
    for byte in 0..CLOSE {
        assert_eq!(tree_by(&text, &[byte]), no(21, 0));
    }
    assert_eq!(record_by(&text, &[0]), no(24, 0));
    assert_eq!(record_by(&text, &[1]), no(7, 0));
    assert_eq!(record_by(&text, &[0, 0]), no(11, 1));
}

#[test]
fn the_table_comes_first() {
    let damaged: [(&[u8], u8, usize); 5] = [
        (b"", 1, 0),
        (b"0G\n", 2, 0),
        (b"0102\n0201000000\n", 3, 16),
        (b"0102\n0105\n", 4, 5),
        (b"0102\n02\n", 5, 5),
    ];
    for (text, number, place) in damaged {
        assert_eq!(word_by(text, &[CLOSE]), no(number, place));
        assert_eq!(tree_by(text, &[]), no(number, place));
        assert_eq!(record_by(text, &[]), no(number, place));
    }
}

/// The table of brackets without its rule for the second label.
fn without_b() -> Table {
    let mut table = brackets();
    table.rules.remove(1);
    table
}

#[test]
fn rules_are_asked_for_with_the_word_only() {
    let text = table::write(&without_b());
    assert_eq!(word_by(&text, &[1, CLOSE]), no(9, 0));
    assert_eq!(word_by(&text, &[0, 1, CLOSE, CLOSE]), no(9, 1));
    let beside = [0, 0, CLOSE, 1, CLOSE, CLOSE];
    assert_eq!(word_by(&text, &beside), no(9, 3));
    let image = vec![0, 0, 2, 1, 2, 2, 2];
    assert_eq!(tree_by(&text, &beside), Ok(image.clone()));
    assert_eq!(record_by(&text, &image), Ok(beside.to_vec()));
    // Levels, size and stream come before.
    let deep = [vec![1; 64], vec![CLOSE; 64]].concat();
    assert_eq!(word_by(&text, &deep), no(10, 64));
    assert_eq!(word_by(&text, &[1, CLOSE, CLOSE]), no(22, 2));
    let long = [vec![1; 16_384], vec![CLOSE; 16_384]].concat();
    assert_eq!(word_by(&text, &long), no(6, 0));
}

/// Tries the call with rooms from none to more than enough.
fn in_rooms(output: &[u8], call: impl Fn(&mut [u8]) -> Result<usize, Refusal>) {
    let needed = output.len();
    for length in 0..needed {
        let mut room = vec![0xee; length];
        assert_eq!(call(&mut room), no(12, needed));
        assert_eq!(room, vec![0xee; length]);
    }
    for more in 0..3 {
        let mut room = vec![0xee; needed + more];
        assert_eq!(call(&mut room), Ok(needed));
        assert_eq!(room, [output, &vec![0xee; more]].concat());
    }
}

#[test]
fn rooms() {
    let text = text();
    let stream = [0, 1, 0, CLOSE, CLOSE, 1, CLOSE, CLOSE];
    let image = [0, 1, 0, 2, 2, 1, 2, 2, 2];
    in_rooms(b"([()][])", |room| {
        record_word(&text, &stream, room).map(|found| found.length)
    });
    in_rooms(&image, |room| record_tree(&text, &stream, room));
    in_rooms(&stream, |room| tree_record(&text, &image, room));
    // Every other number comes before the room's.
    let table = table::write(&without_b());
    assert_eq!(record_word(&table, &stream, &mut []), no(9, 1));
    assert_eq!(record_tree(&text, &nested(64), &mut []), no(10, 64));
    assert_eq!(tree_record(&text, &[2], &mut []), no(24, 0));
    assert_eq!(tree_record(&text, &[0, 2], &mut []), no(8, 2));
}

/// All streams that go on from this one, in which so many elements are open and
/// so many are still to come.
fn streams_from(stream: &[u8], open: usize, to_come: usize) -> Vec<Vec<u8>> {
    if open == 0 && !stream.is_empty() {
        // Behind the root's end nothing may come.
        return if to_come == 0 {
            vec![stream.to_vec()]
        } else {
            vec![]
        };
    }
    let mut streams = Vec::new();
    if to_come > 0 {
        for label in [0, 1] {
            let longer = [stream, &[label]].concat();
            streams.extend(streams_from(&longer, open + 1, to_come - 1));
        }
    }
    if open > 0 {
        let longer = [stream, &[CLOSE]].concat();
        streams.extend(streams_from(&longer, open - 1, to_come));
    }
    streams
}

/// How many trees of so many symbols there are over the table's list: to each
/// inner symbol two children, of which any sizes that are left make a pair.
fn count_of_trees(symbols: usize) -> usize {
    match symbols {
        1 => 1,
        _ => (1..symbols - 1)
            .map(|first| 2 * count_of_trees(first) * count_of_trees(symbols - 1 - first))
            .sum(),
    }
}

#[test]
fn every_record_of_up_to_six_elements_both_ways() {
    let text = text();
    for (elements, count) in [(1, 2), (2, 4), (3, 16), (4, 80), (5, 448), (6, 2688)] {
        let streams = streams_from(&[], 0, elements);
        assert_eq!(streams.len(), count);
        let mut images = HashSet::new();
        for stream in streams {
            let image = tree_by(&text, &stream).unwrap();
            assert_eq!(image.len(), 2 * elements + 1);
            assert_eq!(record_by(&text, &image), Ok(stream.clone()));
            assert_eq!(word_by(&text, &stream), Ok(stream_in_brackets(&stream)));
            assert!(images.insert(image));
        }
        // So many trees have a label on top and nothing beside it.
        assert_eq!(images.len(), 2 * count_of_trees(2 * elements - 1));
    }
}
