//! The C header and this crate have the same limits, numbers and entries of an answer under the same names.

use std::mem::{offset_of, size_of};

use fadurinko::lent::Answer;
use fadurinko::{limit, number};

fn header() -> String {
    let path = concat!(env!("CARGO_MANIFEST_DIR"), "/../../include/fadurinko.h");
    std::fs::read_to_string(path).expect("the header is there")
}

/// The first word behind `start`, on the line that begins with it.
fn value_behind(header: &str, start: &str) -> usize {
    let line = header
        .lines()
        .find_map(|line| line.trim().strip_prefix(start));
    let word = line.and_then(|rest| rest.split([' ', ',']).next());
    word.and_then(|word| word.parse().ok())
        .unwrap_or_else(|| panic!("{start}: not there"))
}

#[test]
fn limits() {
    let header = header();
    let limits = [
        ("TEXT", limit::TEXT),
        ("SYMBOLS", limit::SYMBOLS),
        ("ARITY", limit::ARITY),
        ("STATES", limit::STATES),
        ("LETTERS", limit::LETTERS),
        ("RULES", limit::RULES),
        ("TREE", limit::TREE),
        ("DEPTH", limit::DEPTH),
        ("FRAMES", limit::FRAMES),
        ("NUMBERS", limit::NUMBERS),
        ("PLAN", limit::PLAN),
        ("ANSWER", limit::ANSWER),
        ("STACK_WORD", limit::STACK_WORD),
        ("STACK_JUDGE", limit::STACK_JUDGE),
        ("STACK_FORM", limit::STACK_FORM),
        ("STACK_COMPARE", limit::STACK_COMPARE),
        ("STACK_OPEN", limit::STACK_OPEN),
        ("STACK_FIND", limit::STACK_FIND),
        ("STACK_JUDGE_OPENED", limit::STACK_JUDGE_OPENED),
        ("STACK_RECORD_WORD", limit::STACK_RECORD_WORD),
        ("STACK_RECORD_TREE", limit::STACK_RECORD_TREE),
        ("STACK_TREE_RECORD", limit::STACK_TREE_RECORD),
        ("STACK_RECORD_WORD_OPENED", limit::STACK_RECORD_WORD_OPENED),
        ("STACK_RECORD_TREE_OPENED", limit::STACK_RECORD_TREE_OPENED),
        ("STACK_TREE_RECORD_OPENED", limit::STACK_TREE_RECORD_OPENED),
    ];
    for (name, value) in limits {
        assert_eq!(
            value_behind(&header, &format!("#define FADURINKO_{name} ")),
            value,
            "{name}"
        );
    }
}

#[test]
fn numbers() {
    let header = header();
    let numbers = [
        ("TEXT_SIZE", number::TEXT_SIZE),
        ("LINE", number::LINE),
        ("KIND", number::KIND),
        ("RANGE", number::RANGE),
        ("FRAME_LENGTH", number::FRAME_LENGTH),
        ("TREE_SIZE", number::TREE_SIZE),
        ("SYMBOL", number::SYMBOL),
        ("TREE_STOPS", number::TREE_STOPS),
        ("RULE", number::RULE),
        ("DEPTH", number::DEPTH),
        ("TREE_ENDED", number::TREE_ENDED),
        ("ROOM", number::ROOM),
        ("REACHED", number::REACHED),
        ("WORD", number::WORD),
        ("PREFIX", number::PREFIX),
        ("SUFFIX", number::SUFFIX),
        ("INITIAL", number::INITIAL),
        ("EARLIEST_RULE", number::EARLIEST_RULE),
        ("SYMBOL_LISTS", number::SYMBOL_LISTS),
        ("RECORD_SYMBOLS", number::RECORD_SYMBOLS),
        ("STREAM_BYTE", number::STREAM_BYTE),
        ("STREAM_CLOSE", number::STREAM_CLOSE),
        ("SECOND_ROOT", number::SECOND_ROOT),
        ("IMAGE", number::IMAGE),
    ];
    assert!(numbers.iter().map(|&(_, value)| value).eq(1..=24));
    for (name, value) in numbers {
        let start = format!("FADURINKO_NO_{name} = ");
        assert_eq!(value_behind(&header, &start), usize::from(value), "{name}");
    }
}

#[test]
fn entries_of_an_answer() {
    let header = header();
    let entries = [
        ("PLACE", offset_of!(Answer, place)),
        ("LENGTH", offset_of!(Answer, length)),
        ("TERMS", offset_of!(Answer, terms)),
        ("SAME", offset_of!(Answer, same)),
        ("TABLE", offset_of!(Answer, table)),
    ];
    for (name, offset) in entries {
        let entry = value_behind(&header, &format!("FADURINKO_{name} = "));
        assert_eq!(entry * size_of::<usize>(), offset, "{name}");
    }
    assert_eq!(size_of::<Answer>(), limit::ANSWER * size_of::<usize>());
}
