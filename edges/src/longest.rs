//! The longest word of all: every word of the table has 32 letters, and the tree has 32,768 symbols. And
//! records, of which the largest that is answered has 16,383 elements.

use std::fmt::Write;

/// So many symbols a tree has at most.
pub const MOST_SYMBOLS: usize = 32_768;

const PAIR: u8 = 0;
const LEAF: u8 = 1;
const SINGLE: u8 = 2;

/// A word of 32 letters with its length in front, in hexadecimal. The letters follow on those of the
/// word before, and some of them are blanks, so that terms are counted too.
fn word(text: &mut String, letter: &mut u8) {
    text.push_str("20");
    for _ in 0..32 {
        let shown = if letter.is_multiple_of(7) {
            b' '
        } else {
            *letter
        };
        write!(text, "{shown:02x}").expect("a string takes everything");
        *letter = letter.wrapping_add(5);
    }
}

/// A rule of state 0, with all children in state 0.
fn rule(text: &mut String, letter: &mut u8, symbol: u8, children: usize) {
    write!(text, "0300{symbol:02x}").expect("a string takes everything");
    word(text, letter);
    for _ in 0..children {
        text.push_str("00");
        word(text, letter);
    }
    text.push('\n');
}

/// A table of one state over symbols with these arities.
fn table_over(arities: &[usize]) -> Vec<u8> {
    let mut text = String::new();
    for arity in arities {
        writeln!(text, "01{arity:02x}").expect("a string takes everything");
    }
    text.push_str("0201");
    let mut letter = 3;
    word(&mut text, &mut letter);
    text.push_str("00");
    word(&mut text, &mut letter);
    text.push('\n');
    for (symbol, arity) in arities.iter().enumerate() {
        rule(&mut text, &mut letter, symbol as u8, *arity);
    }
    text.push_str("04\n");
    text.into_bytes()
}

/// The table: a pair, a leaf and a single child.
pub fn table() -> Vec<u8> {
    table_over(&[2, 0, 1])
}

/// The table for records: one label, which is the pair, and the leaf.
pub fn record_table() -> Vec<u8> {
    table_over(&[2, 0])
}

fn full_tree(levels: usize, tree: &mut Vec<u8>) {
    if levels == 1 {
        return tree.push(LEAF);
    }
    tree.push(PAIR);
    full_tree(levels - 1, tree);
    full_tree(levels - 1, tree);
}

/// Pairs down to 16 levels, the first of them a single child, so that the number of symbols is even.
pub fn tree() -> Vec<u8> {
    let mut tree = vec![SINGLE];
    full_tree(15, &mut tree);
    tree
}

/// So many elements a record has at most, if it is to have an answer.
pub const MOST_ELEMENTS: usize = (MOST_SYMBOLS - 1) / 2;

const CLOSE: u8 = 0xff;

fn add_elements(elements: usize, stream: &mut Vec<u8>) {
    if elements > 0 {
        let inside = (elements - 1) / 2;
        stream.push(PAIR);
        add_elements(inside, stream);
        stream.push(CLOSE);
        add_elements(elements - 1 - inside, stream);
    }
}

/// The stream of a record of so many elements, with few levels.
pub fn record(elements: usize) -> Vec<u8> {
    let mut stream = vec![PAIR];
    add_elements(elements - 1, &mut stream);
    stream.push(CLOSE);
    stream
}

/// The image of a record as a tree.
pub fn image(stream: &[u8]) -> Vec<u8> {
    let symbol = |byte: &u8| if *byte == CLOSE { LEAF } else { *byte };
    stream.iter().map(symbol).chain([LEAF]).collect()
}

pub fn hexadecimal(bytes: &[u8]) -> String {
    bytes.iter().map(|byte| format!("{byte:02x}")).collect()
}

#[cfg(test)]
mod tests {
    use super::*;
    use fadurinko_second::record::Desk;
    use fadurinko_second::refusal::{Refusal, TREE_SIZE};
    use fadurinko_second::table::read;
    use fadurinko_second::walk::Walker;

    #[test]
    fn it_has_as_many_letters_as_there_can_be() {
        // Two words of the initial rule, and of each symbol one more than it has children.
        let letters = (2 + MOST_SYMBOLS + MOST_SYMBOLS - 1) * 32;
        assert_eq!(letters, 2_097_184);
        let table = read(&table()).expect("the table can be read");
        let mut word = Vec::new();
        let found = Walker::new(&table).word(&tree(), &mut word);
        assert_eq!(found.expect("the tree has a word").length, letters);
    }

    #[test]
    fn a_record_has_as_many_elements_as_there_can_be() {
        let table = read(&record_table()).expect("the table can be read");
        let desk = Desk::new(&table).expect("the table is one for records");
        let largest = record(MOST_ELEMENTS);
        assert_eq!(desk.tree(&largest), Ok(image(&largest)));
        assert_eq!(desk.record(&image(&largest)), Ok(largest));
        let larger = desk.tree(&record(MOST_ELEMENTS + 1));
        assert_eq!(larger, Err(Refusal::new(TREE_SIZE, 0)));
    }
}
