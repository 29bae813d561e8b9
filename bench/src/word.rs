//! The word of a tree: by an opened table, and by a text that is opened each time.

use crate::best;
use crate::grow;
use crate::hands::{self, kept, plan, Answer, Pieces};
use crate::opened::Opened;
use crate::plain;
use crate::proved;
use crate::task::{wanted, Task};
use crate::tuned;
use fadurinko_second::refusal::{put_into_room, Refusal};
use fadurinko_second::table::{self, Table};
use fadurinko_second::walk::{self, Walker};

type Hand = hands::Hand<Given>;

/// A tree, and the text of the table that gives it a word.
struct Given {
    text: &'static [u8],
    tree: Vec<u8>,
}

/// What is walked: trees, the table of the first one opened, and the longest word's length.
struct Case {
    given: &'static [Given],
    table: &'static Opened,
    second: &'static Table,
    longest: usize,
}

fn length(given: &Given) -> usize {
    let table = table::read(given.text).expect("the text is a table");
    Walker::new(&table)
        .word(&given.tree, &mut Vec::new())
        .expect("every tree has a word")
        .length
}

fn case(given: Vec<Given>) -> Case {
    let mut opened = Opened::blank();
    assert_eq!(proved::open(given[0].text, &mut opened), Ok(()));
    let second = kept(table::read(given[0].text).expect("the text is a table"));
    let longest = given.iter().map(length).max().expect("there is a tree");
    Case {
        given: kept(given),
        table: kept(opened),
        second,
        longest,
    }
}

/// A room with some bytes to spare, as a caller who doesn't know the length lends it.
fn room(case: &Case) -> usize {
    case.longest + 64
}

fn second_told(answer: Result<walk::Found, Refusal>) -> Answer {
    answer
        .map(|found| (found.length, found.terms))
        .map_err(|no| (no.number, no.place))
}

/// The hands on an opened table.
fn opened_hands(case: &Case) -> Vec<Hand> {
    let table = case.table;
    let (mut one, mut other, mut third) = (plan(), plan(), plan());
    let (mut out, mut second_out) = (Vec::new(), Vec::new());
    let walker = Walker::new(case.second);
    vec![
        Hand::new("proved", room(case), move |given, room| {
            proved::find(table, &given.tree, &mut one, room)
        }),
        Hand::new("plain", room(case), move |given, room| {
            plain::word::find(table, &given.tree, &mut out, room)
        }),
        Hand::new("tuned", room(case), move |given, room| {
            tuned::word::find(table, &given.tree, &mut other, room)
        }),
        Hand::new("best", room(case), move |given, room| {
            best::word::find(table, &given.tree, &mut third, room)
        }),
        Hand::new("second", room(case), move |given, room| {
            let found = walker.word(&given.tree, &mut second_out);
            second_told(found.and_then(|found| put_into_room(&second_out, room).map(|()| found)))
        }),
    ]
}

/// The hands on a text, which is opened for each tree.
fn text_hands(case: &Case) -> Vec<Hand> {
    let (mut plain_table, mut out) = (Opened::blank(), Vec::new());
    let (mut tuned_table, mut one) = (Opened::blank(), plan());
    let (mut best_table, mut other) = (Opened::blank(), plan());
    vec![
        Hand::new("proved", room(case), move |given, room| {
            proved::word(given.text, &given.tree, room)
        }),
        Hand::new("plain", room(case), move |given, room| {
            plain::open::open(given.text, &mut plain_table)?;
            plain::word::find(&plain_table, &given.tree, &mut out, room)
        }),
        Hand::new("tuned", room(case), move |given, room| {
            tuned::open::open(given.text, &mut tuned_table)?;
            tuned::word::find(&tuned_table, &given.tree, &mut one, room)
        }),
        Hand::new("best", room(case), move |given, room| {
            tuned::open::open(given.text, &mut best_table)?;
            best::word::find(&best_table, &given.tree, &mut other, room)
        }),
        Hand::new("second", room(case), move |given, room| {
            second_told(walk::word(given.text, &given.tree, room))
        }),
    ]
}

fn task(name: &str, given: impl Fn() -> Vec<Given>, hands: fn(&Case) -> Vec<Hand>) -> Option<Task> {
    if !wanted(name) {
        return None;
    }
    let case = case(given());
    let pieces = Pieces {
        all: case.given,
        unit: "symbol",
        units: case.given.iter().map(|given| given.tree.len()).sum(),
        refused: None,
    };
    Some(hands::task(name, hands(&case), pieces))
}

/// Trees under one table, whose words have up to `longest` letters.
fn under_one(longest: usize, trees: impl Iterator<Item = Vec<u8>>) -> Vec<Given> {
    let text: &'static [u8] = kept(grow::text(longest as u64, longest));
    trees.map(|tree| Given { text, tree }).collect()
}

/// Trees of this size, 30,000 symbols together: so many that no branch is learned by heart.
fn trees(longest: usize, size: usize) -> impl Fn() -> Vec<Given> {
    move || {
        under_one(
            longest,
            (0..30_000 / size as u64).map(|seed| grow::tree(seed, size)),
        )
    }
}

fn chains(count: u64) -> impl Fn() -> Vec<Given> {
    move || under_one(8, (0..count).map(|seed| grow::chain(seed, 64)))
}

/// Trees of 20 symbols, each under a table of its own.
fn each_its_table() -> Vec<Given> {
    (0..20)
        .map(|seed| Given {
            text: kept(grow::text(seed, 8)),
            tree: grow::tree(seed, 20),
        })
        .collect()
}

pub fn tasks() -> Vec<Task> {
    let all = [
        task(
            "word, 30,000 symbols, 3 letters",
            trees(3, 30_000),
            opened_hands,
        ),
        task(
            "word, 30,000 symbols, 8 letters",
            trees(8, 30_000),
            opened_hands,
        ),
        task(
            "word, 30,000 symbols, 32 letters",
            trees(32, 30_000),
            opened_hands,
        ),
        task(
            "word, trees of 3,000, 8 letters",
            trees(8, 3_000),
            opened_hands,
        ),
        task("word, trees of 300, 8 letters", trees(8, 300), opened_hands),
        task("word, trees of 20, 3 letters", trees(3, 20), opened_hands),
        task("word, trees of 20, 8 letters", trees(8, 20), opened_hands),
        task("word, trees of 20, 32 letters", trees(32, 20), opened_hands),
        task("word, chains of 64", chains(400), opened_hands),
        task("word, one chain of 64", chains(1), opened_hands),
        task("word on texts, trees of 20", each_its_table, text_hands),
        task(
            "word on texts, 30,000 symbols",
            trees(8, 30_000),
            text_hands,
        ),
    ];
    all.into_iter().flatten().collect()
}
