//! Tables of a given number of states and eight times as many rules, in shapes that are easy or
//! hard for sweeps and rounds. All of them are earliest.

use std::fmt::{Display, Formatter};
use std::sync::OnceLock;

use fadurinko_second::gen::sample::{random_order, renumbered};
use fadurinko_second::judge::judge_table;
use fadurinko_second::rng::Rng;
use fadurinko_second::table::{self, Child, Initial, Rule, Table, Word};

/// Eight symbols with children, then two leaves.
const ARITIES: [u8; 10] = [1, 1, 2, 2, 3, 1, 2, 4, 0, 0];
const INNER: u8 = 8;
const LEAF: u8 = 8;
const OTHER_LEAF: u8 = 9;
const SEED: u64 = 20;

/// The sizes at which growth is shown.
const SIZES: [usize; 4] = [8, 16, 32, 64];

/// A shape: its name, and its table of so many states.
type Shape = (&'static str, fn(usize) -> Table);

const SHAPES: [Shape; 6] = [
    ("random", random),
    ("chain", chain),
    ("back", back),
    ("mixed", mixed),
    ("worst", worst),
    ("twins", twins),
];

/// A table of one of the shapes, and its text.
pub struct Shaped {
    pub shape: &'static str,
    pub table: Table,
    pub text: Vec<u8>,
}

impl Display for Shaped {
    fn fmt(&self, to: &mut Formatter) -> std::fmt::Result {
        write!(to, "{}, {} states", self.shape, self.table.states)
    }
}

/// The tables of all shapes and sizes, made once.
pub fn all() -> &'static [Shaped] {
    static TABLES: OnceLock<Vec<Shaped>> = OnceLock::new();
    TABLES.get_or_init(|| {
        SHAPES
            .iter()
            .flat_map(|shape| SIZES.map(|states| shaped(shape, states)))
            .collect()
    })
}

fn shaped(&(shape, make): &Shape, states: usize) -> Shaped {
    let table = make(states);
    let text = text(&table);
    Shaped { shape, table, text }
}

pub fn text(table: &Table) -> Vec<u8> {
    table::write(table)
}

/// The same table with its states in another order.
pub fn reordered(table: &Table) -> Table {
    let order = random_order(&mut Rng::new(SEED), usize::from(table.states));
    renumbered(table, &order)
}

/// The same table, but the last leaf rule writes another letter at its end.
pub fn altered(table: &Table) -> Table {
    let mut new = table.clone();
    let leaf = new.rules.iter_mut().rfind(|rule| rule.children.is_empty());
    leaf.expect("every shape has a leaf rule").before.push(b'z');
    new
}

fn table(states: usize, mut rules: Vec<Rule>) -> Table {
    rules.sort_by_key(Rule::key);
    let initial = Initial {
        before: b"start ".to_vec(),
        state: 0,
        after: Word::new(),
    };
    Table {
        arities: ARITIES.to_vec(),
        states: states as u8,
        initial,
        rules,
    }
}

fn rule(state: usize, symbol: u8, before: Word, mut child: impl FnMut() -> Child) -> Rule {
    let children = (0..ARITIES[usize::from(symbol)]).map(|_| child()).collect();
    Rule {
        state: state as u8,
        symbol,
        before,
        children,
    }
}

fn silent(state: usize) -> Child {
    Child {
        state: state as u8,
        after: Word::new(),
    }
}

fn leaf(state: usize, symbol: u8, word: &[u8]) -> Rule {
    rule(state, symbol, word.to_vec(), || {
        unreachable!("a leaf has no children")
    })
}

fn word(rng: &mut Rng, longest: usize) -> Word {
    let length = rng.between(0, longest);
    (0..length).map(|_| *rng.pick(b"abcdef ")).collect()
}

/// Random words and children; one state in four has leaves. Drawn again until it is earliest.
fn random(states: usize) -> Table {
    let mut rng = Rng::new(SEED + states as u64);
    loop {
        let drawn = any_random(&mut rng, states);
        if judge_table(&drawn).is_ok() {
            return drawn;
        }
    }
}

fn any_random(rng: &mut Rng, states: usize) -> Table {
    let mut rules = Vec::new();
    for state in 0..states {
        let leaves = if state == 0 || rng.percent(25) { 2 } else { 0 };
        let mut symbols: Vec<u8> = (0..INNER).collect();
        rng.shuffle(&mut symbols);
        for &symbol in &symbols[leaves..] {
            let before = word(rng, 8);
            rules.push(rule(state, symbol, before, || Child {
                state: rng.below(states) as u8,
                after: word(rng, 4),
            }));
        }
        if leaves > 0 {
            rules.push(leaf(
                state,
                LEAF,
                &[b"x".as_slice(), &word(rng, 6), b"y"].concat(),
            ));
            rules.push(leaf(
                state,
                OTHER_LEAF,
                &[b"y".as_slice(), &word(rng, 6), b"x"].concat(),
            ));
        }
    }
    table(states, rules)
}

/// The word of a symbol where all states write the same.
fn common_word(symbol: u8) -> Word {
    [b'a' + symbol, b' ', b'k', b'a' + symbol].to_vec()
}

/// A chain from the first state to the last, which alone has leaves: states are parted one by one
/// from its end.
fn chain(states: usize) -> Table {
    let last = states - 1;
    let mut rules = vec![leaf(last, LEAF, b"xay"), leaf(last, OTHER_LEAF, b"ybx")];
    for state in 0..states {
        let symbols = if state == last { INNER - 2 } else { INNER };
        rules.extend((0..symbols).map(|symbol| {
            rule(state, symbol, common_word(symbol), || {
                silent(last.min(state + 1))
            })
        }));
    }
    table(states, rules)
}

/// The chain with its states numbered from its end: what is reached travels against the order of
/// the rules.
fn back(states: usize) -> Table {
    let order: Vec<u8> = (0..states as u8).rev().collect();
    renumbered(&chain(states), &order)
}

/// The chain with its states numbered at random.
fn mixed(states: usize) -> Table {
    reordered(&chain(states))
}

/// A chain that writes nothing, closed to a ring: the last state's second letter comes only when
/// its first has gone all the way round, and each goes one state a sweep.
fn worst(states: usize) -> Table {
    let last = states - 1;
    let mut rules = vec![leaf(last, LEAF, b"a")];
    for state in 0..last {
        rules.extend(
            (0..INNER).map(|symbol| rule(state, symbol, Word::new(), || silent(state + 1))),
        );
    }
    rules.extend((0..INNER - 1).map(|symbol| {
        rule(last, symbol, b"b".to_vec(), || Child {
            state: 0,
            after: b"c".to_vec(),
        })
    }));
    table(states, rules)
}

/// All states have the same words.
fn twins(states: usize) -> Table {
    let mut rng = Rng::new(SEED);
    let mut rules = Vec::new();
    for state in 0..states {
        rules.push(rule(state, 0, common_word(0), || {
            silent((state + 1) % states)
        }));
        rules.extend((1..INNER - 2).map(|symbol| {
            rule(state, symbol, common_word(symbol), || {
                silent(rng.below(states))
            })
        }));
        rules.push(leaf(state, LEAF, b"xay"));
        rules.push(leaf(state, OTHER_LEAF, b"ybx"));
    }
    table(states, rules)
}
