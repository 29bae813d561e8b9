//! Tables and trees for the benchmarks, from fixed seeds: every state has a rule for every symbol,
//! so every tree has a word.

use fadurinko_second::limits::{MAX_DEPTH, MAX_RULES, MAX_STATES, MAX_TEXT};
use fadurinko_second::rng::Rng;
use fadurinko_second::stream::CLOSE;
use fadurinko_second::table::{self, Child, Initial, Rule, Table, Word};

/// Leaves first, so that a symbol's arity is never below an earlier one's.
const ARITIES: [u8; 12] = [0, 0, 0, 0, 1, 1, 1, 2, 2, 3, 3, 4];
const STATES: u8 = 16;
const LETTERS: &[u8] = b"abcdefghijklmno ";

fn word(rng: &mut Rng, longest: usize) -> Word {
    (0..rng.between(0, longest))
        .map(|_| *rng.pick(LETTERS))
        .collect()
}

/// The rule for a state and a symbol: that symbol's arity, below how many states the children's are,
/// and how many letters a word has at most.
struct Wanted {
    arity: u8,
    states: u8,
    longest: usize,
}

fn rule(rng: &mut Rng, state: u8, symbol: u8, wanted: Wanted) -> Rule {
    let before = word(rng, wanted.longest);
    let child = |_| Child {
        state: rng.below(wanted.states.into()) as u8,
        after: word(rng, wanted.longest),
    };
    let children = (0..wanted.arity).map(child).collect();
    Rule {
        state,
        symbol,
        before,
        children,
    }
}

/// A table over these symbols, with so many states and words of up to `longest` letters.
fn table_over(seed: u64, arities: &[u8], states: u8, longest: usize) -> Table {
    let mut rng = Rng::new(seed);
    let mut rules = Vec::new();
    for state in 0..states {
        for (symbol, &arity) in arities.iter().enumerate() {
            let wanted = Wanted {
                arity,
                states,
                longest,
            };
            rules.push(rule(&mut rng, state, symbol as u8, wanted));
        }
    }
    let initial = Initial {
        before: word(&mut rng, longest),
        state: 0,
        after: word(&mut rng, longest),
    };
    Table {
        arities: arities.to_vec(),
        states,
        initial,
        rules,
    }
}

fn written(table: &Table) -> Vec<u8> {
    let text = table::write(table);
    assert!(text.len() <= MAX_TEXT);
    text
}

/// The text of a table whose words have up to `longest` letters.
pub fn text(seed: u64, longest: usize) -> Vec<u8> {
    written(&table_over(seed, &ARITIES, STATES, longest))
}

/// The text of a table for records with so many labels, whose words have up to eight letters. It has
/// 16 states, or as many as there are rules for.
pub fn records_text(seed: u64, labels: usize) -> Vec<u8> {
    let mut arities = vec![2; labels];
    arities.push(0);
    let states = STATES.min((MAX_RULES / arities.len()) as u8);
    written(&table_over(seed, &arities, states, 8))
}

/// A text of at most so many bytes and nearly so many: as many rules as fit, with words of up to 24
/// letters.
pub fn text_of(seed: u64, bytes: usize) -> Vec<u8> {
    let mut table = table_over(seed, &ARITIES, STATES, 24);
    let mut rng = Rng::new(seed);
    table.states = MAX_STATES;
    table.rules.clear();
    loop {
        let rules = table.rules.len();
        let (state, symbol) = (rules / ARITIES.len(), rules % ARITIES.len());
        let wanted = Wanted {
            arity: ARITIES[symbol],
            states: STATES,
            longest: 24,
        };
        table
            .rules
            .push(rule(&mut rng, state as u8, symbol as u8, wanted));
        if table::write(&table).len() > bytes {
            table.rules.pop();
            return table::write(&table);
        }
    }
}

/// A tree of exactly so many symbols.
pub fn tree(seed: u64, size: usize) -> Vec<u8> {
    let mut tree = Vec::with_capacity(size);
    let depth = grow(&mut Rng::new(seed), size, &mut tree);
    assert!(tree.len() == size && depth <= MAX_DEPTH);
    tree
}

/// A symbol with at most so many children, and some if there may be any.
fn symbol(rng: &mut Rng, most: usize) -> u8 {
    loop {
        let symbol = rng.below(ARITIES.len());
        let arity = usize::from(ARITIES[symbol]);
        if arity <= most && (arity > 0 || most == 0) {
            return symbol as u8;
        }
    }
}

/// Grows a tree of so many symbols; the children's shares are about equal. Its depth.
fn grow(rng: &mut Rng, size: usize, tree: &mut Vec<u8>) -> usize {
    let symbol = symbol(rng, size - 1);
    tree.push(symbol);
    let arity = usize::from(ARITIES[usize::from(symbol)]);
    let mut spare = size - 1 - arity;
    let mut depth = 0;
    for left in (1..=arity).rev() {
        let fair = spare / left;
        let share = if left == 1 {
            spare
        } else {
            rng.between(fair / 2, fair + fair / 2).min(spare)
        };
        spare -= share;
        depth = depth.max(grow(rng, 1 + share, tree));
    }
    depth + 1
}

/// A tree of so many levels and as many symbols.
pub fn chain(seed: u64, levels: usize) -> Vec<u8> {
    let mut rng = Rng::new(seed);
    let mut tree: Vec<u8> = (1..levels).map(|_| rng.byte_between(4, 6)).collect();
    tree.push(rng.byte_between(0, 3));
    tree
}

/// The stream of a record of so many elements.
pub fn record(seed: u64, labels: usize, elements: usize) -> Vec<u8> {
    let mut rng = Rng::new(seed);
    let mut stream = Vec::with_capacity(2 * elements);
    stream.push(rng.below(labels) as u8);
    list(&mut rng, labels, elements - 1, &mut stream);
    stream.push(CLOSE);
    stream
}

/// Appends a list of so many elements; about half of those behind the first are inside it.
fn list(rng: &mut Rng, labels: usize, elements: usize, stream: &mut Vec<u8>) {
    if elements == 0 {
        return;
    }
    stream.push(rng.below(labels) as u8);
    let fair = (elements - 1) / 2;
    let inside = rng.between(fair / 2, fair + fair / 2);
    list(rng, labels, inside, stream);
    stream.push(CLOSE);
    list(rng, labels, elements - 1 - inside, stream);
}
