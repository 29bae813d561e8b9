//! Late tables, each made from an earliest one by a step that breaks exactly
//! one condition, so that the number (and mostly the place) is known.

use super::sample::{
    earliest, random_order, renumbered, simple_rule, sort_rules, with_symbol, Scale,
};
use super::Expected;
use crate::refusal::{
    COMMON_PREFIX, COMMON_SUFFIX, LATE_INITIAL_RULE, LATE_RULE, NOT_REACHED, NO_WORD,
};
use crate::rng::Rng;
use crate::table::{Child, Rule, Table};

/// A letter that no generated table has, so that it meets no other.
const FRESH: u8 = b'z';

pub struct Late {
    pub table: Table,
    pub expected: Expected,
}

pub type Maker = fn(&mut Rng) -> Late;

pub const MAKERS: [Maker; 10] = [
    unreached,
    several_unreached,
    wordless,
    only_leading_to_itself,
    behind_wordless,
    common_prefix,
    common_suffix,
    late_initial_rule,
    late_rule,
    no_rules,
];

fn base(rng: &mut Rng) -> Table {
    let scale = *rng.pick(&[Scale::Tiny, Scale::Small]);
    earliest(rng, scale)
}

pub fn quiet_child(state: u8) -> Child {
    Child {
        state,
        after: Vec::new(),
    }
}

/// Adds a state without rules and gives its number.
pub fn add_state(table: &mut Table) -> u8 {
    table.states += 1;
    table.states - 1
}

/// Adds a symbol behind the others and gives its number.
pub fn add_symbol(table: &mut Table, arity: u8) -> u8 {
    let index = table.arities.len();
    *table = with_symbol(table, index, arity);
    index as u8
}

pub fn add_rule(table: &mut Table, state: u8, symbol: u8, before: &[u8], children: Vec<Child>) {
    let (state, symbol) = (usize::from(state), usize::from(symbol));
    table
        .rules
        .push(simple_rule(state, symbol, before, children));
    sort_rules(table);
}

fn random_state(rng: &mut Rng, table: &Table) -> u8 {
    rng.below(usize::from(table.states)) as u8
}

/// Numbers the states at random, so that the fault is not always at the last
/// one, and expects `number` at the new number of `fault`.
fn shuffled(rng: &mut Rng, table: &Table, number: u8, fault: u8) -> Late {
    let order = random_order(rng, usize::from(table.states));
    Late {
        table: renumbered(table, &order),
        expected: Expected::refused(number, usize::from(order[usize::from(fault)])),
    }
}

fn unreached(rng: &mut Rng) -> Late {
    let mut table = base(rng);
    let known = random_state(rng, &table);
    let leaf = add_symbol(&mut table, 0);
    let inner = add_symbol(&mut table, 2);
    let lost = add_state(&mut table);
    if rng.percent(50) {
        add_rule(&mut table, lost, leaf, b"", vec![]);
    }
    if rng.percent(50) {
        let children = vec![quiet_child(lost), quiet_child(known)];
        add_rule(&mut table, lost, inner, b"", children);
    }
    shuffled(rng, &table, NOT_REACHED, lost)
}

/// Two states that reach only each other.
fn several_unreached(rng: &mut Rng) -> Late {
    let mut table = base(rng);
    let inner = add_symbol(&mut table, 1);
    let (one, other) = (add_state(&mut table), add_state(&mut table));
    add_rule(&mut table, one, inner, b"", vec![quiet_child(other)]);
    add_rule(&mut table, other, inner, b"", vec![quiet_child(one)]);
    let order = random_order(rng, usize::from(table.states));
    let least = order[usize::from(one)].min(order[usize::from(other)]);
    Late {
        table: renumbered(&table, &order),
        expected: Expected::refused(NOT_REACHED, usize::from(least)),
    }
}

/// A state that is reached and has no rules.
fn wordless(rng: &mut Rng) -> Late {
    let mut table = base(rng);
    let parent = random_state(rng, &table);
    let inner = add_symbol(&mut table, 1);
    let empty = add_state(&mut table);
    add_rule(&mut table, parent, inner, b"", vec![quiet_child(empty)]);
    shuffled(rng, &table, NO_WORD, empty)
}

/// A state whose only rules lead to itself: no finite tree has a word there.
fn only_leading_to_itself(rng: &mut Rng) -> Late {
    let mut table = base(rng);
    let parent = random_state(rng, &table);
    let chain = add_symbol(&mut table, 1);
    let pair = add_symbol(&mut table, 2);
    let endless = add_state(&mut table);
    add_rule(&mut table, parent, chain, b"", vec![quiet_child(endless)]);
    add_rule(&mut table, endless, chain, b"a", vec![quiet_child(endless)]);
    let children = vec![quiet_child(parent), quiet_child(endless)];
    add_rule(&mut table, endless, pair, b"", children);
    shuffled(rng, &table, NO_WORD, endless)
}

/// A state that has words but is reached only through rules that give none: it
/// counts as reached, so the answer is about the state beside it.
fn behind_wordless(rng: &mut Rng) -> Late {
    let mut table = base(rng);
    let parent = random_state(rng, &table);
    let leaf = add_symbol(&mut table, 0);
    let pair = add_symbol(&mut table, 2);
    let (empty, behind) = (add_state(&mut table), add_state(&mut table));
    let mut children = vec![quiet_child(empty), quiet_child(behind)];
    rng.shuffle(&mut children);
    add_rule(&mut table, parent, pair, b"", children);
    add_rule(&mut table, behind, leaf, b"", vec![]);
    shuffled(rng, &table, NO_WORD, empty)
}

/// Every word of a state gets a first letter. States before it that take their
/// words from it can fail too, so only the number is known.
fn common_prefix(rng: &mut Rng) -> Late {
    let mut table = base(rng);
    let state = random_state(rng, &table);
    for rule in table.rules.iter_mut().filter(|rule| rule.state == state) {
        rule.before.insert(0, FRESH);
    }
    Late {
        table,
        expected: Expected::Number(COMMON_PREFIX),
    }
}

/// Every word of a state gets a last letter. The state has a word that begins
/// with another letter, so no common prefix arises anywhere.
fn common_suffix(rng: &mut Rng) -> Late {
    let mut table = base(rng);
    let state = random_state(rng, &table);
    let leaf = add_symbol(&mut table, 0);
    add_rule(&mut table, state, leaf, b"a", vec![]);
    for rule in table.rules.iter_mut().filter(|rule| rule.state == state) {
        last_word(rule).push(FRESH);
    }
    Late {
        table,
        expected: Expected::Number(COMMON_SUFFIX),
    }
}

fn last_word(rule: &mut Rule) -> &mut Vec<u8> {
    match rule.children.last_mut() {
        Some(child) => &mut child.after,
        None => &mut rule.before,
    }
}

/// A state with the empty word whose other words begin with the fresh letter.
fn opening_state(rng: &mut Rng, table: &mut Table, leaf: u8, other_leaf: u8) -> u8 {
    let state = add_state(table);
    add_rule(table, state, leaf, b"", vec![]);
    if rng.percent(60) {
        add_rule(table, state, other_leaf, &[FRESH, b'b'], vec![]);
    }
    state
}

/// A new initial state in front of the old one, and behind it a letter that can
/// be pushed through.
fn late_initial_rule(rng: &mut Rng) -> Late {
    let mut table = base(rng);
    let leaf = add_symbol(&mut table, 0);
    let other_leaf = add_symbol(&mut table, 0);
    let inner = add_symbol(&mut table, 1);
    let start = opening_state(rng, &mut table, leaf, other_leaf);
    let old = quiet_child(table.initial.state);
    add_rule(&mut table, start, inner, &[FRESH], vec![old]);
    table.initial.state = start;
    table.initial.after = vec![FRESH, b'a'];
    let order = random_order(rng, usize::from(table.states));
    Late {
        table: renumbered(&table, &order),
        expected: Expected::refused(LATE_INITIAL_RULE, 0),
    }
}

/// One new rule with a letter that can be pushed through one of its children,
/// which is the first, a middle or the last one.
fn late_rule(rng: &mut Rng) -> Late {
    let mut table = base(rng);
    let parent = random_state(rng, &table);
    let arity = rng.between(1, 4);
    let leaf = add_symbol(&mut table, 0);
    let other_leaf = add_symbol(&mut table, 0);
    let wide = add_symbol(&mut table, arity as u8);
    let others = random_state(rng, &table);
    let open = opening_state(rng, &mut table, leaf, other_leaf);
    let mut children = vec![quiet_child(others); arity];
    let fault = rng.below(arity);
    children[fault].state = open;
    children[fault].after = vec![FRESH];
    add_rule(&mut table, parent, wide, b"", children);
    let order = random_order(rng, usize::from(table.states));
    let table = renumbered(&table, &order);
    let key = (order[usize::from(parent)], wide);
    let index = table.rules.iter().position(|rule| rule.key() == key);
    Late {
        expected: Expected::refused(LATE_RULE, index.expect("the rule was added")),
        table,
    }
}

/// Without rules the initial state has no word, and other states are not reached.
fn no_rules(rng: &mut Rng) -> Late {
    let mut table = base(rng);
    table.rules.clear();
    table.states = rng.byte_between(1, 3);
    table.initial.state = random_state(rng, &table);
    let expected = match (table.states, table.initial.state) {
        (1, _) => Expected::refused(NO_WORD, 0),
        (_, 0) => Expected::refused(NOT_REACHED, 1),
        _ => Expected::refused(NOT_REACHED, 0),
    };
    Late { table, expected }
}
