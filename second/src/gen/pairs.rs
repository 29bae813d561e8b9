//! Cases of kind `pairs`: two table texts.

use super::late::{add_rule, add_state, add_symbol, quiet_child};
use super::sample::{self, earliest, random_order, renumbered, with_symbol, with_twin, Scale};
use super::{damage, late, tables, Expected};
use crate::compare::{Comparison, PairRefusal};
use crate::form::form_of;
use crate::limits::{MAX_RULES, MAX_SYMBOLS, MAX_WORD};
use crate::refusal::{Refusal, SYMBOL_LISTS};
use crate::rng::Rng;
use crate::table::{self, Rule, Table};

/// What two generated tables must answer, as far as their making tells.
#[derive(Clone, Copy, Debug, PartialEq, Eq)]
pub enum ExpectedPair {
    Anything,
    Answer(Comparison),
    About(u8, Expected),
}

impl ExpectedPair {
    pub fn allows(self, answer: Result<Comparison, PairRefusal>) -> bool {
        match (self, answer) {
            (ExpectedPair::Anything, _) => true,
            (ExpectedPair::Answer(expected), Ok(answer)) => expected == answer,
            (ExpectedPair::About(table, expected), Err(answer)) => {
                table == answer.table && expected.allows(Err(answer.refusal))
            }
            _ => false,
        }
    }
}

pub struct PairCase {
    pub first: Vec<u8>,
    pub second: Vec<u8>,
    pub expected: ExpectedPair,
}

type Recipe = fn(&mut Rng, usize) -> PairCase;

const RECIPES: &[Recipe] = &[
    same_text,
    other_numbers,
    twins,
    against_its_form,
    same_ring,
    leaf_word_stretched,
    leaf_rule_added,
    initial_word_changed,
    one_child_changed,
    deep_in_a_ring,
    two_rings,
    words_moved_along,
    unrelated,
    symbol_added_behind,
    symbol_lists_differ,
    first_damaged,
    second_damaged,
    both_damaged,
    first_late,
    second_late,
    late_and_other_symbols,
];

/// The case of this seed and index.
pub fn case(seed: u64, index: usize) -> PairCase {
    let mut rng = Rng::for_case(seed, index);
    RECIPES[index % RECIPES.len()](&mut rng, index / RECIPES.len())
}

fn pair(first: &Table, second: &Table, expected: ExpectedPair) -> PairCase {
    PairCase {
        first: table::write(first),
        second: table::write(second),
        expected,
    }
}

/// Two tables with the same words, in either order.
fn same(rng: &mut Rng, one: &Table, other: &Table) -> PairCase {
    let (first, second) = in_any_order(rng, one, other);
    pair(first, second, ExpectedPair::Answer(Comparison::Same))
}

fn different(rng: &mut Rng, one: &Table, other: &Table) -> PairCase {
    let (first, second) = in_any_order(rng, one, other);
    pair(first, second, ExpectedPair::Answer(Comparison::Different))
}

fn in_any_order<'table>(
    rng: &mut Rng,
    one: &'table Table,
    other: &'table Table,
) -> (&'table Table, &'table Table) {
    if rng.percent(50) {
        (one, other)
    } else {
        (other, one)
    }
}

fn base(rng: &mut Rng) -> Table {
    let scale = *rng.pick(&[Scale::Tiny, Scale::Small, Scale::Small, Scale::Large]);
    earliest(rng, scale)
}

fn shuffled(rng: &mut Rng, table: &Table) -> Table {
    let order = random_order(rng, usize::from(table.states));
    renumbered(table, &order)
}

/// The same words by other states: twins and other numbers.
fn disguised(rng: &mut Rng, table: &Table) -> Table {
    let mut table = table.clone();
    for _ in 0..rng.below(4) {
        table = with_twin(rng, &table);
    }
    shuffled(rng, &table)
}

fn same_text(rng: &mut Rng, round: usize) -> PairCase {
    let table = match round % 4 {
        0 => tables::at_a_limit(rng, round / 4),
        _ => base(rng),
    };
    same(rng, &table, &table)
}

fn other_numbers(rng: &mut Rng, _: usize) -> PairCase {
    let table = base(rng);
    let other = shuffled(rng, &table);
    same(rng, &table, &other)
}

fn twins(rng: &mut Rng, _: usize) -> PairCase {
    let table = base(rng);
    let (one, other) = (disguised(rng, &table), disguised(rng, &table));
    same(rng, &one, &other)
}

fn against_its_form(rng: &mut Rng, _: usize) -> PairCase {
    let table = tables::with_twins(rng);
    let form = form_of(&table);
    same(rng, &table, &form)
}

/// Rings whose number of states is a multiple of the period have one form if
/// they are entered at the same distance from the odd states.
fn same_ring(rng: &mut Rng, _: usize) -> PairCase {
    let period = *rng.pick(&[1, 2, 4, 8, 16]);
    let one = sample::ring(rng, 64, period);
    let mut other = sample::ring(rng, period, period);
    other.initial.state = one.initial.state % period as u8;
    for rule in &mut other.rules {
        let twin = &one.rules_of(0)[usize::from(rule.symbol)];
        rule.before = twin.before.clone();
    }
    let (one, other) = (shuffled(rng, &one), shuffled(rng, &other));
    same(rng, &one, &other)
}

/// A leaf's word gets its first letter twice: its ends stay as they were, so
/// the table stays earliest.
fn leaf_word_stretched(rng: &mut Rng, round: usize) -> PairCase {
    let table = base(rng);
    let is_fit = |rule: &&mut Rule| {
        rule.children.is_empty() && (1..usize::from(MAX_WORD)).contains(&rule.before.len())
    };
    let mut other = table.clone();
    let mut leaves: Vec<&mut Rule> = other.rules.iter_mut().filter(is_fit).collect();
    if leaves.is_empty() {
        return leaf_rule_added(rng, round);
    }
    let leaf = rng.below(leaves.len());
    let first = leaves[leaf].before[0];
    leaves[leaf].before.insert(0, first);
    let other = disguised(rng, &other);
    different(rng, &table, &other)
}

/// One tree more has a word; where both have one, they agree.
fn leaf_rule_added(rng: &mut Rng, _: usize) -> PairCase {
    let mut table = sample::earliest(rng, Scale::Small);
    let leaf = table.arities.len();
    table = with_symbol(&table, leaf, 0);
    let state = rng.below(usize::from(table.states));
    let mut other = table.clone();
    let word = *rng.pick(&[&b""[..], b"a", b"z "]);
    other
        .rules
        .push(sample::simple_rule(state, leaf, word, Vec::new()));
    sample::sort_rules(&mut other);
    let other = disguised(rng, &other);
    different(rng, &table, &other)
}

fn initial_word_changed(rng: &mut Rng, _: usize) -> PairCase {
    let table = base(rng);
    let mut other = table.clone();
    if other.initial.before.pop().is_none() {
        other.initial.before.push(b'a');
    }
    let other = disguised(rng, &other);
    different(rng, &table, &other)
}

/// Two states that differ in one child of one rule, which is the first, a middle
/// or the last one: that child knows one leaf more. In the other table the two
/// states are the same.
fn one_child_changed(rng: &mut Rng, _: usize) -> PairCase {
    let mut table = earliest(rng, Scale::Small);
    let [leaf, other_leaf] = [0, 0].map(|arity| add_symbol(&mut table, arity));
    let arity = rng.byte_between(2, 4);
    let [wide, pair, chain] = [arity, 2, 1].map(|arity| add_symbol(&mut table, arity));
    let [one, other, poor, rich] = [(); 4].map(|()| add_state(&mut table));
    for state in [one, other, poor, rich] {
        add_rule(&mut table, state, leaf, b"", vec![]);
    }
    add_rule(&mut table, rich, other_leaf, b"", vec![]);
    let start = table.initial.state;
    let both = vec![quiet_child(one), quiet_child(other)];
    add_rule(&mut table, start, pair, b"", both);
    add_rule(&mut table, start, chain, b"", vec![quiet_child(rich)]);
    let children = vec![quiet_child(poor); usize::from(arity)];
    add_rule(&mut table, one, wide, b"", children.clone());
    let mut second = table.clone();
    add_rule(&mut second, other, wide, b"", children.clone());
    let mut changed = children;
    changed[rng.below(usize::from(arity))].state = rich;
    add_rule(&mut table, other, wide, b"", changed);
    let second = disguised(rng, &second);
    different(rng, &table, &second)
}

/// Two rings of 64 states that part only at one state far away.
fn deep_in_a_ring(rng: &mut Rng, _: usize) -> PairCase {
    let table = sample::ring(rng, 64, 64);
    let mut other = table.clone();
    if rng.percent(50) {
        other.initial.state = (other.initial.state + 1) % 64;
    } else {
        add_word_at_leaf(&mut other, rng.below(64));
    }
    let other = shuffled(rng, &other);
    different(rng, &table, &other)
}

/// The second leaf gives a letter at this state, whatever it gave before.
fn add_word_at_leaf(table: &mut Table, state: usize) {
    let key = (state as u8, 2);
    table.rules.retain(|rule| rule.key() != key);
    table
        .rules
        .push(sample::simple_rule(state, 2, b"y", Vec::new()));
    sample::sort_rules(table);
}

/// Two rings of lengths that have no common divisor: they agree for long.
fn two_rings(rng: &mut Rng, _: usize) -> PairCase {
    let (one, other) = *rng.pick(&[(63, 64), (61, 64), (1, 64), (31, 32)]);
    let mut one = sample::ring(rng, one, one);
    let mut other = sample::ring(rng, other, other);
    for table in [&mut one, &mut other] {
        table.initial.state = 0;
        table.rules.iter_mut().for_each(|rule| rule.before.clear());
    }
    let other = shuffled(rng, &other);
    different(rng, &one, &other)
}

/// Words on the other side of a state: such tables mean the same at times, but
/// then one of them is late.
fn words_moved_along(rng: &mut Rng, _: usize) -> PairCase {
    let table = earliest(rng, Scale::Tiny);
    let mut other = table.clone();
    for rule in &mut other.rules {
        if let Some(child) = rule.children.first_mut() {
            std::mem::swap(&mut rule.before, &mut child.after);
        }
    }
    pair(&table, &other, ExpectedPair::Anything)
}

/// Two tiny tables brought to one symbol list by chance or not at all.
fn unrelated(rng: &mut Rng, _: usize) -> PairCase {
    let one = sample::readable(rng, Scale::Tiny);
    let mut other = sample::readable(rng, Scale::Tiny);
    if rng.percent(50) {
        other = one.clone();
        let rule = rng.below(other.rules.len() + 1);
        other.rules.truncate(rule);
    }
    pair(&one, &other, ExpectedPair::Anything)
}

fn refused_lists(place: usize) -> ExpectedPair {
    ExpectedPair::About(0, Expected::Exactly(Refusal::new(SYMBOL_LISTS, place)))
}

/// One list has ended.
fn symbol_added_behind(rng: &mut Rng, _: usize) -> PairCase {
    let table = base(rng);
    let symbols = table.arities.len();
    let longer = with_symbol(&table, symbols, rng.byte_between(0, 4));
    let (first, second) = in_any_order(rng, &table, &longer);
    pair(first, second, refused_lists(symbols))
}

/// Another arity at the first, the last, or any index, and sometimes another
/// length too.
fn symbol_lists_differ(rng: &mut Rng, _: usize) -> PairCase {
    let table = base(rng);
    let last = table.arities.len();
    let anywhere = rng.between(0, last);
    let index = *rng.pick(&[0, last, anywhere]);
    let arity = rng.byte_between(0, 4);
    let other_arity = (arity + rng.byte_between(1, 4)) % 5;
    let one = with_symbol(&table, index, arity);
    let mut other = with_symbol(&table, index, other_arity);
    if rng.percent(30) && other.arities.len() < MAX_SYMBOLS {
        other.arities.push(0);
    }
    pair(&one, &other, refused_lists(index))
}

fn damaged(rng: &mut Rng, round: usize) -> super::TableCase {
    damage::RECIPES[round % damage::RECIPES.len()](rng, round)
}

fn about(table: u8, expected: Expected) -> ExpectedPair {
    match expected {
        Expected::Number(_) | Expected::Exactly(_) => ExpectedPair::About(table, expected),
        Expected::Anything | Expected::Earliest => ExpectedPair::Anything,
    }
}

fn first_damaged(rng: &mut Rng, round: usize) -> PairCase {
    let bad = damaged(rng, round);
    PairCase {
        first: bad.text,
        second: table::write(&base(rng)),
        expected: about(1, bad.expected),
    }
}

fn second_damaged(rng: &mut Rng, round: usize) -> PairCase {
    let bad = damaged(rng, round);
    PairCase {
        first: table::write(&base(rng)),
        second: bad.text,
        expected: about(2, bad.expected),
    }
}

/// The first answers, also where it is late and the second unreadable.
fn both_damaged(rng: &mut Rng, round: usize) -> PairCase {
    let second = damaged(rng, round).text;
    let (first, expected) = if rng.percent(50) {
        let bad = damaged(rng, round + 1);
        (bad.text, bad.expected)
    } else {
        let late = random_late(rng, round);
        (table::write(&late.table), late.expected)
    };
    PairCase {
        first,
        second,
        expected: about(1, expected),
    }
}

fn random_late(rng: &mut Rng, round: usize) -> late::Late {
    late::MAKERS[round % late::MAKERS.len()](rng)
}

fn first_late(rng: &mut Rng, round: usize) -> PairCase {
    let late = random_late(rng, round);
    let second = match rng.below(3) {
        0 => late.table.clone(),
        1 => random_late(rng, round + 1).table,
        _ => base(rng),
    };
    pair(&late.table, &second, about(1, late.expected))
}

fn second_late(rng: &mut Rng, round: usize) -> PairCase {
    let late = random_late(rng, round);
    pair(&base(rng), &late.table, about(2, late.expected))
}

/// The second's lateness comes before the symbol lists.
fn late_and_other_symbols(rng: &mut Rng, round: usize) -> PairCase {
    let late = random_late(rng, round);
    let mut first = base(rng);
    if first.arities == late.table.arities && first.rules.len() < MAX_RULES {
        first.arities.push(0);
    }
    pair(&first, &late.table, about(2, late.expected))
}
