//! Cases of kind `tables`: one table text each.

use super::sample::{self, earliest, readable, Scale};
use super::{damage, late, Expected, TableCase};
use crate::examples;
use crate::limits::{MAX_SYMBOLS, MAX_TEXT};
use crate::refusal::{COMMON_PREFIX, LATE_RULE};
use crate::rng::Rng;
use crate::table::{self, Table};

const GOOD: &[damage::Recipe] = &[
    worked_table,
    |rng, _| any(readable(rng, Scale::Tiny)),
    |rng, _| any(readable(rng, Scale::Small)),
    |rng, _| any(readable(rng, Scale::Large)),
    |rng, _| is_earliest(earliest(rng, Scale::Tiny)),
    |rng, _| is_earliest(earliest(rng, Scale::Small)),
    |rng, _| is_earliest(earliest(rng, Scale::Large)),
    |rng, _| is_earliest(with_twins(rng)),
    |rng, _| is_earliest(random_ring(rng)),
    |rng, round| is_earliest(at_a_limit(rng, round)),
];

/// The case of this seed and index.
pub fn case(seed: u64, index: usize) -> TableCase {
    let mut rng = Rng::for_case(seed, index);
    let recipes = GOOD.len() + late::MAKERS.len() + damage::RECIPES.len();
    let (round, recipe) = (index / recipes, index % recipes);
    if let Some(recipe) = GOOD.get(recipe) {
        return recipe(&mut rng, round);
    }
    let recipe = recipe - GOOD.len();
    if let Some(maker) = late::MAKERS.get(recipe) {
        let late = maker(&mut rng);
        return case_of(&late.table, late.expected);
    }
    damage::RECIPES[recipe - late::MAKERS.len()](&mut rng, round)
}

fn case_of(table: &Table, expected: Expected) -> TableCase {
    TableCase {
        text: table::write(table),
        expected,
    }
}

fn any(table: Table) -> TableCase {
    case_of(&table, Expected::Anything)
}

fn is_earliest(table: Table) -> TableCase {
    case_of(&table, Expected::Earliest)
}

fn worked_table(_: &mut Rng, round: usize) -> TableCase {
    match round % 8 {
        0 => TableCase {
            text: examples::LISTING_INPUT.into(),
            expected: Expected::Earliest,
        },
        1 => case_of(&examples::m1(), Expected::refused(COMMON_PREFIX, 0)),
        2 => is_earliest(examples::m1_earliest()),
        3 => case_of(&examples::m2(), Expected::refused(LATE_RULE, 0)),
        4 => is_earliest(examples::m2_earliest()),
        5 => is_earliest(examples::turn()),
        6 => is_earliest(examples::counting()),
        _ => TableCase {
            text: b"0100\n0201000000\n03000000\n04\n".to_vec(),
            expected: Expected::Earliest,
        },
    }
}

/// An earliest table some of whose states have the same words as others, or
/// nearly so.
pub fn with_twins(rng: &mut Rng) -> Table {
    let scale = *rng.pick(&[Scale::Tiny, Scale::Small]);
    let mut table = earliest(rng, scale);
    for _ in 0..rng.between(1, 6) {
        table = match rng.below(3) {
            0 => sample::with_near_twin(rng, &table),
            _ => sample::with_twin(rng, &table),
        };
    }
    let order = sample::random_order(rng, usize::from(table.states));
    sample::renumbered(&table, &order)
}

/// A ring, mostly of 64 states, in which nothing, one state, or one state in so
/// many is different.
pub fn random_ring(rng: &mut Rng) -> Table {
    let states = *rng.pick(&[1, 2, 63, 64, 64, 64]);
    let period = *rng.pick(&[1, 2, 5, 8, 32, states]);
    let ring = sample::ring(rng, states, period);
    let order = sample::random_order(rng, states);
    sample::renumbered(&ring, &order)
}

/// Earliest tables that stand at a limit: words of 32 letters, 64 symbols, 512
/// rules, 32,768 bytes.
pub fn at_a_limit(rng: &mut Rng, round: usize) -> Table {
    match round % 5 {
        0 => with_longest_words(rng),
        1 => {
            let mut table = earliest(rng, Scale::Small);
            table.arities.resize(MAX_SYMBOLS, 0);
            table
        }
        2 => sample::with_all_rules(rng),
        3 => sample::earliest_of_length(rng, MAX_TEXT),
        _ => sample::earliest_of_length(rng, MAX_TEXT - 1),
    }
}

fn with_longest_words(rng: &mut Rng) -> Table {
    let mut table = earliest(rng, Scale::Tiny);
    table.initial.before = vec![rng.byte(); 32];
    for rule in &mut table.rules {
        if !rule.children.is_empty() {
            rule.before = vec![rng.byte(); 32];
        }
    }
    table
}
