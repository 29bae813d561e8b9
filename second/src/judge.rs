//! The judgement: refusals 13 to 18.
//!
//! It follows the published definitions. For each state the two ends of L(q)
//! are found as a least fixpoint: is the empty word in it, and which letters
//! its other words begin (or end) with. For non-empty sets X and Y, a first
//! letter of XY is one of X, or one of Y if X has the empty word; so the ends
//! of a sequence of words and states are found by a fold, and E2 is tried on
//! each tail L(qi) ui .. L(qk) uk itself.

use crate::refusal::{
    Refusal, COMMON_PREFIX, COMMON_SUFFIX, LATE_INITIAL_RULE, LATE_RULE, NOT_REACHED, NO_WORD,
};
use crate::table::{self, Child, Rule, Table};

/// A set of letters, one bit a letter.
#[derive(Clone, Copy, PartialEq, Eq, Default)]
struct Letters([u64; 4]);

impl Letters {
    fn only(letter: u8) -> Letters {
        let mut bits = [0; 4];
        bits[usize::from(letter / 64)] = 1 << (letter % 64);
        Letters(bits)
    }

    fn joined(self, other: Letters) -> Letters {
        let mut bits = self.0;
        for (mine, theirs) in bits.iter_mut().zip(other.0) {
            *mine |= theirs;
        }
        Letters(bits)
    }

    fn count(self) -> u32 {
        self.0.iter().map(|bits| bits.count_ones()).sum()
    }
}

/// One end of a set of words: whether the empty word is in it, and the letters
/// at that end of its other words. Neither means that no word is known.
#[derive(Clone, Copy, PartialEq, Eq, Default)]
struct Ends {
    has_empty_word: bool,
    letters: Letters,
}

impl Ends {
    fn of_word(side: Side, word: &[u8]) -> Ends {
        let letter = match side {
            Side::Front => word.first(),
            Side::Back => word.last(),
        };
        Ends {
            has_empty_word: letter.is_none(),
            letters: letter.map_or(Letters::default(), |&letter| Letters::only(letter)),
        }
    }

    fn has_word(self) -> bool {
        self.has_empty_word || self.letters.count() > 0
    }

    /// Whether the longest common prefix (or suffix) is not empty.
    fn has_common_letter(self) -> bool {
        !self.has_empty_word && self.letters.count() == 1
    }

    fn joined(self, other: Ends) -> Ends {
        Ends {
            has_empty_word: self.has_empty_word || other.has_empty_word,
            letters: self.letters.joined(other.letters),
        }
    }

    /// The ends of the product with a set that lies further inside. A product
    /// with a set without words has no words.
    fn then(self, inner: Ends) -> Ends {
        if !self.has_word() || !inner.has_word() {
            return Ends::default();
        }
        let through = if self.has_empty_word {
            inner.letters
        } else {
            Letters::default()
        };
        Ends {
            has_empty_word: self.has_empty_word && inner.has_empty_word,
            letters: self.letters.joined(through),
        }
    }
}

#[derive(Clone, Copy, PartialEq, Eq)]
enum Side {
    Front,
    Back,
}

/// The ends of all that a rule gives, when its children's states have the ends
/// that are known so far. Each fold begins at the far end of the rule.
fn ends_of_rule(side: Side, rule: &Rule, states: &[Ends]) -> Ends {
    let before = Ends::of_word(side, &rule.before);
    match side {
        Side::Front => {
            let children = rule.children.iter().rev();
            before.then(children.fold(empty_tail(), |tail, child| longer_tail(child, tail, states)))
        }
        Side::Back => rule.children.iter().fold(before, |head, child| {
            let state = states[usize::from(child.state)];
            Ends::of_word(side, &child.after).then(state.then(head))
        }),
    }
}

/// The front of the set that holds the empty word alone: a rule's last tail.
fn empty_tail() -> Ends {
    Ends::of_word(Side::Front, &[])
}

/// From the front of L(qi+1) ui+1 .. L(qk) uk to that of L(qi) ui .. L(qk) uk.
fn longer_tail(child: &Child, tail: Ends, fronts: &[Ends]) -> Ends {
    let state = fronts[usize::from(child.state)];
    state.then(Ends::of_word(Side::Front, &child.after).then(tail))
}

/// The ends of every L(q) as a least fixpoint: sweeps over the rules go on
/// until one learns nothing new.
fn ends_of_states(side: Side, table: &Table) -> Vec<Ends> {
    let mut states = vec![Ends::default(); usize::from(table.states)];
    loop {
        let mut learned = false;
        for rule in &table.rules {
            let state = usize::from(rule.state);
            let joined = states[state].joined(ends_of_rule(side, rule, &states));
            learned |= joined != states[state];
            states[state] = joined;
        }
        if !learned {
            return states;
        }
    }
}

/// The states that are reached from the initial state through rules.
fn reached_states(table: &Table) -> Vec<bool> {
    let mut reached = vec![false; usize::from(table.states)];
    let mut waiting = vec![table.initial.state];
    while let Some(state) = waiting.pop() {
        if reached[usize::from(state)] {
            continue;
        }
        reached[usize::from(state)] = true;
        for rule in table.rules_of(state) {
            waiting.extend(rule.children.iter().map(|child| child.state));
        }
    }
    reached
}

/// Whether E2 fails at some child of the rule.
fn rule_is_late(rule: &Rule, fronts: &[Ends]) -> bool {
    let mut tail = empty_tail();
    rule.children.iter().rev().any(|child| {
        tail = longer_tail(child, tail, fronts);
        tail.has_common_letter()
    })
}

fn initial_rule_is_late(table: &Table, fronts: &[Ends]) -> bool {
    let front = fronts[usize::from(table.initial.state)];
    let after = Ends::of_word(Side::Front, &table.initial.after);
    front.then(after).has_common_letter()
}

/// Refuses with `number` at the first item that is bad.
fn refuse_first<T>(number: u8, items: &[T], is_bad: impl Fn(&T) -> bool) -> Result<(), Refusal> {
    match items.iter().position(is_bad) {
        Some(place) => Err(Refusal::new(number, place)),
        None => Ok(()),
    }
}

/// Whether a table that was read is earliest; the first reason if it is not.
pub fn judge_table(table: &Table) -> Result<(), Refusal> {
    refuse_first(NOT_REACHED, &reached_states(table), |reached| !reached)?;
    let fronts = ends_of_states(Side::Front, table);
    refuse_first(NO_WORD, &fronts, |front| !front.has_word())?;
    refuse_first(COMMON_PREFIX, &fronts, |front| front.has_common_letter())?;
    let backs = ends_of_states(Side::Back, table);
    refuse_first(COMMON_SUFFIX, &backs, |back| back.has_common_letter())?;
    if initial_rule_is_late(table, &fronts) {
        return Err(Refusal::new(LATE_INITIAL_RULE, 0));
    }
    refuse_first(LATE_RULE, &table.rules, |rule| rule_is_late(rule, &fronts))
}

/// Reads a text and judges it: the table if it is earliest.
pub fn read_earliest(text: &[u8]) -> Result<Table, Refusal> {
    let table = table::read(text)?;
    judge_table(&table)?;
    Ok(table)
}

/// The public call: whether a table text is earliest.
pub fn judge(text: &[u8]) -> Result<(), Refusal> {
    read_earliest(text).map(|_| ())
}
