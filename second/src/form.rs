//! The form of an earliest table.

use std::collections::HashMap;

use crate::judge::read_earliest;
use crate::refusal::{put_into_room, Refusal};
use crate::table::{self, Child, Initial, Rule, Table};

/// For each state the number of its class. In an earliest table two states
/// have the same words on all trees exactly when no sequence of rounds parts
/// them: a round parts states of one class whose rules are for other symbols,
/// have other words, or have children of other classes.
fn classes_of_states(table: &Table) -> Vec<usize> {
    let marks = rule_marks(table);
    let mut class_of = vec![0; usize::from(table.states)];
    let mut classes = 1;
    loop {
        let mut number_of_row: HashMap<Vec<usize>, usize> = HashMap::new();
        let mut finer = Vec::with_capacity(class_of.len());
        for row in rows(table, &marks, &class_of) {
            let next_number = number_of_row.len();
            finer.push(*number_of_row.entry(row).or_insert(next_number));
        }
        if number_of_row.len() == classes {
            return class_of;
        }
        classes = number_of_row.len();
        class_of = finer;
    }
}

/// A number for each rule; two rules have the same one exactly when they agree
/// in symbol and words. Then rounds need not look at letters again.
fn rule_marks(table: &Table) -> Vec<usize> {
    let mut mark_of: HashMap<(u8, Vec<&[u8]>), usize> = HashMap::new();
    let mut marks = Vec::with_capacity(table.rules.len());
    for rule in &table.rules {
        let mut words: Vec<&[u8]> = vec![&rule.before];
        words.extend(rule.children.iter().map(|child| child.after.as_slice()));
        let next_mark = mark_of.len();
        marks.push(*mark_of.entry((rule.symbol, words)).or_insert(next_mark));
    }
    marks
}

/// For each state what one round sees of it: its class, and for each rule the
/// mark and the children's classes. A mark settles how many children follow.
fn rows(table: &Table, marks: &[usize], class_of: &[usize]) -> Vec<Vec<usize>> {
    let mut rows: Vec<Vec<usize>> = class_of.iter().map(|&class| vec![class]).collect();
    for (rule, &mark) in table.rules.iter().zip(marks) {
        let row = &mut rows[usize::from(rule.state)];
        row.push(mark);
        row.extend(
            rule.children
                .iter()
                .map(|child| class_of[usize::from(child.state)]),
        );
    }
    rows
}

/// The states of the form: for each class the state that stands for it, in the
/// order of the new numbers, and the new number of each class that was met.
struct Numbering {
    class_of: Vec<usize>,
    number_of_class: Vec<Option<u8>>,
    stands_for: Vec<u8>,
}

impl Numbering {
    /// The initial state is 0; then states in the order of their new numbers,
    /// their rules by rising symbol, children from left to right.
    fn of(table: &Table) -> Numbering {
        let class_of = classes_of_states(table);
        let mut numbering = Numbering {
            number_of_class: vec![None; class_of.len()],
            class_of,
            stands_for: Vec::new(),
        };
        numbering.meet(table.initial.state);
        let mut taken = 0;
        while taken < numbering.stands_for.len() {
            let state = numbering.stands_for[taken];
            for rule in table.rules_of(state) {
                rule.children
                    .iter()
                    .for_each(|child| numbering.meet(child.state));
            }
            taken += 1;
        }
        numbering
    }

    /// Gives the state's class the next free number if it has none.
    fn meet(&mut self, state: u8) {
        let number = &mut self.number_of_class[self.class_of[usize::from(state)]];
        if number.is_none() {
            *number = Some(self.stands_for.len() as u8);
            self.stands_for.push(state);
        }
    }

    fn number(&self, state: u8) -> u8 {
        self.number_of_class[self.class_of[usize::from(state)]]
            .expect("a state that is named was met")
    }

    fn renumbered_rule(&self, rule: &Rule) -> Rule {
        let children = rule.children.iter().map(|child| Child {
            state: self.number(child.state),
            after: child.after.clone(),
        });
        Rule {
            state: self.number(rule.state),
            symbol: rule.symbol,
            before: rule.before.clone(),
            children: children.collect(),
        }
    }
}

/// The form of an earliest table, as a table.
pub fn form_of(table: &Table) -> Table {
    let numbering = Numbering::of(table);
    let mut rules = Vec::new();
    for &state in &numbering.stands_for {
        let kept = table.rules_of(state).iter();
        rules.extend(kept.map(|rule| numbering.renumbered_rule(rule)));
    }
    Table {
        arities: table.arities.clone(),
        states: numbering.stands_for.len() as u8,
        initial: Initial {
            state: 0,
            ..table.initial.clone()
        },
        rules,
    }
}

/// The form's text, or the first refusal of 1 to 5 and 13 to 18.
pub fn form_text(text: &[u8]) -> Result<Vec<u8>, Refusal> {
    read_earliest(text).map(|table| table::write(&form_of(&table)))
}

/// The public call: puts the form of a table text into `room`, gives its length.
pub fn form(text: &[u8], room: &mut [u8]) -> Result<usize, Refusal> {
    let form = form_text(text)?;
    put_into_room(&form, room)?;
    Ok(form.len())
}
