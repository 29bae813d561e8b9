//! The word of a tree: refusals 9 and 12.

use crate::limits::SPACE;
use crate::refusal::{put_into_room, Refusal, NO_RULE};
use crate::table::{self, Rule, Table};
use crate::tree::check_shape;

/// A word that was found: its length and its number of terms.
#[derive(Clone, Copy, Debug, PartialEq, Eq)]
pub struct Found {
    pub length: usize,
    pub terms: usize,
}

impl Found {
    fn of(word: &[u8]) -> Found {
        let spaces = word.iter().filter(|&&letter| letter == SPACE).count();
        Found {
            length: word.len(),
            terms: spaces + 1,
        }
    }
}

/// Finds words by a table; made once for many trees.
pub struct Walker<'table> {
    table: &'table Table,
    /// The rule for state q and symbol f stands at q times the symbols plus f.
    rule_of: Vec<Option<&'table Rule>>,
}

impl<'table> Walker<'table> {
    pub fn new(table: &'table Table) -> Walker<'table> {
        let symbols = table.arities.len();
        let mut rule_of = vec![None; usize::from(table.states) * symbols];
        for rule in &table.rules {
            rule_of[usize::from(rule.state) * symbols + usize::from(rule.symbol)] = Some(rule);
        }
        Walker { table, rule_of }
    }

    /// Writes the tree's word into `out` (its old content is dropped).
    pub fn word(&self, tree: &[u8], out: &mut Vec<u8>) -> Result<Found, Refusal> {
        check_shape(&self.table.arities, tree)?;
        let initial = &self.table.initial;
        out.clear();
        out.extend_from_slice(&initial.before);
        self.append_word(initial.state, tree, 0, out)?;
        out.extend_from_slice(&initial.after);
        Ok(Found::of(out))
    }

    /// Appends the word of the state on the subtree that begins at `place`,
    /// and gives the place behind that subtree. The shape is settled, so the
    /// subtree is whole and at most 64 calls are open. Children are taken in
    /// preorder, so the first missing rule that is met is the first one there is.
    fn append_word(
        &self,
        state: u8,
        tree: &[u8],
        place: usize,
        out: &mut Vec<u8>,
    ) -> Result<usize, Refusal> {
        let rule = self
            .rule(state, tree[place])
            .ok_or(Refusal::new(NO_RULE, place))?;
        out.extend_from_slice(&rule.before);
        let mut next = place + 1;
        for child in &rule.children {
            next = self.append_word(child.state, tree, next, out)?;
            out.extend_from_slice(&child.after);
        }
        Ok(next)
    }

    fn rule(&self, state: u8, symbol: u8) -> Option<&'table Rule> {
        let symbols = self.table.arities.len();
        self.rule_of[usize::from(state) * symbols + usize::from(symbol)]
    }
}

/// The public call: the word of a tree by a table text, put into `room`.
pub fn word(text: &[u8], tree: &[u8], room: &mut [u8]) -> Result<Found, Refusal> {
    let table = table::read(text)?;
    let mut out = Vec::new();
    let found = Walker::new(&table).word(tree, &mut out)?;
    put_into_room(&out, room)?;
    Ok(found)
}
