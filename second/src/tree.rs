//! The shape of a tree: refusals 6, 7, 8, 10 and 11.

use crate::limits::{MAX_DEPTH, MAX_TREE};
use crate::refusal::{Refusal, BEHIND_TREE, TOO_DEEP, TREE_SIZE, TREE_STOPS, UNKNOWN_SYMBOL};

/// Whether the bytes are one tree in preorder over these symbols.
///
/// Only the tree itself is looked at symbol by symbol: what stands behind its
/// end is number 11 whatever it is.
pub fn check_shape(arities: &[u8], tree: &[u8]) -> Result<(), Refusal> {
    if tree.is_empty() || tree.len() > MAX_TREE {
        return Err(Refusal::new(TREE_SIZE, 0));
    }
    // One entry for each level from the root down to the next symbol: how many
    // trees are still due there. So the length of the list is that symbol's depth.
    let mut due_at_level: Vec<u8> = vec![1];
    for (place, &symbol) in tree.iter().enumerate() {
        let depth = due_at_level.len();
        let Some(due) = due_at_level.last_mut() else {
            return Err(Refusal::new(BEHIND_TREE, place));
        };
        let Some(&arity) = arities.get(usize::from(symbol)) else {
            return Err(Refusal::new(UNKNOWN_SYMBOL, place));
        };
        if depth > MAX_DEPTH {
            return Err(Refusal::new(TOO_DEEP, place));
        }
        *due -= 1;
        due_at_level.push(arity);
        while due_at_level.last() == Some(&0) {
            due_at_level.pop();
        }
    }
    if due_at_level.is_empty() {
        Ok(())
    } else {
        Err(Refusal::new(TREE_STOPS, tree.len()))
    }
}
