//! The word of a tree by an opened table: measured as the tuned hand does, but with places in the plan,
//! and written by a loop over words instead of a recursion over the tree.

use crate::opened::{kids_in, rule_in, spot, Opened, Rules, FRAMES};
use crate::proved::LONGEST;
use crate::tuned::word::{find_by, put, Answer};

/// A rule is planned as where its first word stands, and from 16,384 on how many children it has.
fn placed(kept: u64, rules: &Rules) -> u32 {
    (spot(rules, rule_in(kept)) | kids_in(kept) << 14) as u32
}

/// A rule is where its next word stands, and from 16,384 on how many children are left. Behind a
/// word comes the next planned rule if children are left, else the rule that waits; no branch
/// depends on which.
fn write_in_turn(frames: &[u8; FRAMES], plan: &[u32; LONGEST], room: &mut [u8]) {
    let mut waiting = [0u32; 256];
    let mut top: u8 = 1;
    let mut at = 1;
    let mut end = 0;
    let mut rule = plan[0];
    while top > 0 {
        let n = put(frames, rule as usize, room, end);
        end += n;
        let more = rule >= 16384;
        let planned = plan[at % LONGEST];
        let below = waiting[usize::from(top - 1)];
        waiting[usize::from(top)] = rule.wrapping_sub(16384 - 2).wrapping_add(n as u32);
        rule = std::hint::select_unpredictable(more, planned, below);
        at += usize::from(more);
        top = (top + 2 * u8::from(more)).wrapping_sub(1);
    }
}

pub fn find(table: &Opened, tree: &[u8], plan: &mut [u32; LONGEST], room: &mut [u8]) -> Answer {
    find_by(table, tree, plan, room, placed, write_in_turn)
}
