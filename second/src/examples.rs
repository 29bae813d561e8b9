//! The worked tables of the documents, and one for records.

use crate::table::{Child, Initial, Rule, Table};

/// The table on the left of document 01's listing.
pub const LISTING_INPUT: &str = "0102\n0100\n0100\n0203000200\n03000100\n0300020178\n\
    03010100\n0301020178\n0302000000012c0100\n04\n";

/// What the listing prints for it.
pub const LISTING_OUTPUT: &str = "0102\n0100\n0100\n0202000000\n0300000001012c0100\n\
    03010100\n0301020178\n04\n";

fn rule(state: u8, symbol: u8, before: &str, children: &[(u8, &str)]) -> Rule {
    let child = |&(state, after): &(u8, &str)| Child {
        state,
        after: after.into(),
    };
    Rule {
        state,
        symbol,
        before: before.into(),
        children: children.iter().map(child).collect(),
    }
}

fn initial(before: &str, state: u8, after: &str) -> Initial {
    Initial {
        before: before.into(),
        state,
        after: after.into(),
    }
}

/// Symbols f, g, a of M1 and M2.
pub const F: u8 = 0;
pub const G: u8 = 1;
pub const A: u8 = 2;

/// M1 of document 001, example 1; states q0, q1.
pub fn m1() -> Table {
    Table {
        arities: vec![2, 1, 0],
        states: 2,
        initial: initial("", 0, ""),
        rules: vec![
            rule(0, F, "", &[(1, "ac"), (1, "")]),
            rule(1, G, "", &[(1, "abc")]),
            rule(1, A, "", &[]),
        ],
    }
}

/// The earliest table of M1, example 2; states q0', q1', q1''.
pub fn m1_earliest() -> Table {
    Table {
        arities: vec![2, 1, 0],
        states: 3,
        initial: initial("a", 0, "c"),
        rules: vec![
            rule(0, F, "", &[(1, ""), (2, "")]),
            rule(1, G, "bca", &[(1, "")]),
            rule(1, A, "", &[]),
            rule(2, G, "cab", &[(2, "")]),
            rule(2, A, "", &[]),
        ],
    }
}

/// M2 of document 001, example 1; states p0 to p3.
pub fn m2() -> Table {
    Table {
        arities: vec![2, 1, 0],
        states: 4,
        initial: initial("", 0, ""),
        rules: vec![
            rule(0, F, "", &[(1, ""), (3, "ab")]),
            rule(0, A, "ba", &[]),
            rule(1, G, "a", &[(2, "")]),
            rule(1, A, "", &[]),
            rule(2, G, "ab", &[(3, "")]),
            rule(2, A, "", &[]),
            rule(3, G, "", &[(3, "")]),
            rule(3, A, "", &[]),
        ],
    }
}

/// The earliest table of M2, example 2.
pub fn m2_earliest() -> Table {
    let mut table = m2();
    table.rules[0] = rule(0, F, "a", &[(1, "b"), (3, "")]);
    table.rules[4] = rule(2, G, "ba", &[(3, "")]);
    table
}

/// The table that turns a chain of labels; symbols a, b, ⊥.
pub fn turn() -> Table {
    Table {
        arities: vec![1, 1, 0],
        states: 1,
        initial: initial("", 0, ""),
        rules: vec![
            rule(0, 0, "", &[(0, "a")]),
            rule(0, 1, "", &[(0, "b")]),
            rule(0, 2, "", &[]),
        ],
    }
}

/// The table that counts symbols, example 6.4 of document 000; symbols f, a, b.
pub fn counting() -> Table {
    Table {
        arities: vec![2, 0, 0],
        states: 1,
        initial: initial("c", 0, ""),
        rules: vec![
            rule(0, 0, "cc", &[(0, ""), (0, "")]),
            rule(0, 1, "", &[]),
            rule(0, 2, "", &[]),
        ],
    }
}

/// A table for records, for which the documents have none: symbols a, b and the
/// absent one. The word of a record is its stream in brackets.
pub fn brackets() -> Table {
    Table {
        arities: vec![2, 2, 0],
        states: 1,
        initial: initial("", 0, ""),
        rules: vec![
            rule(0, 0, "(", &[(0, ")"), (0, "")]),
            rule(0, 1, "[", &[(0, "]"), (0, "")]),
            rule(0, 2, "", &[]),
        ],
    }
}
