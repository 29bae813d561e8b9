//! Cases of kind `trees`: a table text and lines of trees.

use super::sample::{earliest, readable, simple_rule, with_symbol, Scale};
use super::{damage, tables};
use crate::examples;
use crate::hex;
use crate::limits::{MAX_DEPTH, MAX_TREE};
use crate::rng::Rng;
use crate::table::{self, Table};

/// A generated table text and the text with one tree a line.
pub struct TreesCase {
    pub table: Vec<u8>,
    pub lines: Vec<u8>,
}

/// The case of this seed and index.
pub fn case(seed: u64, index: usize) -> TreesCase {
    let mut rng = Rng::for_case(seed, index);
    let round = index / 16;
    if index % 16 == 15 {
        return refused_table(&mut rng, round);
    }
    let table = table_for_trees(&mut rng, index % 16, round);
    let mut lines = lines_for(&mut rng, &table);
    // Such lines are long, so not in every round.
    match (index % 16, round % 8) {
        (7, 0) => lines.extend(longest_lines(&mut rng, &table)),
        (8, 0) => lines.extend(full_trees()),
        _ => {}
    }
    TreesCase {
        table: table::write(&table),
        lines: joined(&mut rng, &lines),
    }
}

fn table_for_trees(rng: &mut Rng, recipe: usize, round: usize) -> Table {
    match recipe {
        0 => worked(round),
        1 | 2 => readable(rng, Scale::Tiny),
        3 | 4 => readable(rng, Scale::Small),
        5 => readable(rng, Scale::Large),
        6 => tables::random_ring(rng),
        8 => counting_with_chains(),
        9 => tables::at_a_limit(rng, round),
        10 => earliest(rng, Scale::Large),
        11 | 12 => earliest(rng, Scale::Tiny),
        _ => earliest(rng, Scale::Small),
    }
}

fn worked(round: usize) -> Table {
    match round % 7 {
        0 => table::read(examples::LISTING_INPUT.as_bytes()).expect("the listing can be read"),
        1 => examples::m1(),
        2 => examples::m1_earliest(),
        3 => examples::m2(),
        4 => examples::m2_earliest(),
        5 => examples::turn(),
        _ => examples::counting(),
    }
}

/// Every line gets the table's own number.
fn refused_table(rng: &mut Rng, round: usize) -> TreesCase {
    let recipe = damage::RECIPES[round % damage::RECIPES.len()];
    let lines = [&b"000201"[..], b"", b"00", b"0", b"ff", b"zz"];
    TreesCase {
        table: recipe(rng, round).text,
        lines: joined(rng, &lines.map(|line| line.to_vec())),
    }
}

/// Mostly the last line is closed, but it need not be.
pub(super) fn joined(rng: &mut Rng, lines: &[Vec<u8>]) -> Vec<u8> {
    let mut text = lines.join(&b'\n');
    if rng.percent(70) {
        text.push(b'\n');
    }
    text
}

/// Lines of every class for one table.
fn lines_for(rng: &mut Rng, table: &Table) -> Vec<Vec<u8>> {
    let grower = Grower::new(table);
    let mut lines = vec![Vec::new()];
    for size in [1, 2, 3, 5, 8, 13, 40, 200] {
        let in_domain = grower.tree_in_domain(rng, size);
        let any = grower.any_tree(rng, size);
        for tree in [in_domain, any] {
            lines.extend(spoiled(rng, table, &tree).map(|tree| hex::encode(&tree)));
            lines.push(hex::encode(&tree));
        }
    }
    for depth in [MAX_DEPTH - 1, MAX_DEPTH, MAX_DEPTH + 1, MAX_DEPTH + 2] {
        let trees = [
            grower.deep_in_domain(rng, depth),
            grower.deep_tree(rng, depth),
        ];
        for tree in trees {
            lines.extend(spoiled_deep(rng, table, &tree).map(|tree| hex::encode(&tree)));
            lines.push(hex::encode(&tree));
        }
    }
    let tree = hex::encode(&grower.tree_in_domain(rng, 6));
    lines.extend(not_hexadecimal(rng, &tree));
    lines
}

pub(super) fn unknown_symbol(rng: &mut Rng, table: &Table) -> u8 {
    rng.byte_between(table.arities.len() as u8, 255)
}

/// A tree with an unknown symbol, cut, with symbols behind it, and with another
/// symbol of the same arity at its root, in the middle and at its last leaf.
pub(super) fn spoiled(rng: &mut Rng, table: &Table, tree: &[u8]) -> [Vec<u8>; 6] {
    let mut unknown = tree.to_vec();
    let mut cut = tree.to_vec();
    let mut longer = tree.to_vec();
    if !tree.is_empty() {
        unknown[rng.below(tree.len())] = unknown_symbol(rng, table);
        cut.truncate(rng.below(tree.len()));
    }
    for _ in 0..rng.between(1, 2) {
        longer.push(if rng.percent(50) {
            unknown_symbol(rng, table)
        } else {
            rng.below(table.arities.len()) as u8
        });
    }
    let last = tree.len().saturating_sub(1);
    let places = [0, last / 2, last];
    let [root, middle, leaf] = places.map(|place| with_other_symbol(rng, table, tree, place));
    [unknown, cut, longer, root, middle, leaf]
}

fn with_other_symbol(rng: &mut Rng, table: &Table, tree: &[u8], place: usize) -> Vec<u8> {
    let arity_of = |symbol: u8| table.arities.get(usize::from(symbol));
    let mut tree = tree.to_vec();
    if let Some(symbol) = tree.get_mut(place) {
        let symbols = 0..table.arities.len() as u8;
        let others: Vec<u8> = symbols
            .filter(|other| other != symbol && arity_of(*other) == arity_of(*symbol))
            .collect();
        if !others.is_empty() {
            *symbol = *rng.pick(&others);
        }
    }
    tree
}

/// A deep tree with an unknown symbol at the place where depth 65 begins if the
/// path goes along first children, one before and one behind it, and cut.
pub(super) fn spoiled_deep(rng: &mut Rng, table: &Table, tree: &[u8]) -> [Vec<u8>; 4] {
    let mut trees = [MAX_DEPTH - 1, MAX_DEPTH, MAX_DEPTH + 1, 0].map(|place| {
        let mut tree = tree.to_vec();
        if place > 0 && place < tree.len() {
            tree[place] = unknown_symbol(rng, table);
        }
        tree
    });
    let cut = rng.between(tree.len() / 2, tree.len());
    trees[3].truncate(cut);
    trees
}

pub(super) fn not_hexadecimal(rng: &mut Rng, tree: &[u8]) -> Vec<Vec<u8>> {
    let mut lines: Vec<Vec<u8>> = [
        &b"0"[..],
        b"0g",
        b"0A",
        b"00 ",
        b" 00",
        b"\r",
        b"\0\xff",
        b"0x",
    ]
    .map(|line| line.to_vec())
    .to_vec();
    for extra in [&b"0"[..], b"\r", b"  ", b"F0"] {
        lines.push([tree, extra].concat());
    }
    rng.shuffle(&mut lines);
    lines
}

/// Trees around 32,768 bytes.
fn longest_lines(rng: &mut Rng, table: &Table) -> Vec<Vec<u8>> {
    let grower = Grower::new(table);
    let longest = grower.tree_in_domain(rng, MAX_TREE);
    let mut lines = vec![hex::encode(&longest)];
    for length in [MAX_TREE - 1, MAX_TREE, MAX_TREE + 1] {
        let mut tree = longest.clone();
        tree.resize(length, 0);
        lines.push(hex::encode(&tree));
    }
    lines.push(hex::encode(&grower.any_tree(rng, MAX_TREE)));
    lines
}

/// The counting table with one more symbol g of arity 1, so that there are
/// trees of every size.
fn counting_with_chains() -> Table {
    let mut table = with_symbol(&examples::counting(), 3, 1);
    let child = table::Child {
        state: 0,
        after: b" ".to_vec(),
    };
    let other_leaf = simple_rule(0, 2, b"d", Vec::new());
    table.rules[2] = other_leaf;
    table.rules.push(simple_rule(0, 3, b"", vec![child]));
    table
}

/// For that table: a full tree of 32,767 symbols below none, one and two g, and
/// the same with a last leaf that is lacking or too many.
fn full_trees() -> Vec<Vec<u8>> {
    let mut full = vec![1];
    while 2 * full.len() < MAX_TREE {
        full = [&[0][..], &full, &full].concat();
    }
    let below = |chain: usize| [vec![3; chain], full.clone()].concat();
    let mut trees = vec![below(0), below(1), below(2)];
    trees.extend([below(0), below(2)].map(|mut tree| {
        tree.pop();
        tree
    }));
    trees.push([below(0), vec![1]].concat());
    trees.iter().map(|tree| hex::encode(tree)).collect()
}

/// Grows trees for a table.
pub struct Grower<'table> {
    table: &'table Table,
    /// The size of a smallest tree with a word at each state; none where there
    /// is no such tree of reasonable size.
    smallest: Vec<Option<usize>>,
    leaves: Vec<u8>,
    inner: Vec<u8>,
}

const REASONABLE: usize = 1_000;

impl<'table> Grower<'table> {
    pub fn new(table: &'table Table) -> Grower<'table> {
        let symbols = 0..table.arities.len() as u8;
        let is_leaf = |symbol: &u8| table.arities[usize::from(*symbol)] == 0;
        let (leaves, inner) = symbols.partition(is_leaf);
        Grower {
            table,
            smallest: smallest_trees(table),
            leaves,
            inner,
        }
    }

    /// A tree of about this size to which the table gives a word, if one is
    /// found; any tree otherwise.
    pub fn tree_in_domain(&self, rng: &mut Rng, size: usize) -> Vec<u8> {
        let mut tree = Vec::new();
        let goal = Goal {
            state: self.table.initial.state,
            size,
            levels: 40,
        };
        if self.smallest[usize::from(goal.state)].is_none() {
            return self.any_tree(rng, size);
        }
        self.grow_in_domain(rng, goal, &mut tree);
        tree
    }

    /// What the rule does not need goes to the children in about equal shares.
    fn grow_in_domain(&self, rng: &mut Rng, goal: Goal, tree: &mut Vec<u8>) {
        let rule = self.choose_rule(rng, &goal);
        tree.push(rule.symbol);
        let least = smallest_by_rule(rule, &self.smallest).unwrap_or(goal.size);
        let mut spare = goal.size.saturating_sub(least);
        for (index, child) in rule.children.iter().enumerate() {
            let fair = spare / (rule.children.len() - index);
            let is_last = index + 1 == rule.children.len();
            let share = match is_last {
                true => spare,
                false => rng.between(fair / 2, fair + fair / 2).min(spare),
            };
            spare -= share;
            let least = self.smallest[usize::from(child.state)].unwrap_or(1);
            let goal = Goal {
                state: child.state,
                size: least + share,
                levels: goal.levels.saturating_sub(1),
            };
            self.grow_in_domain(rng, goal, tree);
        }
    }

    /// A rule that fits into the size; the one with the smallest tree if none
    /// fits or no levels are left.
    fn choose_rule(&self, rng: &mut Rng, goal: &Goal) -> &table::Rule {
        let size_of = |rule: &&table::Rule| smallest_by_rule(rule, &self.smallest);
        let rules = self.table.rules_of(goal.state).iter();
        let usable: Vec<&table::Rule> = rules.filter(|rule| size_of(rule).is_some()).collect();
        let fitting: Vec<&table::Rule> = usable
            .iter()
            .copied()
            .filter(|rule| goal.levels > 0 && size_of(rule) <= Some(goal.size))
            .collect();
        if fitting.is_empty() {
            let smallest = usable.into_iter().min_by_key(size_of);
            return smallest.expect("a state with a smallest tree has its rule");
        }
        larger_of_two(rng, &fitting)
    }

    /// Any tree of about this size; cut short where there are no leaves.
    pub fn any_tree(&self, rng: &mut Rng, size: usize) -> Vec<u8> {
        let mut tree = Vec::new();
        let mut due = 1;
        while due > 0 && tree.len() < 2 * size {
            let wants_leaf = tree.len() + due >= size || self.inner.is_empty();
            let symbols = match wants_leaf && !self.leaves.is_empty() {
                true => &self.leaves,
                false if rng.percent(30) && due > 1 && !self.leaves.is_empty() => &self.leaves,
                false => &self.inner,
            };
            let symbol = *rng.pick(symbols);
            due = due - 1 + usize::from(self.table.arities[usize::from(symbol)]);
            tree.push(symbol);
        }
        tree
    }

    /// A tree of exactly this depth, if there are leaves and inner symbols:
    /// a path at random children, and leaves beside it.
    pub fn deep_tree(&self, rng: &mut Rng, depth: usize) -> Vec<u8> {
        let (mut tree, mut behind) = (Vec::new(), Vec::new());
        let leaf = self.leaves.first().copied().unwrap_or(0);
        if !self.inner.is_empty() {
            for _ in 1..depth {
                let symbol = *rng.pick(&self.inner);
                let arity = usize::from(self.table.arities[usize::from(symbol)]);
                let path = rng.below(arity);
                tree.push(symbol);
                tree.extend(vec![leaf; path]);
                behind.extend(vec![leaf; arity - 1 - path]);
            }
        }
        tree.push(leaf);
        tree.append(&mut behind);
        tree
    }

    /// A deep tree by rules: along a path children that have words, smallest
    /// trees beside it.
    pub fn deep_in_domain(&self, rng: &mut Rng, depth: usize) -> Vec<u8> {
        let (mut tree, mut behind) = (Vec::new(), Vec::new());
        let mut state = self.table.initial.state;
        for _ in 1..depth {
            let onward = self.inner_rules_with_words(state);
            if onward.is_empty() {
                break;
            }
            let rule = *rng.pick(&onward);
            let path = rng.below(rule.children.len());
            tree.push(rule.symbol);
            self.smallest_for(rng, &rule.children[..path], &mut tree);
            let mut beside = Vec::new();
            self.smallest_for(rng, &rule.children[path + 1..], &mut beside);
            behind.push(beside);
            state = rule.children[path].state;
        }
        if self.smallest[usize::from(state)].is_some() {
            self.grow_in_domain(rng, Goal::smallest(state), &mut tree);
        }
        behind.iter().rev().for_each(|beside| tree.extend(beside));
        tree
    }

    fn inner_rules_with_words(&self, state: u8) -> Vec<&table::Rule> {
        let rules = self.table.rules_of(state).iter();
        let has_word = |rule: &&table::Rule| smallest_by_rule(rule, &self.smallest).is_some();
        rules
            .filter(|rule| !rule.children.is_empty())
            .filter(has_word)
            .collect()
    }

    fn smallest_for(&self, rng: &mut Rng, children: &[table::Child], tree: &mut Vec<u8>) {
        for child in children {
            self.grow_in_domain(rng, Goal::smallest(child.state), tree);
        }
    }
}

/// What a tree is grown for: about this size, and growing stops below so many
/// levels.
struct Goal {
    state: u8,
    size: usize,
    levels: usize,
}

impl Goal {
    fn smallest(state: u8) -> Goal {
        Goal {
            state,
            size: 1,
            levels: 0,
        }
    }
}

/// Of two rules the one with more children, so that trees grow.
fn larger_of_two<'rule>(rng: &mut Rng, rules: &[&'rule table::Rule]) -> &'rule table::Rule {
    let (one, other) = (*rng.pick(rules), *rng.pick(rules));
    if one.children.len() < other.children.len() {
        other
    } else {
        one
    }
}

fn smallest_by_rule(rule: &table::Rule, smallest: &[Option<usize>]) -> Option<usize> {
    let mut size = 1;
    for child in &rule.children {
        size += smallest[usize::from(child.state)]?;
    }
    (size <= REASONABLE).then_some(size)
}

fn smallest_trees(table: &Table) -> Vec<Option<usize>> {
    let mut smallest: Vec<Option<usize>> = vec![None; usize::from(table.states)];
    loop {
        let mut learned = false;
        for rule in &table.rules {
            let known = &smallest[usize::from(rule.state)];
            if let Some(size) = smallest_by_rule(rule, &smallest) {
                if known.is_none_or(|known| size < known) {
                    smallest[usize::from(rule.state)] = Some(size);
                    learned = true;
                }
            }
        }
        if !learned {
            return smallest;
        }
    }
}
