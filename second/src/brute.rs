//! The definitions of the documents taken literally, on small tables: trees as
//! trees, languages as sets of words. Nothing here uses the shape check, the
//! walk, the judgement or the classes of the other modules.

pub mod records;

use std::collections::{BTreeSet, HashSet};
use std::rc::Rc;

use crate::limits::{MAX_DEPTH, MAX_TREE};
use crate::refusal::{
    Refusal, BEHIND_TREE, COMMON_PREFIX, COMMON_SUFFIX, LATE_INITIAL_RULE, LATE_RULE, NOT_REACHED,
    NO_RULE, NO_WORD, TOO_DEEP, TREE_SIZE, TREE_STOPS, UNKNOWN_SYMBOL,
};
use crate::table::{Child, Rule, Table, Word};

/// A symbol with trees below it.
#[derive(Debug)]
pub struct Tree {
    pub symbol: u8,
    pub children: Vec<Rc<Tree>>,
}

impl Tree {
    pub fn preorder(&self) -> Vec<u8> {
        let mut bytes = vec![self.symbol];
        for child in &self.children {
            bytes.extend(child.preorder());
        }
        bytes
    }

    pub fn size(&self) -> usize {
        1 + self
            .children
            .iter()
            .map(|child| child.size())
            .sum::<usize>()
    }
}

/// The tree that the bytes are, or document 01's refusal of its shape.
pub fn tree_of_bytes(arities: &[u8], bytes: &[u8]) -> Result<Rc<Tree>, Refusal> {
    if bytes.is_empty() || bytes.len() > MAX_TREE {
        return Err(Refusal::new(TREE_SIZE, 0));
    }
    let (tree, end) = subtree_of_bytes(arities, bytes, 0, 1)?;
    if end < bytes.len() {
        return Err(Refusal::new(BEHIND_TREE, end));
    }
    Ok(tree)
}

fn subtree_of_bytes(
    arities: &[u8],
    bytes: &[u8],
    place: usize,
    depth: usize,
) -> Result<(Rc<Tree>, usize), Refusal> {
    if place == bytes.len() {
        return Err(Refusal::new(TREE_STOPS, place));
    }
    let symbol = bytes[place];
    if usize::from(symbol) >= arities.len() {
        return Err(Refusal::new(UNKNOWN_SYMBOL, place));
    }
    if depth > MAX_DEPTH {
        return Err(Refusal::new(TOO_DEEP, place));
    }
    let mut children = Vec::new();
    let mut end = place + 1;
    for _ in 0..arities[usize::from(symbol)] {
        let (child, behind) = subtree_of_bytes(arities, bytes, end, depth + 1)?;
        children.push(child);
        end = behind;
    }
    Ok((Rc::new(Tree { symbol, children }), end))
}

fn rule_for(table: &Table, state: u8, symbol: u8) -> Option<&Rule> {
    table
        .rules
        .iter()
        .find(|rule| rule.key() == (state, symbol))
}

/// The word of a state on a tree, if it has one.
pub fn word_of_state(table: &Table, state: u8, tree: &Tree) -> Option<Word> {
    let rule = rule_for(table, state, tree.symbol)?;
    let mut word = rule.before.clone();
    for (child, subtree) in rule.children.iter().zip(&tree.children) {
        word.extend(word_of_state(table, child.state, subtree)?);
        word.extend(&child.after);
    }
    Some(word)
}

/// The table's word: that of the initial state between the initial words.
pub fn word_of_table(table: &Table, tree: &Tree) -> Option<Word> {
    let word = word_of_state(table, table.initial.state, tree)?;
    Some([&table.initial.before[..], &word, &table.initial.after].concat())
}

/// All positions at which the way down meets no rule, in any order.
fn places_without_rule(table: &Table, state: u8, tree: &Tree, place: usize) -> Vec<usize> {
    let Some(rule) = rule_for(table, state, tree.symbol) else {
        return vec![place];
    };
    let mut places = Vec::new();
    let mut child_place = place + 1;
    for (child, subtree) in rule.children.iter().zip(&tree.children) {
        places.extend(places_without_rule(
            table,
            child.state,
            subtree,
            child_place,
        ));
        child_place += subtree.size();
    }
    places
}

/// What the word call must answer, room aside.
pub fn word_of_bytes(table: &Table, bytes: &[u8]) -> Result<Word, Refusal> {
    let tree = tree_of_bytes(&table.arities, bytes)?;
    let first_place = places_without_rule(table, table.initial.state, &tree, 0)
        .into_iter()
        .min();
    match first_place {
        Some(place) => Err(Refusal::new(NO_RULE, place)),
        None => Ok(word_of_table(table, &tree).expect("no rule is missing")),
    }
}

/// All trees up to a depth, as deep as there are at most `most` of them, and
/// that depth.
pub fn all_trees(arities: &[u8], depth: usize, most: usize) -> (Vec<Rc<Tree>>, usize) {
    let mut trees: Vec<Rc<Tree>> = Vec::new();
    for reached in 0..depth {
        let mut count: usize = 0;
        for &arity in arities {
            count = count.saturating_add(trees.len().saturating_pow(u32::from(arity)));
        }
        if count > most {
            return (trees, reached);
        }
        trees = trees_over(arities, &trees);
    }
    (trees, depth)
}

/// All trees whose children are among the given ones.
fn trees_over(arities: &[u8], children: &[Rc<Tree>]) -> Vec<Rc<Tree>> {
    let mut trees = Vec::new();
    for (symbol, &arity) in arities.iter().enumerate() {
        for choice in choices(children.len(), usize::from(arity)) {
            trees.push(Rc::new(Tree {
                symbol: symbol as u8,
                children: choice
                    .iter()
                    .map(|&index| children[index].clone())
                    .collect(),
            }));
        }
    }
    trees
}

/// All lists of `length` numbers below `count`.
fn choices(count: usize, length: usize) -> Vec<Vec<usize>> {
    let mut lists: Vec<Vec<usize>> = vec![Vec::new()];
    for _ in 0..length {
        let mut longer = Vec::new();
        for list in &lists {
            longer.extend((0..count).map(|number| [&list[..], &[number]].concat()));
        }
        lists = longer;
    }
    lists
}

/// A set of words in which only the ends matter. A word of more than two
/// letters is kept as its first and last one; joining two words and shortening
/// gives the same whether the parts were shortened or not.
pub type Language = BTreeSet<Word>;

fn shortened(word: &[u8]) -> Word {
    match word {
        [first, .., last] => vec![*first, *last],
        _ => word.to_vec(),
    }
}

fn product(left: &Language, right: &Language) -> Language {
    let mut words = Language::new();
    for start in left {
        for end in right {
            words.insert(shortened(&[&start[..], end].concat()));
        }
    }
    words
}

fn single(word: &[u8]) -> Language {
    Language::from([shortened(word)])
}

/// L(qi) ui .. L(qk) uk for the given children.
fn tail(children: &[Child], languages: &[Language]) -> Language {
    children.iter().fold(single(&[]), |head, child| {
        let with_state = product(&head, &languages[usize::from(child.state)]);
        product(&with_state, &single(&child.after))
    })
}

/// Every L(q) over all finite trees: there are finitely many shortened words,
/// so adding what the rules give comes to an end.
pub fn languages(table: &Table) -> Vec<Language> {
    let mut languages = vec![Language::new(); usize::from(table.states)];
    loop {
        let mut grown = languages.clone();
        for rule in &table.rules {
            let words = product(&single(&rule.before), &tail(&rule.children, &languages));
            grown[usize::from(rule.state)].extend(words);
        }
        if grown == languages {
            return languages;
        }
        languages = grown;
    }
}

/// Every L(q) over the given trees only.
pub fn languages_over(table: &Table, trees: &[Rc<Tree>]) -> Vec<Language> {
    let language = |state| {
        let words = trees
            .iter()
            .filter_map(|tree| word_of_state(table, state, tree));
        words.map(|word| shortened(&word)).collect()
    };
    (0..table.states).map(language).collect()
}

/// The longest common prefix of a set that has a word.
fn common_prefix(words: impl IntoIterator<Item = Word>) -> Word {
    let shared = |one: Word, other: Word| {
        let pairs = one.iter().zip(&other);
        let length = pairs.take_while(|(mine, theirs)| mine == theirs).count();
        one[..length].to_vec()
    };
    words.into_iter().reduce(shared).unwrap_or_default()
}

fn common_suffix(words: &Language) -> Word {
    let backward = |word: &Word| word.iter().rev().copied().collect();
    common_prefix(words.iter().map(backward))
}

fn has_common_prefix(words: &Language) -> bool {
    !common_prefix(words.iter().cloned()).is_empty()
}

fn is_reached(table: &Table) -> Vec<bool> {
    let mut reached = vec![false; usize::from(table.states)];
    reached[usize::from(table.initial.state)] = true;
    for _ in 0..table.states {
        for rule in &table.rules {
            if reached[usize::from(rule.state)] {
                for child in &rule.children {
                    reached[usize::from(child.state)] = true;
                }
            }
        }
    }
    reached
}

fn breaks_second_condition(rule: &Rule, languages: &[Language]) -> bool {
    (0..rule.children.len())
        .any(|first| has_common_prefix(&tail(&rule.children[first..], languages)))
}

/// The judgement by the definitions, with these sets as the languages.
pub fn judgement(table: &Table, languages: &[Language]) -> Result<(), Refusal> {
    let first = |number, place: Option<usize>| match place {
        Some(place) => Err(Refusal::new(number, place)),
        None => Ok(()),
    };
    let first_language = |is_bad: &dyn Fn(&Language) -> bool| languages.iter().position(is_bad);
    first(
        NOT_REACHED,
        is_reached(table).iter().position(|reached| !reached),
    )?;
    first(NO_WORD, first_language(&|words| words.is_empty()))?;
    first(COMMON_PREFIX, first_language(&has_common_prefix))?;
    let has_common_suffix = |words: &Language| !common_suffix(words).is_empty();
    first(COMMON_SUFFIX, first_language(&has_common_suffix))?;
    let initial = &languages[usize::from(table.initial.state)];
    if has_common_prefix(&product(initial, &single(&table.initial.after))) {
        return Err(Refusal::new(LATE_INITIAL_RULE, 0));
    }
    let mut rules = table.rules.iter();
    first(
        LATE_RULE,
        rules.position(|rule| breaks_second_condition(rule, languages)),
    )
}

/// Whether a refusal of 13 to 18 is true of the words in these sets, which may
/// be only some of the words there are.
pub fn is_not_contradicted(table: &Table, refusal: Refusal, languages: &[Language]) -> bool {
    let place = refusal.place;
    let prefix_stays = |words: &Language| words.is_empty() || has_common_prefix(words);
    match refusal.number {
        NOT_REACHED => !is_reached(table)[place],
        NO_WORD => languages[place].is_empty(),
        COMMON_PREFIX => prefix_stays(&languages[place]),
        COMMON_SUFFIX => {
            languages[place].is_empty() || !common_suffix(&languages[place]).is_empty()
        }
        LATE_INITIAL_RULE => {
            let initial = &languages[usize::from(table.initial.state)];
            prefix_stays(&product(initial, &single(&table.initial.after)))
        }
        LATE_RULE => {
            let children = &table.rules[place].children;
            (0..children.len()).any(|first| prefix_stays(&tail(&children[first..], languages)))
        }
        _ => false,
    }
}

/// The words of every state of some tables on one tree, in a row.
type Row = Vec<Option<Word>>;

/// A tree with its row.
struct Sample {
    tree: Rc<Tree>,
    row: Row,
}

/// Trees on which the states of some tables can be told apart: of trees on
/// which all states have the same words only one is kept, since such trees can
/// replace each other in any tree. They come by rising size. At most `most` are
/// kept and forty times as many tried.
pub fn telling_trees(tables: &[&Table], size: usize, most: usize) -> Vec<Rc<Tree>> {
    let mut by_size: Vec<Vec<Sample>> = vec![Vec::new()];
    let mut seen: HashSet<Row> = HashSet::new();
    let mut tries = 40 * most;
    for size in 1..=size {
        let mut samples = Vec::new();
        for (symbol, &arity) in tables[0].arities.iter().enumerate() {
            let mut try_children = |below: &[&Sample]| {
                let sample = sample_over(tables, symbol as u8, below);
                if seen.insert(sample.row.clone()) {
                    samples.push(sample);
                }
                tries = tries.saturating_sub(1);
                tries > 0 && seen.len() < most
            };
            visit_lists(
                &by_size,
                usize::from(arity),
                size - 1,
                &[],
                &mut try_children,
            );
        }
        by_size.push(samples);
    }
    let samples = by_size.into_iter().flatten();
    samples.map(|sample| sample.tree).collect()
}

/// Visits all lists that go on from `list` with `count` samples whose sizes
/// make `size`, until a visit says no.
fn visit_lists<'sample>(
    by_size: &'sample [Vec<Sample>],
    count: usize,
    size: usize,
    list: &[&'sample Sample],
    visit: &mut dyn FnMut(&[&Sample]) -> bool,
) -> bool {
    if count == 0 {
        return size > 0 || visit(list);
    }
    let sizes = 1..(size + 2).saturating_sub(count);
    let samples =
        sizes.flat_map(|next_size| by_size[next_size].iter().map(move |next| (next_size, next)));
    for (next_size, next) in samples {
        let longer = [list, &[next]].concat();
        if !visit_lists(by_size, count - 1, size - next_size, &longer, visit) {
            return false;
        }
    }
    true
}

fn sample_over(tables: &[&Table], symbol: u8, below: &[&Sample]) -> Sample {
    let mut row = Row::new();
    for table in tables {
        let offset = row.len();
        for state in 0..table.states {
            row.push(word_over(table, state, symbol, below, offset));
        }
    }
    let children = below.iter().map(|sample| sample.tree.clone()).collect();
    Sample {
        tree: Rc::new(Tree { symbol, children }),
        row,
    }
}

/// The word of a state from the rows of the trees below; the table's states
/// begin at `offset` in a row.
fn word_over(
    table: &Table,
    state: u8,
    symbol: u8,
    below: &[&Sample],
    offset: usize,
) -> Option<Word> {
    let rule = rule_for(table, state, symbol)?;
    let mut word = rule.before.clone();
    for (child, sample) in rule.children.iter().zip(below) {
        word.extend(sample.row[offset + usize::from(child.state)].as_ref()?);
        word.extend(&child.after);
    }
    Some(word)
}
