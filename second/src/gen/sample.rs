//! Random tables, and changes to tables whose effect is known.

use std::collections::BTreeMap;

use crate::limits::{MAX_RULES, MAX_STATES, MAX_TEXT};
use crate::rng::Rng;
use crate::table::{self, Child, Initial, Rule, Table, Word};

/// How large a random table is.
#[derive(Clone, Copy, PartialEq, Eq)]
pub enum Scale {
    Tiny,
    Small,
    Large,
}

/// What random rules are drawn from.
struct Stock {
    states: usize,
    arities: Vec<u8>,
    letters: Vec<u8>,
    longest_word: usize,
    /// Of a hundred places for a rule, how many are filled.
    filled: usize,
}

const ALPHABETS: [&[u8]; 6] = [b"ab", b"abc", b"a \n", b"xy ", &[0, 255, 0x20], b"0a,"];

impl Stock {
    fn random(rng: &mut Rng, scale: Scale) -> Stock {
        let (states, symbols, longest_word) = match scale {
            Scale::Tiny => (3, 4, 2),
            Scale::Small => (8, 8, 5),
            Scale::Large => (usize::from(MAX_STATES), 64, 32),
        };
        let states = rng.between(1, states);
        let symbols = rng.between(1, symbols);
        Stock {
            states,
            arities: (0..symbols).map(|_| random_arity(rng)).collect(),
            letters: rng.pick(&ALPHABETS).to_vec(),
            longest_word: rng.between(0, longest_word),
            filled: rng.between(10, 100),
        }
    }

    fn word(&self, rng: &mut Rng) -> Word {
        let short = self.longest_word.min(2);
        let longest = if rng.percent(80) {
            short
        } else {
            self.longest_word
        };
        let length = rng.between(0, longest);
        (0..length).map(|_| *rng.pick(&self.letters)).collect()
    }

    /// A word that is not empty and whose first letter is not the given one.
    fn word_not_beginning(&self, rng: &mut Rng, unwanted: u8) -> Word {
        let others: Vec<u8> = self.letters_but(unwanted);
        let mut word = vec![*rng.pick(&others)];
        word.extend(self.word(rng).into_iter().take(30));
        word
    }

    fn letters_but(&self, unwanted: u8) -> Vec<u8> {
        let letters = self.letters.iter().copied();
        letters.filter(|&letter| letter != unwanted).collect()
    }

    fn state(&self, rng: &mut Rng) -> u8 {
        rng.below(self.states) as u8
    }

    fn rule(&self, rng: &mut Rng, state: u8, symbol: u8) -> Rule {
        let arity = self.arities[usize::from(symbol)];
        let child = |_| Child {
            state: self.state(rng),
            after: self.word(rng),
        };
        let children = (0..arity).map(child).collect();
        let before = self.word(rng);
        Rule {
            state,
            symbol,
            before,
            children,
        }
    }

    fn symbols_with(&self, is_wanted: impl Fn(u8) -> bool) -> Vec<u8> {
        let symbols = 0..self.arities.len();
        symbols
            .filter(|&symbol| is_wanted(self.arities[symbol]))
            .map(|symbol| symbol as u8)
            .collect()
    }
}

/// Leaves and chains are more frequent, so that trees stay small.
fn random_arity(rng: &mut Rng) -> u8 {
    *rng.pick(&[0, 0, 0, 0, 1, 1, 1, 2, 2, 3, 4])
}

/// Any readable table; most of them are late.
pub fn readable(rng: &mut Rng, scale: Scale) -> Table {
    let stock = Stock::random(rng, scale);
    readable_by(rng, stock)
}

/// A readable table over this symbol list; of a hundred places for a rule about
/// `filled` are filled, or less if that is too much for a text.
pub fn readable_over(
    rng: &mut Rng,
    scale: Scale,
    arities: &[u8],
    states: usize,
    filled: usize,
) -> Table {
    let mut stock = Stock::random(rng, scale);
    stock.arities = arities.to_vec();
    stock.states = states;
    stock.filled = filled;
    readable_by(rng, stock)
}

fn readable_by(rng: &mut Rng, mut stock: Stock) -> Table {
    loop {
        let table = readable_from(rng, &stock);
        if table::write(&table).len() <= MAX_TEXT {
            return table;
        }
        stock.longest_word /= 2;
        stock.filled /= 2;
    }
}

fn readable_from(rng: &mut Rng, stock: &Stock) -> Table {
    let mut rules = Vec::new();
    for state in 0..stock.states as u8 {
        for symbol in 0..stock.arities.len() as u8 {
            if rules.len() < MAX_RULES && rng.percent(stock.filled) {
                rules.push(stock.rule(rng, state, symbol));
            }
        }
    }
    Table {
        arities: stock.arities.clone(),
        states: stock.states as u8,
        initial: Initial {
            before: stock.word(rng),
            state: stock.state(rng),
            after: stock.word(rng),
        },
        rules,
    }
}

/// What the leaf rules of a state of an earliest table settle about its words.
#[derive(Clone, Copy)]
enum Plan {
    /// The empty word: E1 holds. No word stands behind such a state.
    Quiet,
    /// The empty word and one that begins with this letter: E1 holds, and a
    /// word behind the state must begin with another letter.
    Opens(u8),
    /// Two words that differ in first and last letter: E1 holds, and any word
    /// can stand behind the state.
    Rich,
}

/// Builds an earliest table: whatever the inner rules are, the leaf rules give
/// every state E1, and the words behind states are chosen so that E2 holds.
struct Builder<'rng> {
    rng: &'rng mut Rng,
    stock: Stock,
    plans: Vec<Plan>,
    rules: BTreeMap<(u8, u8), Rule>,
}

/// Bytes kept free in an earliest table's text, so that a symbol, a rule or a
/// letter can be added.
const ROOM_FOR_CHANGES: usize = 600;

/// An earliest table, made so and not merely found to be so.
pub fn earliest(rng: &mut Rng, scale: Scale) -> Table {
    let mut stock = Stock::random(rng, scale);
    stock.arities.truncate(60);
    stock.arities.extend([0, 0, rng.byte_between(1, 4)]);
    rng.shuffle(&mut stock.arities);
    earliest_by(rng, stock)
}

/// An earliest table over this symbol list, which has two leaves and an inner
/// symbol.
pub fn earliest_over(rng: &mut Rng, arities: &[u8], states: usize) -> Table {
    let mut stock = Stock::random(rng, Scale::Tiny);
    stock.arities = arities.to_vec();
    stock.states = states;
    earliest_by(rng, stock)
}

fn earliest_by(rng: &mut Rng, mut stock: Stock) -> Table {
    loop {
        let table = earliest_from(rng, &stock);
        let short = table::write(&table).len() <= MAX_TEXT - ROOM_FOR_CHANGES;
        if short && table.rules.len() <= MAX_RULES {
            return table;
        }
        stock.longest_word /= 2;
        stock.filled /= 2;
    }
}

fn earliest_from(rng: &mut Rng, stock: &Stock) -> Table {
    let mut builder = Builder {
        rng,
        stock: Stock {
            arities: stock.arities.clone(),
            letters: stock.letters.clone(),
            ..*stock
        },
        plans: Vec::new(),
        rules: BTreeMap::new(),
    };
    builder.plan_leaves();
    builder.fill_inner_rules();
    builder.link_states();
    builder.choose_words_behind_states();
    let table = builder.table();
    let order = random_order(rng, usize::from(table.states));
    renumbered(&table, &order)
}

impl Builder<'_> {
    fn plan_leaves(&mut self) {
        let mut leaves = self.stock.symbols_with(|arity| arity == 0);
        for state in 0..self.stock.states as u8 {
            self.rng.shuffle(&mut leaves);
            let plan = self.plan_state(state, leaves[0], leaves[1]);
            self.plans.push(plan);
            for &leaf in &leaves[2..] {
                if self.rules.len() < MAX_RULES - 128 && self.rng.percent(self.stock.filled) {
                    let word = self.stock.word(self.rng);
                    self.put_leaf(state, leaf, word);
                }
            }
        }
    }

    fn plan_state(&mut self, state: u8, leaf: u8, other_leaf: u8) -> Plan {
        let letter = *self.rng.pick(&self.stock.letters);
        let other = *self.rng.pick(&self.stock.letters_but(letter));
        match self.rng.below(4) {
            0 => {
                self.put_leaf(state, leaf, vec![]);
                Plan::Quiet
            }
            1 => {
                let mut word = vec![letter];
                word.extend(self.stock.word(self.rng).into_iter().take(30));
                self.put_leaf(state, leaf, vec![]);
                self.put_leaf(state, other_leaf, word);
                Plan::Opens(letter)
            }
            _ => {
                let word = self.word_between(letter, other);
                let other_word = self.word_between(other, letter);
                self.put_leaf(state, leaf, word);
                self.put_leaf(state, other_leaf, other_word);
                Plan::Rich
            }
        }
    }

    /// A word from one letter to another. With the letters swapped it differs
    /// from itself at both ends.
    fn word_between(&mut self, first: u8, last: u8) -> Word {
        let mut word = vec![first];
        word.extend(self.stock.word(self.rng).into_iter().take(30));
        word.push(last);
        word
    }

    fn put_leaf(&mut self, state: u8, symbol: u8, before: Word) {
        let rule = Rule {
            state,
            symbol,
            before,
            children: Vec::new(),
        };
        self.rules.insert((state, symbol), rule);
    }

    fn fill_inner_rules(&mut self) {
        for state in 0..self.stock.states as u8 {
            for symbol in self.stock.symbols_with(|arity| arity > 0) {
                if self.rules.len() < MAX_RULES - 64 && self.rng.percent(self.stock.filled) {
                    self.put_inner(state, symbol);
                }
            }
        }
    }

    fn put_inner(&mut self, state: u8, symbol: u8) {
        let rule = self.stock.rule(self.rng, state, symbol);
        self.rules.insert((state, symbol), rule);
    }

    /// Makes each state the child of a rule of a state before it. A place that
    /// was used for this is not used again, so every state is reached.
    fn link_states(&mut self) {
        let mut free = self.child_places(0);
        for state in 1..self.stock.states as u8 {
            if free.is_empty() {
                let inner = self.stock.symbols_with(|arity| arity > 0);
                let symbol = *self.rng.pick(&inner);
                self.put_inner(state - 1, symbol);
                free = self.child_places(state - 1);
            }
            let (key, child) = free.swap_remove(self.rng.below(free.len()));
            let rule = self.rules.get_mut(&key).expect("the place is in a rule");
            rule.children[child].state = state;
            free.extend(self.child_places(state));
        }
    }

    fn child_places(&self, state: u8) -> Vec<((u8, u8), usize)> {
        let rules = self.rules.range((state, 0)..=(state, u8::MAX));
        rules
            .flat_map(|(&key, rule)| (0..rule.children.len()).map(move |child| (key, child)))
            .collect()
    }

    fn choose_words_behind_states(&mut self) {
        let keys: Vec<(u8, u8)> = self.rules.keys().copied().collect();
        for key in keys {
            for child in 0..self.rules[&key].children.len() {
                let state = self.rules[&key].children[child].state;
                let after = self.word_behind(state);
                let rule = self.rules.get_mut(&key).expect("the key is there");
                rule.children[child].after = after;
            }
        }
    }

    fn word_behind(&mut self, state: u8) -> Word {
        match self.plans[usize::from(state)] {
            Plan::Rich => self.stock.word(self.rng),
            Plan::Opens(letter) if self.rng.percent(60) => {
                self.stock.word_not_beginning(self.rng, letter)
            }
            Plan::Opens(_) | Plan::Quiet => Vec::new(),
        }
    }

    fn table(mut self) -> Table {
        let before = self.stock.word(self.rng);
        let after = self.word_behind(0);
        Table {
            arities: self.stock.arities,
            states: self.stock.states as u8,
            initial: Initial {
                before,
                state: 0,
                after,
            },
            rules: self.rules.into_values().collect(),
        }
    }
}

pub fn random_order(rng: &mut Rng, count: usize) -> Vec<u8> {
    let mut order: Vec<u8> = (0..count as u8).collect();
    rng.shuffle(&mut order);
    order
}

/// The same table with state q called `new_number[q]`.
pub fn renumbered(table: &Table, new_number: &[u8]) -> Table {
    let mut new = table.clone();
    let rename = |state: &mut u8| *state = new_number[usize::from(*state)];
    rename(&mut new.initial.state);
    for rule in &mut new.rules {
        rename(&mut rule.state);
        rule.children
            .iter_mut()
            .for_each(|child| rename(&mut child.state));
    }
    sort_rules(&mut new);
    new
}

pub fn sort_rules(table: &mut Table) {
    table.rules.sort_by_key(Rule::key);
}

/// The table with one more symbol at `index`, for which there are no rules.
pub fn with_symbol(table: &Table, index: usize, arity: u8) -> Table {
    let mut new = table.clone();
    new.arities.insert(index, arity);
    for rule in &mut new.rules {
        if usize::from(rule.symbol) >= index {
            rule.symbol += 1;
        }
    }
    new
}

/// Adds a state with copies of another's rules and gives it some of the other's
/// places, so that the two states have the same words and both are reached.
/// Gives the table unchanged where that is not found.
pub fn with_twin(rng: &mut Rng, table: &Table) -> Table {
    let original = rng.below(usize::from(table.states)) as u8;
    let twin = table.states;
    let copied = table.rules_of(original).len();
    if twin == MAX_STATES || table.rules.len() + copied > MAX_RULES {
        return table.clone();
    }
    for _ in 0..8 {
        let new = with_twin_at_random_places(rng, table, original, twin);
        if all_reached(&new) && table::write(&new).len() <= MAX_TEXT {
            return new;
        }
    }
    table.clone()
}

/// Like `with_twin`, but one child of the new state is given another state, so
/// that mostly the two differ far below or in a later child only. It takes a
/// table that `earliest` made, whose leaf rules alone settle E1, and a child
/// with no word behind it, where E2 cannot fail: so the table stays earliest.
pub fn with_near_twin(rng: &mut Rng, table: &Table) -> Table {
    let mut new = with_twin(rng, table);
    let states = usize::from(new.states);
    let last = new.states - 1;
    let rules = new.rules.iter_mut().filter(|rule| rule.state == last);
    let children = rules.flat_map(|rule| rule.children.iter_mut());
    let mut free: Vec<&mut Child> = children.filter(|child| child.after.is_empty()).collect();
    if free.is_empty() {
        return new;
    }
    let child = rng.below(free.len());
    free[child].state = rng.below(states) as u8;
    if all_reached(&new) {
        new
    } else {
        table.clone()
    }
}

fn with_twin_at_random_places(rng: &mut Rng, table: &Table, original: u8, twin: u8) -> Table {
    let mut new = table.clone();
    new.states += 1;
    let copies = table.rules_of(original).iter().cloned();
    new.rules.extend(copies.map(|rule| Rule {
        state: twin,
        ..rule
    }));
    let mut swap = |state: &mut u8| {
        if *state == original && rng.percent(50) {
            *state = twin;
        }
    };
    swap(&mut new.initial.state);
    for rule in &mut new.rules {
        rule.children
            .iter_mut()
            .for_each(|child| swap(&mut child.state));
    }
    new
}

fn all_reached(table: &Table) -> bool {
    let mut reached = vec![table.initial.state];
    let mut looked_at = 0;
    while looked_at < reached.len() {
        for rule in table.rules_of(reached[looked_at]) {
            for child in &rule.children {
                if !reached.contains(&child.state) {
                    reached.push(child.state);
                }
            }
        }
        looked_at += 1;
    }
    reached.len() == usize::from(table.states)
}

/// States in a ring: one symbol leads to the next state, a leaf gives the empty
/// word, and another leaf is known to every `period`-th state only. So the form
/// has as many states as the period, if that divides the number of states.
pub fn ring(rng: &mut Rng, states: usize, period: usize) -> Table {
    let word: Word = vec![b'x'; rng.below(3)];
    let mut rules = Vec::new();
    for state in 0..states {
        let child = Child {
            state: ((state + 1) % states) as u8,
            after: Vec::new(),
        };
        rules.push(simple_rule(state, 0, &word, vec![child]));
        rules.push(simple_rule(state, 1, &[], Vec::new()));
        if state % period == 0 {
            rules.push(simple_rule(state, 2, &[], Vec::new()));
        }
    }
    Table {
        arities: vec![1, 0, 0],
        states: states as u8,
        initial: Initial {
            before: Vec::new(),
            state: rng.below(states) as u8,
            after: Vec::new(),
        },
        rules,
    }
}

pub fn simple_rule(state: usize, symbol: usize, before: &[u8], children: Vec<Child>) -> Rule {
    Rule {
        state: state as u8,
        symbol: symbol as u8,
        before: before.to_vec(),
        children,
    }
}

/// An earliest table with 512 rules: 64 symbols, 8 states in a ring, all rules.
pub fn with_all_rules(rng: &mut Rng) -> Table {
    let mut table = ring(rng, 8, 8);
    table.arities = vec![0; 64];
    table.arities[0] = 1;
    table.rules.retain(|rule| rule.symbol == 0);
    for state in 0..8 {
        table
            .rules
            .extend((1..64).map(|leaf| simple_rule(state, leaf, &[], Vec::new())));
        let odd_one = table.rules.len() - 1 - rng.below(62);
        table.rules[odd_one].before = vec![b'a' + rng.byte_between(0, 3)];
    }
    sort_rules(&mut table);
    table
}

/// An earliest table with 64 states whose text has exactly so many bytes, which
/// are more than 16,000. A line has an odd length and a letter takes two
/// digits, so the number of lines settles whether the length is odd.
pub fn earliest_of_length(rng: &mut Rng, bytes: usize) -> Table {
    let mut table = crowded(rng);
    if table::write(&table).len() % 2 != bytes % 2 {
        table.arities.push(0);
    }
    let mut missing = (bytes - table::write(&table).len()) / 2;
    while missing > 0 {
        let index = rng.below(table.rules.len());
        let rule = &mut table.rules[index];
        if !rule.children.is_empty() && rule.before.len() < 32 {
            let letters = rng.between(1, (32 - rule.before.len()).min(missing));
            rule.before.extend((0..letters).map(|_| b'a'));
            missing -= letters;
        }
    }
    table
}

/// 64 states, 512 rules, no letters: a leaf and seven inner symbols. Each state
/// knows the empty word, so letters before an inner rule's states do no harm.
fn crowded(rng: &mut Rng) -> Table {
    let mut table = ring(rng, 64, 64);
    table.arities = vec![1, 0, 1, 2, 3, 4, 3, 2];
    table.rules.retain(|rule| rule.symbol < 2);
    for state in 0..64 {
        for symbol in 2..8 {
            let child = |_| Child {
                state: rng.below(64) as u8,
                after: Vec::new(),
            };
            let children = (0..table.arities[symbol]).map(child).collect();
            table.rules.push(simple_rule(state, symbol, &[], children));
        }
    }
    sort_rules(&mut table);
    table
}
