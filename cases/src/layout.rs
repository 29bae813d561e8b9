//! Where things stand in an opened table, and the opened table that a text is due.

use fadurinko::limit::SYMBOLS;
use fadurinko_second::hex;
use fadurinko_second::table::{Rule, Table};

use crate::opened::Arrays;

/// Where in the numbers each state's first rule stands, the rules, and what is kept for each state and
/// symbol. The head stands before them.
pub const FIRSTS_FROM: usize = 8;
pub const RULES_FROM: usize = 80;
pub const GRID_FROM: usize = 592;

/// What is kept for the state and the symbol of a rule.
#[derive(Clone, Default)]
pub struct Kept {
    pub letters: usize,
    /// The rule's number.
    pub rule: usize,
    /// The first child's, then the others' from the last on.
    pub states: [usize; 4],
    pub kids: usize,
}

/// Where the states of the children stand in what is kept, in that order, and their number.
pub const STATES_FROM: [u32; 4] = [21, 31, 41, 51];
pub const KIDS_FROM: u32 = 61;

impl Kept {
    fn of(rule: &Rule, number: usize) -> Kept {
        let words = rule.children.iter().map(|child| child.after.len());
        let mut first_then_last = rule
            .children
            .iter()
            .take(1)
            .chain(rule.children.iter().rev());
        let mut state = || first_then_last.next().map_or(0, |child| child.state.into());
        let kids = rule.children.len();
        let states = std::array::from_fn(|i| if i < kids { state() } else { 0 });
        Kept {
            letters: rule.before.len() + words.sum::<usize>(),
            rule: number,
            states,
            kids,
        }
    }

    pub fn number(&self) -> u64 {
        let states = self.states.into_iter().zip(STATES_FROM);
        [
            (self.letters, 0),
            (1, 8),
            (self.rule, 9),
            (self.kids, KIDS_FROM),
        ]
        .into_iter()
        .chain(states)
        .map(|(field, bit)| (field as u64) << bit)
        .sum()
    }
}

/// So many bits of a number, from one on.
pub fn field(number: u64, bit: u32, bits: u32) -> usize {
    ((number >> bit) % (1 << bits)) as usize
}

/// A rule by its number: where its first word stands, its symbol, its state.
pub fn listed(place: usize, symbol: usize, state: usize) -> u64 {
    (place + (symbol << 17) + (state << 23)) as u64
}

/// The bytes of a rule's frame.
fn frame_length(rule: &Rule) -> usize {
    let children = rule.children.iter().map(|child| 2 + child.after.len());
    4 + rule.before.len() + children.sum::<usize>()
}

impl Arrays {
    /// What opening makes of these arrays: the text's bytes and the table's numbers are written, and the
    /// rest stays.
    pub fn lay_out(&mut self, text: &[u8], table: &Table) {
        let lines = text.split(|&byte| byte == b'\n').filter_map(hex::decode);
        for (byte, decoded) in self.frames.iter_mut().zip(lines.flatten()) {
            *byte = decoded;
        }
        let (symbols, states) = (table.arities.len(), usize::from(table.states));
        let before = 2 * symbols + 2;
        let after = before + 2 + table.initial.before.len();
        let start = usize::from(table.initial.state);
        let head = [
            symbols,
            states,
            start,
            table.rules.len(),
            before,
            after,
            0,
            0,
        ];
        self.numbers[..FIRSTS_FROM].copy_from_slice(&head.map(|number| number as u64));
        self.numbers[GRID_FROM..GRID_FROM + SYMBOLS * states].fill(0);
        self.lay_out_rules(table, after + 1 + table.initial.after.len());
    }

    /// The rules, whose frames stand from a place on.
    fn lay_out_rules(&mut self, table: &Table, mut place: usize) {
        for state in 0..=table.states {
            let first = table.rules.partition_point(|rule| rule.state < state);
            self.numbers[FIRSTS_FROM + usize::from(state)] = first as u64;
        }
        for (number, rule) in table.rules.iter().enumerate() {
            let (state, symbol) = (usize::from(rule.state), usize::from(rule.symbol));
            self.numbers[RULES_FROM + number] = listed(place + 3, symbol, state);
            self.numbers[GRID_FROM + SYMBOLS * state + symbol] = Kept::of(rule, number).number();
            place += frame_length(rule);
        }
    }
}
