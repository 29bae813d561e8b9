//! An opened table, as every hand makes and reads it: the decoded frames one after the other, and
//! numbers. Of these the first eight are the head; behind it stand each state's first rule, each rule
//! with the place of its words, and what is kept for each state and symbol.

use std::ops::Range;

pub const FRAMES: usize = 16448;
pub const NUMBERS: usize = 4688;

/// Where in the numbers the states' first rules begin, the rules, and the grid of states and symbols.
pub const FIRSTS_FROM: usize = 8;
pub const RULES_FROM: usize = 80;
pub const GRID_FROM: usize = 592;

/// The rules by their numbers, as `listed` tells each.
pub type Rules = [u64; 512];

pub struct Opened {
    pub frames: Box<[u8; FRAMES]>,
    pub numbers: Box<[u64; NUMBERS]>,
}

/// The head of the numbers. `before` and `after` are where the words of the initial rule stand.
#[derive(Default)]
pub struct Head {
    pub symbols: usize,
    pub states: usize,
    pub start: usize,
    pub rules: usize,
    pub before: usize,
    pub after: usize,
}

impl Head {
    pub fn numbers(&self) -> [u64; FIRSTS_FROM] {
        let counts = [self.symbols, self.states, self.start, self.rules];
        let [symbols, states, start, rules] = counts.map(|count| count as u64);
        let (before, after) = (self.before as u64, self.after as u64);
        [symbols, states, start, rules, before, after, 0, 0]
    }
}

/// What is kept for the state and the symbol of a rule: `later` has the states of the children behind
/// the first.
pub fn kept(letters: u64, rule: usize, first: u64, later: u64, kids: usize) -> u64 {
    letters | 256 | (rule as u64) << 9 | first << 21 | later << 31 | (kids as u64) << 61
}

/// One more child behind the first: its state is lowest.
pub fn one_later(later: u64, state: u64) -> u64 {
    later << 10 | state
}

/// The letters of a rule's words, all together.
pub fn letters_in(kept: u64) -> usize {
    kept as usize & 255
}

/// A rule's number.
pub fn rule_in(kept: u64) -> usize {
    (kept >> 9) as usize & 511
}

/// How many children a rule has.
pub fn kids_in(kept: u64) -> usize {
    (kept >> 61) as usize
}

/// Where children's states stand: the first, then the others from the last on.
pub const CHILDREN: [u32; 4] = [21, 31, 41, 51];

/// A rule by its number: where its first word stands, its symbol and its state.
pub fn listed(at: usize, symbol: usize, state: usize) -> u64 {
    (at | symbol << 17 | state << 23) as u64
}

/// Where the first word of a rule stands.
#[inline(always)]
pub fn spot(rules: &Rules, rule: usize) -> usize {
    rules[rule % 512] as usize & 16383
}

impl Opened {
    pub fn blank() -> Opened {
        Opened {
            frames: Box::new([0; FRAMES]),
            numbers: Box::new([0; NUMBERS]),
        }
    }

    #[inline(always)]
    pub fn head(&self) -> Head {
        let [symbols, states, start, rules, before, after] =
            std::array::from_fn(|at| self.numbers[at] as usize);
        Head {
            symbols,
            states,
            start,
            rules,
            before,
            after,
        }
    }

    /// The numbers of a state's rules.
    pub fn rules_of(&self, state: usize) -> Range<usize> {
        let first = |state: usize| self.numbers[FIRSTS_FROM + state] as usize;
        first(state)..first(state + 1)
    }

    /// The rules by their numbers.
    #[inline(always)]
    pub fn rules(&self) -> &Rules {
        self.numbers[RULES_FROM..GRID_FROM]
            .try_into()
            .expect("512 numbers")
    }

    /// What is kept for a rule.
    #[inline(always)]
    pub fn kept_of(&self, rule: usize) -> u64 {
        let key = self.rules()[rule % 512] >> 17 & 4095;
        self.numbers[GRID_FROM + key as usize]
    }

    /// What is kept for a state and each symbol.
    #[inline(always)]
    pub fn row(&self, state: usize) -> &[u64; 64] {
        let from = GRID_FROM + state % 64 * 64;
        self.numbers[from..from + 64]
            .try_into()
            .expect("64 numbers")
    }
}
