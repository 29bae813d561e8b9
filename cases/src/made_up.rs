//! Arrays that no `open` wrote: random ones, ones that lead on to places anywhere, and opened tables with
//! some numbers or bytes changed.

use fadurinko::limit::{FRAMES, NUMBERS, RULES, STATES, SYMBOLS};
use fadurinko_second::gen::trees;
use fadurinko_second::hex;
use fadurinko_second::rng::Rng;

use crate::layout::{listed, Kept, FIRSTS_FROM, GRID_FROM, KIDS_FROM, RULES_FROM};
use crate::opened::Arrays;

/// How the arrays of a case come about.
#[derive(Clone, Copy, Debug)]
pub enum Kind {
    /// A child that cannot be gone on with, below a root with more of them.
    Stopped,
    /// Each pass of the judgement over the rules tells one state more.
    Rounds,
    /// Random numbers.
    Noise,
    /// Rules that lead on, to places anywhere in random frames.
    MadeUp,
    /// The same, with the arities in the frames, and states in the frames that are other ones than
    /// those in the numbers.
    TwoWays,
    /// An opened table with some of its numbers or bytes changed: what is kept for states and symbols,
    /// the rules, the states' first rules, the head, the frames, or all of them.
    Grid,
    Rules,
    Firsts,
    Head,
    Frames,
    All,
}

const KINDS: [Kind; 9] = [
    Kind::Noise,
    Kind::MadeUp,
    Kind::TwoWays,
    Kind::Grid,
    Kind::Rules,
    Kind::Firsts,
    Kind::Head,
    Kind::Frames,
    Kind::All,
];

impl Kind {
    /// The kind of a case; the first two are tried once.
    pub fn of(index: usize) -> Kind {
        match index {
            0 => Kind::Stopped,
            1 => Kind::Rounds,
            _ => KINDS[index % KINDS.len()],
        }
    }
}

/// The last place in the frames where a rule can stand.
const LAST_PLACE: usize = 16_383;
/// How many of the numbers are the states' first rules, and what is kept.
const FIRSTS: usize = STATES + 1;
const GRID: usize = STATES * SYMBOLS;

/// A count or a place that no opened table has, or one that it could have.
fn count(rng: &mut Rng) -> u64 {
    let count = match rng.below(5) {
        0 => usize::MAX - rng.below(3),
        1 => 1 << rng.below(64),
        2 => rng.below(FRAMES + 300),
        3 => rng.below(600),
        _ => rng.below(65),
    };
    count as u64
}

fn any(rng: &mut Rng) -> u64 {
    rng.below(usize::MAX) as u64
}

/// A place in the frames: anywhere, or where they end.
fn place(rng: &mut Rng) -> usize {
    if rng.percent(50) {
        LAST_PLACE - rng.below(40)
    } else {
        rng.between(200, LAST_PLACE)
    }
}

fn kept(kids: usize, states: usize, rng: &mut Rng) -> u64 {
    let kept = Kept {
        letters: rng.below(256),
        rule: rng.below(RULES),
        states: [(); 4].map(|()| rng.below(states)),
        kids,
    };
    kept.number()
}

fn rule(states: usize, rng: &mut Rng) -> u64 {
    listed(place(rng), rng.below(SYMBOLS), rng.below(states))
}

/// A number with another one of its bits.
fn flipped(number: u64, rng: &mut Rng) -> u64 {
    number ^ (1 << rng.below(64))
}

fn changed_kept(old: u64, rng: &mut Rng) -> u64 {
    let kids = rng.below(8);
    match rng.below(4) {
        0 => any(rng),
        1 => old % (1 << KIDS_FROM) + ((kids as u64) << KIDS_FROM),
        2 => flipped(old, rng),
        _ => kept(kids, STATES, rng),
    }
}

fn changed_rule(old: u64, rng: &mut Rng) -> u64 {
    match rng.below(4) {
        0 => any(rng),
        1 => old - old % (1 << 14) + place(rng) as u64,
        2 => flipped(old, rng),
        _ => rule(STATES, rng),
    }
}

/// How many changes are made.
fn changes(rng: &mut Rng) -> usize {
    *rng.pick(&[1, 2, 10, 100, 1_000])
}

impl Arrays {
    pub fn blank() -> Arrays {
        Arrays {
            frames: Box::new([0; FRAMES]),
            numbers: Box::new([0; NUMBERS]),
        }
    }

    /// Makes the arrays of a case; trees that suit them.
    pub fn make(&mut self, kind: Kind, seed: u64, index: usize, rng: &mut Rng) -> Vec<Vec<u8>> {
        match kind {
            Kind::Stopped => return vec![self.stop()],
            Kind::Rounds => self.slow_down(),
            Kind::Noise => self.fill(rng),
            Kind::MadeUp => self.make_up(rng),
            Kind::TwoWays => self.make_up_two_ways(rng),
            _ => {
                let trees = self.open_any(seed, index, rng);
                self.damage(kind, rng);
                return trees;
            }
        }
        let length = rng.below(200);
        let symbols = rng.between(1, 256);
        vec![(0..length).map(|_| rng.below(symbols) as u8).collect()]
    }

    fn put_head(&mut self, symbols: usize, states: usize, rules: usize) {
        let head = [symbols, states, 0, rules].map(|number| number as u64);
        self.numbers[..4].copy_from_slice(&head);
    }

    fn put_rule(&mut self, state: usize, symbol: usize, place: usize, kept: &Kept) {
        self.numbers[RULES_FROM + kept.rule] = listed(place, symbol, state);
        self.numbers[GRID_FROM + SYMBOLS * state + symbol] = kept.number();
    }

    /// A root with three children, of which the first is at the end of the frames: with the word
    /// behind its first child it runs out of them. Its tree.
    fn stop(&mut self) -> Vec<u8> {
        *self = Arrays::blank();
        self.frames[LAST_PLACE] = 255;
        self.put_head(3, 1, 3);
        self.numbers[FIRSTS_FROM + 1] = 3;
        for (rule, (kids, place)) in [(3, 300), (2, LAST_PLACE), (0, 300)]
            .into_iter()
            .enumerate()
        {
            let kept = Kept {
                rule,
                kids,
                ..Kept::default()
            };
            self.put_rule(0, rule, place, &kept);
        }
        vec![0, 1, 2, 2, 2, 2]
    }

    /// All states are below state 0, which alone has leaves, with the words a and b. Every rule of
    /// another state has seven children, of which the last is the state before: passes go from the last
    /// state down, so each finds out about one state more.
    fn slow_down(&mut self) {
        *self = Arrays::blank();
        let mut rules = self.lead_to_all_states();
        for state in 1..STATES {
            self.numbers[FIRSTS_FROM + state] = rules as u64;
            let place = 200 + 20 * state;
            // An empty word, and for each child its state and an empty word.
            self.frames[place + 13] = state as u8 - 1;
            for symbol in 0..7 {
                let kept = Kept {
                    rule: rules,
                    states: [0, state - 1, 0, 0],
                    kids: 7,
                    letters: 0,
                };
                self.put_rule(state, symbol, place, &kept);
                rules += 1;
            }
        }
        self.numbers[FIRSTS_FROM + STATES] = rules as u64;
        self.put_head(SYMBOLS, STATES, rules);
    }

    /// The rules of state 0: four states below each, and the leaves. Their number.
    fn lead_to_all_states(&mut self) -> usize {
        const WORDS: usize = 15_000;
        for symbol in 0..16 {
            let place = 4_000 + 20 * symbol;
            let child = |child: usize| (4 * symbol + child + 1) % STATES;
            for at in 0..4 {
                self.frames[place + 1 + 2 * at] = child(at) as u8;
            }
            let kept = Kept {
                rule: symbol,
                states: [0, 3, 2, 1].map(child),
                kids: 4,
                letters: 0,
            };
            self.put_rule(0, symbol, place, &kept);
        }
        self.frames[WORDS..WORDS + 4].copy_from_slice(&[1, b'a', 1, b'b']);
        for (rule, place, letters) in [(16, WORDS, 1), (17, WORDS + 2, 1), (18, WORDS + 4, 0)] {
            let kept = Kept {
                rule,
                letters,
                ..Kept::default()
            };
            self.put_rule(0, rule, place, &kept);
        }
        19
    }

    fn fill(&mut self, rng: &mut Rng) {
        self.frames.fill_with(|| rng.byte());
        self.numbers.fill_with(|| any(rng));
        if rng.percent(50) {
            self.numbers[..RULES_FROM].fill_with(|| count(rng));
        }
    }

    /// Frames with words of any length up to a bound, and a length that leads past the end here and
    /// there.
    fn make_up_frames(&mut self, rng: &mut Rng) {
        let bound = *rng.pick(&[1, 2, 4, 34, 256]);
        self.frames.fill_with(|| rng.below(bound) as u8);
        for _ in 0..rng.below(60) {
            let at = if rng.percent(50) {
                place(rng)
            } else {
                rng.between(16_300, FRAMES - 1)
            };
            self.frames[at] = rng.byte_between(32, 255);
        }
    }

    fn make_up_head(&mut self, states: usize, rng: &mut Rng) {
        self.numbers[..FIRSTS_FROM].fill_with(|| count(rng));
        self.numbers[2] = rng.below(states) as u64;
        for (at, most) in [(0, SYMBOLS), (1, states), (3, RULES)] {
            if rng.percent(70) {
                self.numbers[at] = most as u64;
            }
        }
    }

    /// Rules at places anywhere: those of each state one after the other, or in no order, with any
    /// numbers for the states' first rules.
    fn make_up_rules(&mut self, states: usize, rng: &mut Rng) {
        let is_ordered = rng.percent(60);
        let firsts = FIRSTS_FROM..FIRSTS_FROM + FIRSTS;
        self.numbers[firsts].fill_with(|| count(rng));
        self.numbers[RULES_FROM..GRID_FROM].fill_with(|| rule(states, rng));
        if is_ordered {
            for state in 0..=states {
                self.numbers[FIRSTS_FROM + state] = (state * RULES / states) as u64;
            }
            for state in 0..states {
                for number in state * RULES / states..(state + 1) * RULES / states {
                    let rule = listed(place(rng), rng.below(SYMBOLS), state);
                    self.numbers[RULES_FROM + number] = rule;
                }
            }
        }
    }

    fn make_up(&mut self, rng: &mut Rng) {
        self.make_up_frames(rng);
        let states = rng.between(1, STATES);
        self.make_up_head(states, rng);
        self.make_up_rules(states, rng);
        let percent = rng.between(20, 100);
        let most = *rng.pick(&[1, 2, 3, 4, 7]);
        self.numbers[GRID_FROM..].fill_with(|| {
            if !rng.percent(percent) {
                return 0;
            }
            let kids = if rng.percent(40) {
                0
            } else {
                rng.between(1, most)
            };
            kept(kids, states, rng)
        });
    }

    fn make_up_two_ways(&mut self, rng: &mut Rng) {
        self.make_up_frames(rng);
        let states = rng.between(1, 40);
        self.make_up_head(states, rng);
        self.make_up_rules(states, rng);
        let arities = [(); SYMBOLS].map(|()| rng.below(8).saturating_sub(3));
        for (symbol, arity) in arities.iter().enumerate() {
            self.frames[2 * symbol + 1] = *arity as u8;
        }
        for (i, number) in self.numbers[GRID_FROM..].iter_mut().enumerate() {
            let (state, symbol) = (i / SYMBOLS, i % SYMBOLS);
            *number = if state < states {
                kept(arities[symbol], STATES, rng)
            } else {
                0
            };
        }
    }

    /// Opens one of the generated tables; some of its trees.
    pub fn open_any(&mut self, seed: u64, index: usize, rng: &mut Rng) -> Vec<Vec<u8>> {
        let mut index = index;
        loop {
            let case = trees::case(seed, index);
            if self.open(&case.table).0 == 0 {
                let lines = case.lines.split(|&byte| byte == b'\n');
                let mut trees: Vec<Vec<u8>> = lines.filter_map(hex::decode).collect();
                rng.shuffle(&mut trees);
                trees.truncate(3);
                return trees;
            }
            index += 1;
        }
    }

    pub fn damage(&mut self, kind: Kind, rng: &mut Rng) {
        if matches!(kind, Kind::Grid | Kind::All) {
            self.damage_numbers(GRID_FROM, GRID, changed_kept, rng);
        }
        if matches!(kind, Kind::Rules | Kind::All) {
            self.damage_numbers(RULES_FROM, RULES, changed_rule, rng);
        }
        if matches!(kind, Kind::Firsts | Kind::All) {
            self.damage_numbers(FIRSTS_FROM, FIRSTS, |_, rng| count(rng), rng);
        }
        if matches!(kind, Kind::Head | Kind::All) {
            self.damage_numbers(0, FIRSTS_FROM, |_, rng| count(rng), rng);
        }
        if matches!(kind, Kind::Frames | Kind::All) {
            for _ in 0..changes(rng) {
                let end = if rng.percent(70) { 600 } else { FRAMES };
                self.frames[rng.below(end)] = rng.byte();
            }
        }
    }

    /// Changes some of so many numbers from one on; the same may be changed again.
    fn damage_numbers(
        &mut self,
        from: usize,
        many: usize,
        changed: impl Fn(u64, &mut Rng) -> u64,
        rng: &mut Rng,
    ) {
        for _ in 0..changes(rng) {
            let at = from + rng.below(many);
            self.numbers[at] = changed(self.numbers[at], rng);
        }
    }
}
