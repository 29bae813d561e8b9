//! The calls on opened tables, with arrays that no `open` wrote. Whatever stands in them, a call comes
//! to an end soon, answers one of the numbers with every entry of its answer, and writes to nothing but
//! the room, the plan and the answer.

mod records;

use std::time::Duration;

use fadurinko::limit::{LONGEST, SYMBOLS, TREE};
use fadurinko_second::rng::Rng;

use crate::answer::{is_whole, Told};
use crate::layout::{field, GRID_FROM, KIDS_FROM, RULES_FROM, STATES_FROM};
use crate::made_up::Kind;
use crate::opened::Arrays;
use crate::report::{Call, Report};
use crate::room::Rooms;
use crate::scratch::Scratch;
use crate::watch::Watch;
use records::Generated;

/// At most so many damaged tables are tried, whatever the count is.
pub const MOST: usize = 4_000;

/// The last number that a word or a judgement is refused with.
const LAST_NUMBER: u8 = 19;

pub struct Damaged {
    seed: u64,
    arrays: Arrays,
    before: Arrays,
    scratch: Scratch,
    watch: Watch,
    record_watch: Watch,
    generated: Generated,
}

impl Damaged {
    pub fn new(seed: u64) -> Damaged {
        Damaged {
            seed,
            arrays: Arrays::blank(),
            before: Arrays::blank(),
            scratch: Scratch::new(&mut Rng::new(seed)),
            watch: Watch::new(),
            record_watch: Watch::new(),
            generated: Generated::default(),
        }
    }

    /// The longest time of a call on trees or tables, and of one on records.
    pub fn slowest(&self) -> [Duration; 2] {
        [self.watch.slowest(), self.record_watch.slowest()]
    }

    pub fn next(&mut self, index: usize, rooms: &mut Rooms, report: &mut Report) {
        let mut rng = Rng::for_case(self.seed ^ 0x6461_6d61_6765, index);
        let kind = Kind::of(index);
        let mut trees = self.arrays.make(kind, self.seed, index, &mut rng);
        self.before.copy_from(&self.arrays);
        if rng.percent(30) {
            self.scratch.make_noise(&mut rng);
        }
        let name = format!("seed {}, damaged {index} ({kind:?})", self.seed);
        report.input(Call::JudgeDamaged);
        self.judge(&name, report);
        trees.extend([false, true].map(|by_frames| self.led(&mut rng, by_frames)));
        report.input(Call::FindDamaged);
        for (line, tree) in trees.iter().enumerate() {
            let length = room_length(&mut rng);
            let name = format!("{name}, tree {line}, room {length}");
            self.find(tree, length, name, rooms, report);
        }
    }

    /// A tree that the rules lead through.
    fn led(&self, rng: &mut Rng, by_frames: bool) -> Vec<u8> {
        let most = if rng.percent(4) {
            TREE
        } else {
            rng.between(1, 120)
        };
        let way = Way {
            from: self.arrays.numbers[2] as usize,
            most,
            end: TREE,
            by_frames,
        };
        led(&self.arrays, way, rng)
    }

    fn judge(&mut self, name: &str, report: &mut Report) {
        let arrays = &self.arrays;
        let told = self
            .watch
            .timed(format!("judge_opened, {name}"), || arrays.judge());
        report.alone(
            Call::JudgeDamaged,
            told.0,
            self.wrong(told, LAST_NUMBER),
            || name.to_string(),
        );
    }

    fn find(
        &mut self,
        tree: &[u8],
        length: usize,
        name: String,
        rooms: &mut Rooms,
        report: &mut Report,
    ) {
        let (arrays, scratch) = (&self.arrays, &mut self.scratch);
        let room = rooms.lend(length);
        let told = self
            .watch
            .timed(format!("find, {name}"), || arrays.find(tree, scratch, room));
        let wrong = self.wrong(told, LAST_NUMBER).and(rooms.holds_outside());
        report.alone(Call::FindDamaged, told.0, wrong, || name);
    }

    /// What is wrong with an answer and with what is lent besides the room.
    fn wrong(&self, told: Told, last_number: u8) -> Result<(), &'static str> {
        if told.0 > last_number {
            Err("there is no such number")
        } else if !is_whole(told) {
            Err("an entry of the answer is not 0")
        } else if self.arrays != self.before {
            Err("a call changed the opened table")
        } else {
            self.scratch.holds_outside()
        }
    }
}

fn room_length(rng: &mut Rng) -> usize {
    match rng.below(20) {
        0 => LONGEST,
        1 => 0,
        2..=9 => rng.below(2_000),
        _ => rng.below(60_000),
    }
}

impl Arrays {
    /// What is kept for a state and a symbol.
    fn kept(&self, state: usize, symbol: usize) -> u64 {
        self.numbers[GRID_FROM + state % 64 * SYMBOLS + symbol]
    }

    fn behind(&self, at: usize) -> usize {
        at + 1 + usize::from(self.frames.get(at).copied().unwrap_or(0))
    }

    /// The states of a rule's children, the last first: as is kept, or as the frames say.
    fn children(&self, kept: u64, by_frames: bool) -> Vec<usize> {
        let kids = field(kept, KIDS_FROM, 3);
        if !by_frames {
            let [first, later @ ..] = STATES_FROM.map(|bit| field(kept, bit, 6));
            let more = kids.saturating_sub(1);
            let states = later.into_iter().cycle().take(more).chain([first]);
            return states.take(kids).collect();
        }
        let rule = self.numbers[RULES_FROM + field(kept, 9, 9)];
        let mut at = self.behind(field(rule, 0, 14));
        let mut states = Vec::new();
        for _ in 0..kids {
            states.push(usize::from(self.frames.get(at).copied().unwrap_or(0)));
            at = self.behind(at + 1);
        }
        states.reverse();
        states
    }
}

/// How the rules lead: from a state on, to about so many symbols at most where there are leaves enough, and
/// where not to this end; by the states in the frames or in the numbers.
struct Way {
    from: usize,
    most: usize,
    end: usize,
    by_frames: bool,
}

/// A tree that the rules lead through.
fn led(arrays: &Arrays, way: Way, rng: &mut Rng) -> Vec<u8> {
    let mut tree = Vec::new();
    let mut waiting = vec![(way.from, 1)];
    while let Some((state, level)) = waiting.pop() {
        let is_full = level >= 62 || waiting.len() > 180 || tree.len() + waiting.len() >= way.most;
        let symbol = symbol(arrays, state, is_full || rng.percent(15), rng);
        tree.push(symbol as u8);
        if tree.len() > way.end {
            break;
        }
        let states = arrays.children(arrays.kept(state, symbol), way.by_frames);
        waiting.extend(states.into_iter().map(|state| (state, level + 1)));
    }
    tree
}

/// A symbol with a rule for the state, if there is one: a leaf or another, as asked for, if there is one
/// of them.
fn symbol(arrays: &Arrays, state: usize, is_leaf: bool, rng: &mut Rng) -> usize {
    let mut symbols: [usize; SYMBOLS] = std::array::from_fn(|symbol| symbol);
    let start = rng.below(SYMBOLS);
    symbols.rotate_left(start);
    let kept = |symbol: &&usize| arrays.kept(state, **symbol);
    let with_rule = || symbols.iter().filter(|symbol| kept(symbol) != 0);
    let asked_for = with_rule().find(|symbol| (field(kept(symbol), KIDS_FROM, 3) == 0) == is_leaf);
    *asked_for.or(with_rule().next()).unwrap_or(&start)
}

#[cfg(test)]
mod tests {
    use super::*;

    #[test]
    fn children_are_read_as_opening_writes_them() {
        let mut arrays = Arrays::blank();
        let mut rng = Rng::new(1);
        let mut parents = 0;
        for index in 0..20 {
            arrays.open_any(1, index, &mut rng);
            let states = arrays.numbers[1] as usize;
            let kept = &arrays.numbers[GRID_FROM..GRID_FROM + SYMBOLS * states];
            for kept in kept.iter().filter(|kept| **kept != 0) {
                let states = arrays.children(*kept, false);
                assert_eq!(states, arrays.children(*kept, true));
                parents += usize::from(!states.is_empty());
            }
        }
        assert!(parents > 0);
    }
}
