//! The calls on records by opened tables, with arrays that no `open` wrote.

use fadurinko::limit::SYMBOLS;
use fadurinko_second::gen::records;
use fadurinko_second::rng::Rng;
use fadurinko_second::table;

use super::{led, room_length, symbol, Damaged, Way};
use crate::answer::Told;
use crate::asked::Asked;
use crate::made_records::{any, image, siblings, stream};
use crate::made_up::Kind;
use crate::opened::Arrays;
use crate::report::Report;
use crate::room::Rooms;

/// The last number that a record or a tree is refused with.
const LAST_NUMBER: u8 = 24;
/// A generated table is damaged so often, and so many of its records and trees are tried each time.
const OFTEN: usize = 8;
const SOME: usize = 2;

/// Records and trees to try.
#[derive(Default)]
struct Inputs {
    records: Vec<Vec<u8>>,
    trees: Vec<Vec<u8>>,
}

impl Inputs {
    /// Changes a byte here and there.
    fn damage(&mut self, rng: &mut Rng) {
        for input in self.records.iter_mut().chain(&mut self.trees) {
            if rng.percent(15) && !input.is_empty() {
                let at = rng.below(input.len());
                input[at] = rng.byte();
            }
        }
    }
}

/// A generated table for records, which is damaged several times.
#[derive(Default)]
pub struct Generated {
    index: Option<usize>,
    text: Vec<u8>,
    inputs: Inputs,
}

impl Generated {
    /// Takes the table of an index, or where that is refused the next one that is not.
    fn take(&mut self, seed: u64, index: usize) {
        if self.index == Some(index) {
            return;
        }
        let mut cases = (index..).map(|index| records::case(seed, index));
        let readable = cases.find(|case| table::read(&case.table).is_ok());
        let case = readable.expect("most tables can be read");
        self.index = Some(index);
        self.inputs = Inputs {
            records: case.streams(),
            trees: case.trees(),
        };
        self.text = case.table;
    }

    /// Some of its records and trees.
    fn some(&self, rng: &mut Rng) -> Inputs {
        let Inputs { records, trees } = &self.inputs;
        let mut some = |inputs: &[Vec<u8>]| (0..SOME).map(|_| rng.pick(inputs).clone()).collect();
        Inputs {
            records: some(records),
            trees: some(trees),
        }
    }
}

impl Damaged {
    pub fn next_for_records(&mut self, index: usize, rooms: &mut Rooms, report: &mut Report) {
        let mut rng = Rng::for_case(self.seed ^ 0x7265_636f_7264, index);
        let kind = Kind::of(index);
        let inputs = self.inputs(kind, index, &mut rng);
        let table = format!("seed {}, damaged for records {index} ({kind:?})", self.seed);
        for (asked, inputs) in [
            (Asked::Word, &inputs.records),
            (Asked::Tree, &inputs.records),
            (Asked::Record, &inputs.trees),
        ] {
            report.input(asked.calls().damaged);
            for (line, input) in inputs.iter().enumerate() {
                let length = match rng.below(20) {
                    0 => room_length(&mut rng),
                    1 => 0,
                    _ => rng.below(3_000),
                };
                let name = format!("{table}, {asked:?} {line}, room {length}");
                if rng.percent(30) {
                    self.scratch.make_noise(&mut rng);
                }
                self.ask(asked, input, length, name, rooms, report);
            }
        }
    }

    /// Makes the arrays, and what is tried with them: records and trees of a generated table, another record
    /// over the labels that the arrays have, and one that their rules lead through.
    fn inputs(&mut self, kind: Kind, index: usize, rng: &mut Rng) -> Inputs {
        let mut inputs = self.make_for_records(kind, index, rng);
        self.before.copy_from(&self.arrays);
        let last = self.arrays.last_symbol();
        let most = if rng.percent(2) { 16_384 } else { 120 };
        let elements = rng.between(1, most);
        let record = any(last.max(1), elements, rng);
        let tree = self.arrays.led_image(last, rng);
        inputs.trees.push(image(&record, last));
        inputs.records.extend([record, stream(&tree, last)]);
        inputs.trees.push(tree);
        if rng.percent(1) {
            let many = rng.between(16_000, 500_000);
            inputs.records.push(siblings(0, many));
        }
        inputs.damage(rng);
        inputs
    }

    /// Makes the arrays of a case; records and trees of the generated table that was opened, if one was.
    fn make_for_records(&mut self, kind: Kind, index: usize, rng: &mut Rng) -> Inputs {
        match kind {
            Kind::Stopped | Kind::Rounds | Kind::Noise | Kind::MadeUp | Kind::TwoWays => {
                self.arrays.make(kind, self.seed, index, rng);
                let labels = *rng.pick(&[0, 1, 2, 3, 8, 62, 63, 300]);
                self.arrays.list_labels(labels, rng);
                Inputs::default()
            }
            _ => {
                self.generated.take(self.seed, index / OFTEN);
                self.arrays.open(&self.generated.text);
                let last = self.arrays.last_symbol();
                self.arrays.damage(kind, rng);
                if rng.percent(50) {
                    self.arrays.list_labels(last.into(), rng);
                }
                self.generated.some(rng)
            }
        }
    }

    fn ask(
        &mut self,
        asked: Asked,
        input: &[u8],
        length: usize,
        name: String,
        rooms: &mut Rooms,
        report: &mut Report,
    ) {
        let (arrays, scratch) = (&self.arrays, &mut self.scratch);
        let room = rooms.lend(length);
        let told = self.record_watch.timed(name.clone(), || {
            asked.by_arrays(arrays, input, scratch, room)
        });
        let wrong = has_due_terms(asked, told)
            .and(self.wrong(told, LAST_NUMBER))
            .and(rooms.holds_outside());
        report.alone(asked.calls().damaged, told.0, wrong, || name);
    }
}

/// Only a word has terms.
fn has_due_terms(asked: Asked, (_, answer): Told) -> Result<(), &'static str> {
    match asked {
        Asked::Tree | Asked::Record if answer.terms != 0 => Err("there are terms without a word"),
        _ => Ok(()),
    }
}

impl Arrays {
    /// Puts a symbol list for records over what stands there; the number of symbols may stay another.
    fn list_labels(&mut self, labels: usize, rng: &mut Rng) {
        for label in 0..labels {
            self.frames[2 * label + 1] = 2;
        }
        self.frames[2 * labels + 1] = 0;
        if rng.percent(85) {
            self.numbers[0] = labels as u64 + 1;
        }
    }

    /// A root, a tree that the rules lead through from its first child's state on, and the last symbol.
    fn led_image(&self, last: u8, rng: &mut Rng) -> Vec<u8> {
        let (start, by_frames) = (self.numbers[2] as usize, rng.percent(50));
        let root = symbol(self, start, false, rng);
        let states = self.children(self.kept(start, root), by_frames);
        let way = Way {
            from: states.last().copied().unwrap_or(start),
            most: rng.between(1, 120),
            end: 1_000,
            by_frames,
        };
        [&[root as u8], &led(self, way, rng)[..], &[last]].concat()
    }

    /// The last symbol by the number of symbols, of which there are some at most.
    fn last_symbol(&self) -> u8 {
        (self.numbers[0].clamp(1, SYMBOLS as u64) - 1) as u8
    }
}
