//! A table text and a tree (word), and the same with the table opened once (find).

use fadurinko::lent;
use fadurinko_second::gen::trees;
use fadurinko_second::hex;
use fadurinko_second::refusal::Refusal;
use fadurinko_second::table::{self, Table};
use fadurinko_second::walk::Walker;

use crate::answer::{due, in_a_room, told, Output};
use crate::opened::Opened;
use crate::report::{Call, Report};
use crate::room::Rooms;

/// A generated table and its trees, of which the next one is at `line`.
struct Case {
    seed: u64,
    index: usize,
    text: Vec<u8>,
    table: Result<Table, Refusal>,
    trees: Vec<Vec<u8>>,
    line: usize,
}

impl Case {
    fn new(seed: u64, index: usize) -> Case {
        let case = trees::case(seed, index);
        let closed = case.lines.strip_suffix(b"\n").unwrap_or(&case.lines);
        let lines = closed.split(|&byte| byte == b'\n');
        Case {
            seed,
            index,
            table: table::read(&case.table),
            text: case.table,
            // A line that is not hexadecimal stands for itself.
            trees: lines
                .map(|line| hex::decode(line).unwrap_or(line.to_vec()))
                .collect(),
            line: 0,
        }
    }

    fn name(&self) -> String {
        format!(
            "seed {}, trees {}, line {}",
            self.seed, self.index, self.line
        )
    }
}

pub struct Trees {
    opened: Opened,
    case: Case,
    word: Vec<u8>,
}

impl Trees {
    pub fn new(seed: u64) -> Trees {
        Trees {
            opened: Opened::new(seed),
            case: Case::new(seed, 0),
            word: Vec::new(),
        }
    }

    /// The next tree; a new table where the last one's trees are used up.
    pub fn next(&mut self, rooms: &mut Rooms, report: &mut Report) {
        if self.case.line == self.case.trees.len() {
            self.case = Case::new(self.case.seed, self.case.index + 1);
        }
        if self.case.line == 0 {
            self.open(report);
        }
        let mut word = std::mem::take(&mut self.word);
        let found = match &self.case.table {
            Ok(table) => Walker::new(table).word(&self.case.trees[self.case.line], &mut word),
            Err(refusal) => Err(*refusal),
        };
        let output = found.map(|found| (&word[..], found.terms));
        report.input(Call::Word);
        if self.case.table.is_ok() {
            report.input(Call::Find);
        }
        for length in rooms.lengths_for(output) {
            self.in_a_room(length, output, rooms, report);
        }
        self.word = word;
        self.case.line += 1;
    }

    fn open(&mut self, report: &mut Report) {
        let case = &self.case;
        let (mine, arrays) = self.opened.open(&case.text, &case.table);
        report.input(Call::Open);
        report.call(Call::Open, mine, due(&case.table), arrays, || case.name());
    }

    fn in_a_room(
        &mut self,
        length: usize,
        output: Output<'_>,
        rooms: &mut Rooms,
        report: &mut Report,
    ) {
        let case = &self.case;
        let tree = &case.trees[case.line];
        let (theirs, written) = in_a_room(output, length);
        let name = || format!("{}, room {length}", case.name());

        let mine = told(|answer| lent::word(&case.text, tree, rooms.lend(length), answer));
        report.call(Call::Word, mine, theirs, rooms.holds(written), name);

        if case.table.is_ok() {
            let mine = self.opened.find(tree, rooms.lend(length));
            let bytes = rooms.holds(written).and(self.opened.is_as_opened());
            report.call(Call::Find, mine, theirs, bytes, name);
        }
    }
}
