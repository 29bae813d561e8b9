//! Generated tables, each with records (their words and trees) and with trees (their records).

use std::vec::IntoIter;

use fadurinko_second::gen::records;

use crate::record_calls::RecordCalls;
use crate::report::Report;
use crate::room::Rooms;

/// The table of the last index that was taken, and its records and trees that are left.
pub struct Records {
    seed: u64,
    index: Option<usize>,
    calls: RecordCalls,
    records: IntoIter<Vec<u8>>,
    trees: IntoIter<Vec<u8>>,
}

impl Records {
    pub fn new(seed: u64) -> Records {
        Records {
            seed,
            index: None,
            calls: RecordCalls::new(seed),
            records: Vec::new().into_iter(),
            trees: Vec::new().into_iter(),
        }
    }

    /// The next record and the next tree; a new table where the last one's are used up.
    pub fn next(&mut self, rooms: &mut Rooms, report: &mut Report) {
        if self.records.len() == 0 && self.trees.len() == 0 {
            self.take_table(report);
        }
        let case = self.name();
        let left = self.records.len();
        if let Some(record) = self.records.next() {
            let name = || format!("{case}, record {left} from behind");
            self.calls.record(&record, rooms, report, name);
        }
        let left = self.trees.len();
        if let Some(tree) = self.trees.next() {
            let name = || format!("{case}, tree {left} from behind");
            self.calls.tree(&tree, rooms, report, name);
        }
    }

    fn take_table(&mut self, report: &mut Report) {
        let index = self.index.map_or(0, |index| index + 1);
        self.index = Some(index);
        let case = records::case(self.seed, index);
        self.records = case.streams().into_iter();
        self.trees = case.trees().into_iter();
        let name = self.name();
        self.calls.take(case.table, report, || name);
    }

    fn name(&self) -> String {
        let index = self.index.unwrap_or_default();
        format!("seed {}, records {index}", self.seed)
    }
}
