//! `cases SEED COUNT` compares the exported calls with the second program on COUNT table texts, COUNT
//! trees, COUNT pairs of texts and about COUNT records and trees to be written back: numbers, every entry
//! of an answer, every byte of the room and the bytes on both sides of it, every byte and number of an
//! opened table. Twice up to 4,000 tables, the second time for records, are damaged or made up besides:
//! the calls on them must come to an end in time and write only where they may. Records at the edges of
//! what is answered are tried in every run. Exit status 1 if anything differs.

mod answer;
mod asked;
mod damaged;
mod layout;
mod made_records;
mod made_up;
mod named;
mod opened;
mod record_calls;
mod records;
mod report;
mod room;
mod scratch;
mod tables;
mod trees;
mod watch;

use std::process::ExitCode;
use std::time::{Duration, Instant};

use damaged::Damaged;
use records::Records;
use report::Report;
use room::Rooms;
use tables::Tables;
use trees::Trees;

const USAGE: &str = "usage: cases SEED COUNT";

fn main() -> ExitCode {
    let words: Vec<String> = std::env::args().skip(1).collect();
    let [seed, count] = words.as_slice() else {
        eprintln!("{USAGE}");
        return ExitCode::from(2);
    };
    let (Ok(seed), Ok(count)) = (seed.parse(), count.parse::<usize>()) else {
        eprintln!("{USAGE}");
        return ExitCode::from(2);
    };
    println!(
        "seed {seed}: {count} texts, {count} trees, {count} pairs of texts, {count} records, {} damaged tables",
        count.min(damaged::MOST)
    );
    let report = run(seed, count);
    print!("{}", report.shown());
    if report.differences() == 0 {
        ExitCode::SUCCESS
    } else {
        ExitCode::FAILURE
    }
}

fn run(seed: u64, count: usize) -> Report {
    let mut report = Report::new();
    let mut rooms = Rooms::new(seed);
    let mut tables = Tables::new(seed);
    let mut trees = Trees::new(seed);
    let mut records = Records::new(seed);
    let mut damaged = Damaged::new(seed);
    for index in 0..count.min(damaged::MOST) {
        damaged.next(index, &mut rooms, &mut report);
        damaged.next_for_records(index, &mut rooms, &mut report);
    }
    let [slowest, on_records] = damaged.slowest();
    println!(
        "damaged tables: the slowest call took {slowest:?}, the slowest on records {on_records:?}"
    );
    named::run(seed, &mut rooms, &mut report);
    let mut progress = Progress::new(count);
    for index in 0..count {
        tables.text(index, &mut rooms, &mut report);
        tables.pair(index, &mut report);
        trees.next(&mut rooms, &mut report);
        records.next(&mut rooms, &mut report);
        progress.after(index + 1);
    }
    report
}

/// A line on standard error every so often.
struct Progress {
    count: usize,
    start: Instant,
    due: Duration,
}

impl Progress {
    const STEP: Duration = Duration::from_secs(20);

    fn new(count: usize) -> Progress {
        Progress {
            count,
            start: Instant::now(),
            due: Progress::STEP,
        }
    }

    fn after(&mut self, done: usize) {
        let passed = self.start.elapsed();
        if passed >= self.due {
            eprintln!("{done} of {} in {} s", self.count, passed.as_secs());
            self.due = passed + Progress::STEP;
        }
    }
}
