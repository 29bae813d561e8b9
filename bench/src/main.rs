//! `bench` prints what each task takes and its ratios; `bench times` prints the medians for the run
//! script, `bench counted` does each piece of work once for an instruction counter, both for all
//! modules or for the one that is named; `bench counts` prints sweeps and row comparisons, `bench
//! agree` only compares all hands' answers; `bench TASK HAND COUNT` does one piece of work COUNT times.

mod best;
mod compare;
mod counts;
mod form;
mod grow;
mod hands;
mod judge;
mod open;
mod opened;
mod plain;
mod proved;
mod record;
mod shapes;
mod task;
mod tuned;
mod word;

use task::{medians, want, Task, Want, Work};

/// The modules' tasks; a task's name begins with its module's.
const MODULES: &[(&str, fn() -> Vec<Task>)] = &[
    ("open", open::tasks),
    ("word", word::tasks),
    ("judge", judge::tasks),
    ("form", form::tasks),
    ("compare", compare::tasks),
    ("record", record::tasks),
];

/// The beginning of all modules' names.
const ALL: &str = "";

/// The hands whose instructions are counted.
const COUNTED: [&str; 4] = ["proved", "tuned", "spelled", "bytes"];

/// The tasks of the modules whose names begin so.
fn tasks(module: &str) -> impl Iterator<Item = Task> + '_ {
    MODULES
        .iter()
        .filter(move |(name, _)| name.starts_with(module))
        .flat_map(|(_, tasks)| tasks())
}

fn table() {
    for mut task in tasks(ALL) {
        let times = medians(&mut task);
        let per_unit = times[0] / task.units as f64;
        let ratio =
            |((hand, _), time): (&(&str, Work), &f64)| format!("{:.2} of {hand}", times[0] / time);
        let ratios: Vec<String> = task.hands.iter().zip(&times).skip(1).map(ratio).collect();
        println!(
            "{:36} {per_unit:10.2} ns a {:8} {}",
            task.name,
            task.unit,
            ratios.join(", ")
        );
    }
}

/// A line for each task: name, unit, units, and for each hand its name and median nanoseconds.
fn times(module: &str) {
    for mut task in tasks(module) {
        let times = medians(&mut task);
        let hands = task.hands.iter().zip(&times);
        let hands: Vec<String> = hands
            .map(|((hand, _), time)| format!("{hand}\t{time}"))
            .collect();
        println!(
            "{}\t{}\t{}\t{}",
            task.name,
            task.unit,
            task.units,
            hands.join("\t")
        );
    }
}

/// The work that is counted: an instruction counter looks for this function's name.
#[inline(never)]
fn counted_work(work: &mut Work) {
    work();
}

/// Does the work of each task and counted hand, once before it is counted, and says whose it was.
fn counted(module: &str) {
    want(Want::Unchecked);
    for mut task in tasks(module) {
        for (hand, work) in task
            .hands
            .iter_mut()
            .filter(|(hand, _)| COUNTED.contains(hand))
        {
            work();
            counted_work(work);
            println!("{}\t{hand}", task.name);
        }
    }
}

fn repeat(name: &str, hand: &str, count: usize) -> Option<()> {
    let (_, tasks) = MODULES
        .iter()
        .find(|(module, _)| name.starts_with(module))?;
    let mut task = tasks().into_iter().find(|task| task.name == name)?;
    let (_, work) = task.hands.iter_mut().find(|(each, _)| *each == hand)?;
    (0..count).for_each(|_| work());
    Some(())
}

fn main() {
    let words: Vec<String> = std::env::args().skip(1).collect();
    match words
        .iter()
        .map(String::as_str)
        .collect::<Vec<&str>>()
        .as_slice()
    {
        [] => table(),
        ["times"] => times(ALL),
        ["times", module] => times(module),
        ["counts"] => counts::print(),
        // Making a task compares the hands.
        ["agree"] => println!("{} tasks, and all hands agree", tasks(ALL).count()),
        ["counted"] => counted(ALL),
        ["counted", module] => counted(module),
        [name, hand, count] => {
            want(Want::Only(name.to_string()));
            repeat(name, hand, count.parse().expect("COUNT is a number"))
                .expect("no such task or hand");
        }
        _ => eprintln!(
            "usage: bench [times [MODULE] | counted [MODULE] | counts | agree | TASK HAND COUNT]"
        ),
    }
}
