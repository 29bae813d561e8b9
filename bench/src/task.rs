//! One piece of work, done by several hands.
//!
//! `proved` is the proved call; `plain` is plain Rust, the second program's or close to it; `tuned`
//! is the same method in tuned safe Rust; `best` is the fastest safe Rust found, by another method.
//! `second` is the second program. For scale: `memcpy` and `bytes` copy the outputs, at once and one
//! byte after the other, and `spelled` is the proved word call on trees that are spelled out already.

use std::hint::black_box;
use std::sync::OnceLock;
use std::time::Instant;

pub type Work = Box<dyn FnMut()>;

/// A piece of work: `units` of `unit` each time it is done. The first hand is the proved call.
pub struct Task {
    pub name: String,
    pub unit: &'static str,
    pub units: usize,
    pub hands: Vec<(&'static str, Work)>,
}

/// A hand whose answers are dropped.
pub fn hand<T>(name: &'static str, mut work: impl FnMut() -> T + 'static) -> (&'static str, Work) {
    (name, Box::new(move || drop(black_box(work()))))
}

/// What a run is for, if not for the times of all tasks: one task, or all without checks.
pub enum Want {
    Only(String),
    Unchecked,
}

static WANT: OnceLock<Want> = OnceLock::new();

pub fn want(want: Want) {
    WANT.set(want).ok();
}

/// Whether a task needs to be made.
pub fn wanted(name: &str) -> bool {
    !matches!(WANT.get(), Some(Want::Only(only)) if only != name)
}

/// Whether the hands' answers are to be compared: not where instructions are counted.
pub fn checking() -> bool {
    WANT.get().is_none()
}

/// How often the hands take turns: as often as fits a second, but so many times at least and at
/// most.
const ROUNDS: (usize, usize) = (21, 201);
const TASK_NANOSECONDS: u128 = 1_000_000_000;
const ROUND_NANOSECONDS: u128 = 300_000;

/// How often the work is done in a round, so that a round takes at least 300 microseconds; and the
/// nanoseconds of a round.
fn repeats(work: &mut Work) -> (usize, u128) {
    let mut count = 1;
    loop {
        let start = Instant::now();
        (0..count).for_each(|_| work());
        let taken = start.elapsed().as_nanos();
        if taken >= ROUND_NANOSECONDS {
            return (count, taken);
        }
        count *= 2;
    }
}

fn median(mut times: Vec<f64>) -> f64 {
    times.sort_by(f64::total_cmp);
    times[times.len() / 2]
}

/// The median nanoseconds of each hand, measured in turn round after round.
pub fn medians(task: &mut Task) -> Vec<f64> {
    let counts: Vec<(usize, u128)> = task
        .hands
        .iter_mut()
        .map(|(_, work)| repeats(work))
        .collect();
    let round: u128 = counts.iter().map(|(_, taken)| taken).sum();
    let rounds = ((TASK_NANOSECONDS / round) as usize).clamp(ROUNDS.0, ROUNDS.1);
    let mut times = vec![Vec::with_capacity(rounds); task.hands.len()];
    for _ in 0..rounds {
        for ((_, work), (&(count, _), times)) in
            task.hands.iter_mut().zip(counts.iter().zip(&mut times))
        {
            let start = Instant::now();
            (0..count).for_each(|_| work());
            times.push(start.elapsed().as_nanos() as f64 / count as f64);
        }
    }
    times.into_iter().map(median).collect()
}
