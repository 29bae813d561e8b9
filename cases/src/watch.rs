//! A time limit: a call that goes on for too long ends the process.

use std::sync::{Arc, Mutex, MutexGuard, PoisonError};
use std::thread;
use std::time::{Duration, Instant};

/// A call whose work is linear takes milliseconds, on a busy machine too.
const LIMIT: Duration = Duration::from_secs(5);
/// How often the watch looks.
const PAUSE: Duration = Duration::from_millis(200);

/// A call that is under way: since when, and its name.
struct Running {
    since: Instant,
    name: String,
}

impl Running {
    fn is_overdue(&self, now: Instant) -> bool {
        now.duration_since(self.since) > LIMIT
    }
}

type Current = Arc<Mutex<Option<Running>>>;

fn held(current: &Current) -> MutexGuard<'_, Option<Running>> {
    current.lock().unwrap_or_else(PoisonError::into_inner)
}

pub struct Watch {
    current: Current,
    slowest: Duration,
}

impl Watch {
    pub fn new() -> Watch {
        let current = Current::default();
        let watched = Arc::clone(&current);
        thread::spawn(move || loop {
            thread::sleep(PAUSE);
            let running = held(&watched);
            if let Some(call) = running
                .as_ref()
                .filter(|call| call.is_overdue(Instant::now()))
            {
                println!("{}: not at an end after {LIMIT:?}", call.name);
                std::process::exit(1);
            }
        });
        Watch {
            current,
            slowest: Duration::ZERO,
        }
    }

    /// Does a call under the time limit.
    pub fn timed<A>(&mut self, name: String, call: impl FnOnce() -> A) -> A {
        let since = Instant::now();
        *held(&self.current) = Some(Running { since, name });
        let answer = call();
        *held(&self.current) = None;
        self.slowest = self.slowest.max(since.elapsed());
        answer
    }

    /// The longest time of a call.
    pub fn slowest(&self) -> Duration {
        self.slowest
    }
}

#[cfg(test)]
mod tests {
    use super::*;

    #[test]
    fn a_call_is_overdue_after_the_limit() {
        let since = Instant::now();
        let call = Running {
            since,
            name: String::new(),
        };
        assert!(!call.is_overdue(since + LIMIT));
        assert!(call.is_overdue(since + LIMIT + PAUSE));
    }

    #[test]
    fn the_slowest_call_is_kept() {
        let mut watch = Watch::new();
        let answer = watch.timed(String::new(), || {
            thread::sleep(PAUSE);
            7
        });
        assert_eq!(answer, 7);
        watch.timed(String::new(), || ());
        assert!(watch.slowest() >= PAUSE);
        assert!(held(&watch.current).is_none());
    }
}
