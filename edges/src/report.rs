//! How many cases were tried, and which failed.

use std::fmt::Display;

pub struct Report {
    cases: usize,
    failed: usize,
}

impl Report {
    pub fn new() -> Report {
        Report {
            cases: 0,
            failed: 0,
        }
    }

    /// One case: what was wrong with it is printed at once, on one line.
    pub fn case(&mut self, name: impl Display, outcome: Result<(), String>) {
        self.cases += 1;
        if let Err(wrong) = outcome {
            self.failed += 1;
            println!("{name}: {wrong}");
        }
    }

    /// What could not be tried here, and why.
    pub fn not_tried(&self, what: impl Display) {
        println!("not tried: {what}");
    }

    pub fn failed(&self) -> usize {
        self.failed
    }

    pub fn last_line(&self) -> String {
        format!("{} cases, {} failed", self.cases, self.failed)
    }
}

#[cfg(test)]
mod tests {
    use super::*;

    #[test]
    fn every_failure_counts() {
        let mut report = Report::new();
        report.case("good", Ok(()));
        report.case("bad", Err("expected a, seen b".to_string()));
        report.case("bad", Err("expected c, seen d".to_string()));
        assert_eq!(report.failed(), 2);
        assert_eq!(report.last_line(), "3 cases, 2 failed");
    }
}
