//! What was compared, and where the answers differ.

use std::fmt::{Debug, Write};

/// The exported calls.
#[derive(Clone, Copy, Debug)]
pub enum Call {
    Word,
    Find,
    Judge,
    JudgeOpened,
    Form,
    Compare,
    Open,
    RecordWord,
    RecordTree,
    TreeRecord,
    RecordWordOpened,
    RecordTreeOpened,
    TreeRecordOpened,
    /// The calls on arrays that no `open` wrote.
    FindDamaged,
    JudgeDamaged,
    RecordWordDamaged,
    RecordTreeDamaged,
    TreeRecordDamaged,
}

const NAMES: [&str; 18] = [
    "word",
    "find",
    "judge",
    "judge_opened",
    "form",
    "compare",
    "open",
    "record_word",
    "record_tree",
    "tree_record",
    "record_word_opened",
    "record_tree_opened",
    "tree_record_opened",
    "find by damaged arrays",
    "judge_opened of damaged arrays",
    "record_word_opened by damaged arrays",
    "record_tree_opened by damaged arrays",
    "tree_record_opened by damaged arrays",
];

const SHOWN: usize = 10;

/// How often a call was tried: inputs, and how often it answered with each number (an input is
/// tried in several rooms).
#[derive(Clone, Copy)]
struct Count {
    inputs: usize,
    answers: [usize; 256],
}

impl Count {
    const NONE: Count = Count {
        inputs: 0,
        answers: [0; 256],
    };

    fn calls(&self) -> usize {
        self.answers.iter().sum()
    }

    /// The numbers that were answered, and how often each.
    fn numbers(&self) -> String {
        let given = self
            .answers
            .iter()
            .enumerate()
            .filter(|(_, count)| **count > 0);
        let said = given.map(|(number, count)| match number {
            0 => format!("yes {count}"),
            _ => format!("no {number}: {count}"),
        });
        said.collect::<Vec<_>>().join(", ")
    }
}

pub struct Report {
    counts: [Count; NAMES.len()],
    differences: usize,
    first: Vec<String>,
}

impl Report {
    pub fn new() -> Report {
        Report {
            counts: [Count::NONE; NAMES.len()],
            differences: 0,
            first: Vec::new(),
        }
    }

    pub fn input(&mut self, call: Call) {
        self.counts[call as usize].inputs += 1;
    }

    /// One call: what it answered, what the second program says, and what is wrong with the bytes.
    pub fn call<A: PartialEq + Debug>(
        &mut self,
        call: Call,
        mine: (u8, A),
        theirs: (u8, A),
        bytes: Result<(), &str>,
        case: impl FnOnce() -> String,
    ) {
        self.answered(call, mine.0);
        if mine == theirs && bytes.is_ok() {
            return;
        }
        let wrong = bytes.err().unwrap_or("the bytes agree");
        self.differs(|| {
            format!(
                "{} differs, {}: answered {mine:?}, the second program {theirs:?}; {wrong}",
                NAMES[call as usize],
                case()
            )
        });
    }

    /// One call that is compared with nothing: its number, and what is wrong.
    pub fn alone(
        &mut self,
        call: Call,
        number: u8,
        wrong: Result<(), &str>,
        case: impl FnOnce() -> String,
    ) {
        self.answered(call, number);
        if let Err(wrong) = wrong {
            self.differs(|| {
                let name = NAMES[call as usize];
                format!("{name}, {}: answered {number}; {wrong}", case())
            });
        }
    }

    /// What the second program answered, where the answer can be said without it.
    pub fn said<A: PartialEq + Debug>(
        &mut self,
        theirs: A,
        said: A,
        case: impl FnOnce() -> String,
    ) {
        if theirs != said {
            self.differs(|| {
                let case = case();
                format!("the second program, {case}: answered {theirs:?}, due is {said:?}")
            });
        }
    }

    fn answered(&mut self, call: Call, number: u8) {
        self.counts[call as usize].answers[usize::from(number)] += 1;
    }

    fn differs(&mut self, told: impl FnOnce() -> String) {
        self.differences += 1;
        if self.first.len() < SHOWN {
            self.first.push(told());
        }
    }

    pub fn differences(&self) -> usize {
        self.differences
    }

    pub fn shown(&self) -> String {
        let mut text = String::new();
        for (name, count) in NAMES.iter().zip(&self.counts) {
            let (inputs, calls, numbers) = (count.inputs, count.calls(), count.numbers());
            let _ = writeln!(text, "{name}: {inputs} cases, {calls} calls ({numbers})");
        }
        for difference in &self.first {
            let _ = writeln!(text, "{difference}");
        }
        let inputs: usize = self.counts.iter().map(|count| count.inputs).sum();
        let calls: usize = self.counts.iter().map(Count::calls).sum();
        let _ = writeln!(
            text,
            "{inputs} cases, {calls} calls, {} differences",
            self.differences
        );
        text
    }
}

#[cfg(test)]
mod tests {
    use super::*;

    #[test]
    fn every_difference_counts() {
        let mut report = Report::new();
        let name = || "case".to_string();
        report.call(Call::Word, (0, [3, 1]), (0, [3, 1]), Ok(()), name);
        assert_eq!(report.differences(), 0);
        report.call(Call::Word, (0, [3, 1]), (0, [3, 2]), Ok(()), name);
        report.call(Call::Word, (12, [3, 0]), (9, [3, 0]), Ok(()), name);
        report.call(Call::Form, (0, 3), (0, 3), Err("bytes"), name);
        assert_eq!(report.differences(), 3);
        report.alone(Call::FindDamaged, 0, Ok(()), name);
        assert_eq!(report.differences(), 3);
        report.alone(Call::FindDamaged, 20, Err("bytes"), name);
        assert_eq!(report.differences(), 4);
        report.said(Some(9), Some(9), name);
        assert_eq!(report.differences(), 4);
        report.said(Some(9), None, name);
        assert!(report
            .shown()
            .contains("word: 0 cases, 3 calls (yes 2, no 12: 1)"));
        assert!(report.shown().ends_with("6 calls, 5 differences\n"));
    }
}
