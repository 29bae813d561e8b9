//! The programs that answer a line at a time under a table: `word`, and `record` in each mode.

use std::ffi::OsStr;
use std::path::{Path, PathBuf};

use fadurinko_second::rng::Rng;

use crate::lines::Lines;
use crate::run::Call;
use crate::second;
use crate::setting::Setting;

#[derive(Clone, Copy)]
pub enum Asked {
    Word,
    RecordWord,
    RecordTree,
    RecordBack,
}

pub const OF_RECORDS: [Asked; 3] = [Asked::RecordWord, Asked::RecordTree, Asked::RecordBack];

impl Asked {
    /// All that can be asked of the programs that are there.
    pub fn all(setting: &Setting) -> Vec<Asked> {
        let mut all = vec![Asked::Word];
        if setting.has_record() {
            all.extend(OF_RECORDS);
        }
        all
    }

    /// The program's name, and the mode where it has one.
    pub fn words(self) -> &'static [&'static str] {
        match self {
            Asked::Word => &["word"],
            Asked::RecordWord => &["record", "word"],
            Asked::RecordTree => &["record", "tree"],
            Asked::RecordBack => &["record", "back"],
        }
    }

    pub fn name(self) -> String {
        self.words().join(" ")
    }

    pub fn program(self, setting: &Setting) -> PathBuf {
        setting.program(self.words()[0])
    }

    /// What stands behind the program: the mode, where it has one, and the table.
    pub fn arguments(self, table: &Path) -> Vec<&OsStr> {
        let mode = self.words()[1..].iter().map(OsStr::new);
        mode.chain([table.as_os_str()]).collect()
    }

    pub fn call(self, setting: &Setting, table: &Path) -> Call {
        Call::new(self.program(setting)).args(&self.arguments(table))
    }

    /// What the second program answers.
    pub fn expected(self, setting: &Setting, table: &Path, lines: &[u8]) -> Vec<u8> {
        let words = self.words().iter().map(OsStr::new);
        let words: Vec<&OsStr> = words.chain([table.as_os_str()]).collect();
        second::on_lines(setting, &words, lines)
    }

    /// The table of the examples for such lines.
    pub fn example(self, setting: &Setting) -> PathBuf {
        setting.example(match self {
            Asked::Word => "clips.table",
            _ => "records.table",
        })
    }

    /// Lines for the example.
    pub fn lines(self, rng: Rng) -> Lines {
        match self {
            Asked::Word => Lines::clips(rng),
            Asked::RecordWord | Asked::RecordTree => Lines::records(rng),
            Asked::RecordBack => Lines::images(rng),
        }
    }

    /// The second program's kind of cases, and the ending of their files with such lines.
    pub fn cases(self) -> (&'static str, &'static str) {
        match self {
            Asked::Word => ("trees", "trees"),
            Asked::RecordWord | Asked::RecordTree => ("records", "records"),
            Asked::RecordBack => ("records", "backs"),
        }
    }

    /// What is counted at a terminal.
    pub fn counted(self) -> &'static str {
        match self {
            Asked::Word | Asked::RecordWord => "words",
            Asked::RecordTree => "trees",
            Asked::RecordBack => "records",
        }
    }
}
