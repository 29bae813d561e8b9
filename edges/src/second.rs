//! The second program: its answers, and the cases that it makes.

use std::ffi::OsStr;
use std::fs;
use std::path::{Path, PathBuf};

use crate::check::silent;
use crate::run::Call;
use crate::setting::Setting;

/// What it answers. It has to answer: nothing can be compared else.
fn answer(call: Call) -> Vec<u8> {
    let seen = call.run_in_any_case();
    let good = seen
        .ended_well()
        .and_then(|()| silent("standard error", &seen.err));
    if let Err(wrong) = good {
        panic!("the second program: {wrong}");
    }
    seen.out
}

fn call(setting: &Setting, words: &[&OsStr]) -> Call {
    Call::new(&setting.second).args(words)
}

/// The answer of `judge` or `form` to a table text.
pub fn on_text(setting: &Setting, name: &str, text: &[u8]) -> Vec<u8> {
    answer(call(setting, &[name.as_ref()]).reading_pipe(text))
}

/// The answer to lines, of the command that the words say.
pub fn on_lines(setting: &Setting, words: &[&OsStr], lines: &[u8]) -> Vec<u8> {
    answer(call(setting, words).reading_pipe(lines))
}

pub fn compare(setting: &Setting, first: &Path, second: &Path) -> Vec<u8> {
    let words = ["compare".as_ref(), first.as_ref(), second.as_ref()];
    answer(call(setting, &words))
}

/// So many cases of a kind, as paths without their endings.
pub fn cases(setting: &Setting, kind: &str, count: usize) -> Vec<PathBuf> {
    let folder = setting.folder(kind);
    let (seed, number) = (setting.seed.to_string(), count.to_string());
    let words = ["gen", kind, &seed, &number].map(OsStr::new);
    answer(call(setting, &words).arg(&folder));
    let case = |index| folder.join(format!("{index:06}"));
    (0..count).map(case).collect()
}

/// A file of a generated case.
pub fn case_file(case: &Path, ending: &str) -> (PathBuf, Vec<u8>) {
    let path = case.with_extension(ending);
    let content = fs::read(&path).expect("the second program wrote its cases");
    (path, content)
}
