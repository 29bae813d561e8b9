//! Answers that cannot be written, because the device is full: one line says so.

use std::fs::OpenOptions;
use std::path::{Path, PathBuf};

use crate::asked::{Asked, OF_RECORDS};
use crate::check::{exact_lines, shown};
use crate::report::Report;
use crate::run::{Call, Seen};
use crate::setting::Setting;

const CAUSE: &str = "No space left on device";
/// So many trees have answers of more than any buffer.
const MANY: usize = 100_000;

pub fn run(setting: &Setting, report: &mut Report) {
    let clips = setting.example("clips.table");
    let damaged = setting.file("damaged", b"0103\n04\n");
    for (name, call) in calls(setting, &clips, &damaged) {
        report.case(format!("full: {name}"), told_full(call));
    }
    if setting.has_record() {
        for (name, call) in record_calls(setting) {
            report.case(format!("full: {name}"), told_full(call));
        }
    }
}

/// Each program with each kind of its answers.
fn calls(setting: &Setting, clips: &Path, damaged: &Path) -> Vec<(&'static str, Call)> {
    let program = |name: &str| Call::new(setting.program(name)).at_once();
    let compared = |with: PathBuf| program("compare").args(&[clips, &with]);
    let worded = |trees: &[u8]| program("word").arg(clips).reading_pipe(trees);
    vec![
        ("judge, earliest", program("judge").reading_file(clips)),
        ("judge, a no", program("judge").reading_file(damaged)),
        ("form, a form", program("form").reading_file(clips)),
        ("form, a no", program("form").reading_file(damaged)),
        ("compare, same", compared(setting.example("tidied.table"))),
        (
            "compare, different",
            compared(setting.example("slip.table")),
        ),
        ("compare, a no", compared(damaged.to_path_buf())),
        ("word, a word", worded(b"000102030402\n")),
        ("word, a no", worded(b"0002\n")),
        ("word, not hex", worded(b"no tree\n")),
        ("word, many words", worded(&b"000102030402\n".repeat(MANY))),
    ]
}

/// `record` in each mode, with each kind of its answers.
fn record_calls(setting: &Setting) -> Vec<(String, Call)> {
    let mut calls = Vec::new();
    for asked in OF_RECORDS {
        let good = match asked {
            Asked::RecordBack => "0001020302030301030303\n",
            _ => "000102ff02ffff01ffff\n",
        };
        for (answer, lines) in [
            ("an answer", good),
            ("a no", "00\n"),
            ("not hex", "no record\n"),
            ("many answers", &good.repeat(MANY)),
        ] {
            let call = asked.call(setting, &asked.example(setting)).at_once();
            let name = format!("{}, {answer}", asked.name());
            calls.push((name, call.reading_pipe(lines.as_bytes())));
        }
    }
    calls
}

fn told_full(call: Call) -> Result<(), String> {
    let full = OpenOptions::new().write(true).open("/dev/full");
    let full = full.map_err(|error| format!("/dev/full: {error}"))?;
    told(&call.onto(full).run())
}

fn told(seen: &Seen) -> Result<(), String> {
    seen.ended_well()?;
    let lines = exact_lines(1, &seen.err)?;
    if lines[0].contains(CAUSE) {
        Ok(())
    } else {
        let line = shown(&seen.err);
        Err(format!("expected `{CAUSE}`, seen {line}"))
    }
}
