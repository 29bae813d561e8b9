//! The programs with a stack of 4 MiB, half of what is usual.

use std::path::Path;

use crate::asked::{Asked, OF_RECORDS};
use crate::check::answered;
use crate::large::{largest_records, longest_lines};
use crate::longest;
use crate::report::Report;
use crate::run::Call;
use crate::second::{self, case_file};
use crate::setting::Setting;

const SMALL: &str = "ulimit -s 4096; exec \"$0\" \"$@\"";

/// Of so many generated tables the largest is taken that is earliest, so that all of it is judged.
const LOOKED_AT: usize = 200;
/// So many lines under the table of an example.
const LINES: usize = 50;

pub fn run(setting: &Setting, report: &mut Report) {
    let clips = setting.example("clips.table");
    let text = std::fs::read(&clips).expect("the examples can be read");
    for text in [text, largest_table(setting)] {
        for name in ["judge", "form"] {
            let expected = second::on_text(setting, name, &text);
            let seen = small(setting, name).reading_pipe(&text).run();
            let name = format!("small stack: {name}, {} bytes", text.len());
            report.case(name, answered(&expected, &seen));
        }
    }
    let files = [clips.clone(), setting.example("tidied.table")];
    let seen = small(setting, "compare").args(&files).run();
    report.case("small stack: compare", answered(b"same\n", &seen));
    for asked in Asked::all(setting) {
        let lines = asked.lines(setting.rng("stack")).take(LINES).concat();
        let outcome = on_lines(setting, asked, &asked.example(setting), &lines);
        report.case(format!("small stack: {}", asked.name()), outcome);
    }
    let table = setting.file("longest.table", &longest::table());
    let outcome = on_lines(setting, Asked::Word, &table, &longest_lines());
    report.case("small stack: word, the longest word", outcome);
    if setting.has_record() {
        let table = setting.file("longest.table", &longest::record_table());
        for asked in OF_RECORDS {
            let outcome = on_lines(setting, asked, &table, &largest_records(asked));
            report.case(
                format!("small stack: {}, the largest record", asked.name()),
                outcome,
            );
        }
    }
}

fn largest_table(setting: &Setting) -> Vec<u8> {
    let cases = second::cases(setting, "tables", LOOKED_AT);
    let mut texts: Vec<Vec<u8>> = cases
        .iter()
        .map(|case| case_file(case, "table").1)
        .collect();
    texts.sort_by_key(|text| std::cmp::Reverse(text.len()));
    let earliest = |text: &Vec<u8>| second::on_text(setting, "judge", text) == b"earliest\n";
    texts.into_iter().find(earliest).expect("some are earliest")
}

fn small(setting: &Setting, name: &str) -> Call {
    let call = Call::new("sh").args(&["-c", SMALL]);
    call.arg(setting.program(name))
}

fn on_lines(setting: &Setting, asked: Asked, table: &Path, lines: &[u8]) -> Result<(), String> {
    let expected = asked.expected(setting, table, lines);
    let call = small(setting, asked.words()[0]).args(&asked.arguments(table));
    answered(&expected, &call.reading_pipe(lines).run())
}
