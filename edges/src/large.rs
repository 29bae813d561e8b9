//! Much input for `word` and `record`: millions of bytes of lines, lines that are longer than any tree, and
//! words that are longer than any buffer.

use std::collections::HashSet;
use std::path::{Path, PathBuf};

use fadurinko_second::rng::Rng;

use crate::asked::{Asked, OF_RECORDS};
use crate::check::answered;
use crate::longest;
use crate::report::Report;
use crate::second::{self, case_file};
use crate::setting::Setting;

const BYTES: usize = 6_000_000;
/// Of so many generated tables so many with the most kinds of answers are used.
const TREES: (usize, usize) = (40, 2);
const RECORDS: (usize, usize) = (16, 1);

/// More elements than there are in any record that has an answer, and so many that the stream is a megabyte.
const MANY: usize = 20_000;
const MEGABYTE: usize = 500_000;
/// The ends of lines: as it is, another last byte, a byte more, no digit, no whole byte. The first are tried
/// with the longest lines too.
const ENDS: [(usize, &str); 11] = [
    (0, ""),
    (2, "01"),
    (0, "00"),
    (0, "ff"),
    (1, "g"),
    (2, "00"),
    (2, "02"),
    (2, ""),
    (0, "01"),
    (1, "F"),
    (0, "0"),
];
const LONG_ENDS: usize = 5;

pub fn run(setting: &Setting, report: &mut Report) {
    for asked in Asked::all(setting) {
        many_lines(setting, asked, report);
    }
    let clips = setting.example("clips.table");
    both_ways(
        setting,
        Asked::Word,
        "long lines",
        &clips,
        &long_lines(),
        report,
    );
    let table = setting.file("longest.table", &longest::table());
    let lines = longest_lines();
    both_ways(
        setting,
        Asked::Word,
        "the longest word",
        &table,
        &lines,
        report,
    );
    if setting.has_record() {
        for asked in OF_RECORDS {
            records(setting, asked, report);
        }
    }
}

/// Large records, also under a table that is none for records and under one that is refused.
fn records(setting: &Setting, asked: Asked, report: &mut Report) {
    let table = setting.file("longest.table", &longest::record_table());
    let lines = large_records(asked);
    both_ways(setting, asked, "large records", &table, &lines, report);
    let lines = refused_early(&record_line(asked, MANY)).join("\n");
    let refused = setting.file("refused.table", b"0102\n0100\n04\n");
    let clips = setting.example("clips.table");
    for (name, table) in [
        ("refused early", table),
        ("not for records", clips),
        ("a refused table", refused),
    ] {
        both_ways(setting, asked, name, &table, lines.as_bytes(), report);
    }
}

/// The same lines from a file and through a pipe.
fn both_ways(
    setting: &Setting,
    asked: Asked,
    name: &str,
    table: &Path,
    lines: &[u8],
    report: &mut Report,
) {
    let expected = asked.expected(setting, table, lines);
    let file = setting.file("lines", lines);
    let name = format!("large: {}, {name}", asked.name());
    let seen = asked.call(setting, table).reading_file(&file).run();
    report.case(format!("{name}, from a file"), answered(&expected, &seen));
    let seen = asked.call(setting, table).reading_pipe(lines).run();
    report.case(format!("{name}, from a pipe"), answered(&expected, &seen));
    let _ = std::fs::remove_file(file);
}

fn many_lines(setting: &Setting, asked: Asked, report: &mut Report) {
    let mut rng = setting.rng("large");
    for (table, lines) in varied_cases(setting, asked) {
        let lines = repeated(&lines, &mut rng);
        let name = format!("{} bytes of lines", lines.len());
        both_ways(setting, asked, &name, &table, &lines, report);
    }
}

/// The generated tables, with their lines, whose answers are of the most kinds.
fn varied_cases(setting: &Setting, asked: Asked) -> Vec<(PathBuf, Vec<u8>)> {
    let (kind, ending) = asked.cases();
    let (looked_at, used) = if kind == "trees" { TREES } else { RECORDS };
    let cases = second::cases(setting, kind, looked_at);
    let mut counted: Vec<_> = cases
        .iter()
        .map(|case| {
            let ((table, _), (_, lines)) = (case_file(case, "table"), case_file(case, ending));
            let kinds = kinds(&asked.expected(setting, &table, &lines));
            (kinds, table, lines)
        })
        .collect();
    counted.sort_by_key(|(kinds, _, _)| std::cmp::Reverse(*kinds));
    let most = counted.into_iter().take(used);
    most.map(|(_, table, lines)| (table, lines)).collect()
}

/// How many kinds of answers there are: a kind is an answer, a number of no, or not hex.
fn kinds(answers: &[u8]) -> usize {
    let kind = |line: &[u8]| -> Vec<u8> {
        let words: Vec<&[u8]> = line.split(|&byte| byte == b' ').collect();
        let told = if words[0] == b"no" { 2 } else { 1 };
        words[..told.min(words.len())].concat()
    };
    let kinds: HashSet<Vec<u8>> = answers.split(|&byte| byte == b'\n').map(kind).collect();
    kinds.len()
}

/// These lines, over and over, each time in another order.
fn repeated(lines: &[u8], rng: &mut Rng) -> Vec<u8> {
    let closed = lines.strip_suffix(b"\n").unwrap_or(lines);
    let mut order: Vec<&[u8]> = closed.split(|&byte| byte == b'\n').collect();
    let mut all = Vec::with_capacity(BYTES + 2 * lines.len());
    while all.len() < BYTES {
        rng.shuffle(&mut order);
        for line in &order {
            all.extend_from_slice(line);
            all.push(b'\n');
        }
    }
    all
}

/// Around the length of the longest tree and far beyond it, closed by a character that is no digit
/// too; short lines between show that each long one was left at its end.
fn long_lines() -> Vec<u8> {
    let digits = 2 * longest::MOST_SYMBOLS;
    let mut lines = Vec::new();
    for length in [-2, -1, 0, 1, 2, 3, 4, 70_000, 70_001, 1_000_000] {
        let length = digits.saturating_add_signed(length);
        for end in ["", "g", "0g"] {
            lines.extend(std::iter::repeat_n(b'0', length));
            lines.extend_from_slice(end.as_bytes());
            lines.extend_from_slice(b"\n000102030402\n");
        }
    }
    // The last line is long and not closed.
    lines.extend(std::iter::repeat_n(b'0', digits + 2));
    lines
}

/// The longest word three times, with short ones and a refusal between; the last line is not closed.
pub fn longest_lines() -> Vec<u8> {
    let tree = longest::hexadecimal(&longest::tree());
    let short = "01\n0201\n00\n";
    format!("{tree}\n{short}{tree}\n{tree}02\n{short}{tree}").into_bytes()
}

/// Around the largest record that has an answer, and a stream of a megabyte, each also wrong at its end;
/// short lines between, and the last line is not closed.
fn large_records(asked: Asked) -> Vec<u8> {
    let most = longest::MOST_ELEMENTS;
    let mut lines = vec![];
    for elements in [most - 1, most, most + 1] {
        lines.extend(with_ends(&record_line(asked, elements), &ENDS));
    }
    let megabyte = record_line(asked, MEGABYTE);
    lines.extend(with_ends(&megabyte, &ENDS[..LONG_ENDS]));
    lines.push(record_line(asked, most));
    lines.join("\n00ff\n000101\n").into_bytes()
}

/// The largest record that has an answer twice, and a short one between.
pub fn largest_records(asked: Asked) -> Vec<u8> {
    let line = record_line(asked, longest::MOST_ELEMENTS);
    format!("{line}\n00ff\n{line}").into_bytes()
}

/// A record of so many elements or, where records are asked for, its image.
fn record_line(asked: Asked, elements: usize) -> String {
    let record = longest::record(elements);
    match asked {
        Asked::RecordBack => longest::hexadecimal(&longest::image(&record)),
        _ => longest::hexadecimal(&record),
    }
}

/// A long line with its first bytes wrong, and then also its last; each is followed by a short one.
fn refused_early(line: &str) -> Vec<String> {
    let mut lines = Vec::new();
    for front in ["", "ff", "00ff", "01", "g"] {
        for end in ["", "01", "g"] {
            lines.extend([format!("{front}{line}{end}"), "00ff".to_string()]);
        }
    }
    lines
}

/// A line with each of these ends: so many of its digits are dropped, and others put there.
fn with_ends<'line>(line: &'line str, ends: &'line [(usize, &str)]) -> Vec<String> {
    let ends = ends.iter();
    ends.map(|(dropped, end)| format!("{}{end}", &line[..line.len() - dropped]))
        .collect()
}

#[cfg(test)]
mod tests {
    use super::*;

    #[test]
    fn kinds_are_told_apart() {
        assert_eq!(kinds(b"word 1 1 61\nword 0 1"), 1);
        assert_eq!(kinds(b"word 1 1 61\nno 8 2\nno 9 2\nno 9 3\nnot hex"), 4);
        assert_eq!(kinds(b"tree 0001\ntree 0002\nno 9 3"), 2);
    }
}
