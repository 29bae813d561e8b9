//! What `word` and `record` say of their work where standard error is a terminal: how far they are, and at
//! the end how many lines they answered, and how. Where it is none nothing is said.

use std::collections::BTreeMap;
use std::path::Path;
use std::time::Duration;

use crate::asked::Asked;
use crate::check::{answered, same_bytes, shown};
use crate::feed::Pieces;
use crate::report::Report;
use crate::run::{Seen, Source};
use crate::setting::Setting;
use crate::terminal::{self, quoted};

/// Between two lines of input that comes slowly.
const BETWEEN: Duration = Duration::from_millis(50);
const SLOW_LINES: usize = 55;
/// Enough that a second passes.
const FEWER_LINES: usize = 30;
const MANY_LINES: usize = 20_000;
/// The time between two words about progress.
const SECOND: Duration = Duration::from_secs(1);

pub fn run(setting: &Setting, report: &mut Report) {
    let outcome = without_terminal(setting, Asked::Word, SLOW_LINES);
    report.case("count: word, not at a terminal", outcome);
    if !terminal::is_there() {
        return report.not_tried("the count at a terminal, because there is no `script`");
    }
    for asked in Asked::all(setting) {
        counts(setting, asked, report);
        let outcome = match asked {
            Asked::Word => progressed(setting, asked, SLOW_LINES),
            Asked::RecordBack => progressed(setting, asked, FEWER_LINES),
            _ => continue,
        };
        report.case(format!("count: {}, progress", asked.name()), outcome);
    }
}

fn counts(setting: &Setting, asked: Asked, report: &mut Report) {
    let example = asked.example(setting);
    let refused = setting.file("refused.table", b"0100\n04\n");
    let many = asked.lines(setting.rng("many")).take(MANY_LINES).concat();
    let closed = b"000102030402\n00020302\n0002\n02\n";
    for (name, table, input) in [
        ("four lines", &example, &closed[..]),
        ("a last line that is not closed", &example, &closed[..29]),
        (
            "only refusals and not hex",
            &example,
            b"xy\n0002\n02\n02\n\nz\n",
        ),
        ("a refused table", &refused, b"00\n00\n0g\n\n"),
        ("no line", &example, b""),
        ("many lines", &example, &many),
    ] {
        let outcome = counted(setting, asked, table, input);
        report.case(format!("count: {}, {name}", asked.name()), outcome);
    }
}

/// Slowly enough that progress would be told; standard error is a pipe.
fn without_terminal(setting: &Setting, asked: Asked, count: usize) -> Result<(), String> {
    let table = asked.example(setting);
    let lines = asked.lines(setting.rng("count")).take(count);
    let expected = asked.expected(setting, &table, &lines.concat());
    let pieces = Source::Pieces(Pieces::every(lines, BETWEEN));
    let call = asked.call(setting, &table);
    answered(&expected, &call.source(pieces).run())
}

/// At a terminal, with input from a file.
fn counted(setting: &Setting, asked: Asked, table: &Path, input: &[u8]) -> Result<(), String> {
    let file = setting.file("lines", input);
    let answers = asked.expected(setting, table, input);
    let told = at_terminal(setting, asked, table, &file, &answers)?;
    told.ends_with(&count_of(asked, &answers))
}

/// At a terminal, with input that comes through a pipe for some seconds.
fn progressed(setting: &Setting, asked: Asked, count: usize) -> Result<(), String> {
    let table = asked.example(setting);
    let lines = asked.lines(setting.rng("count")).take(count);
    let answers = asked.expected(setting, &table, &lines.concat());
    let pipe = setting.named_pipe();
    Pieces::every(lines, BETWEEN).pour_into_named(&pipe);
    let told = at_terminal(setting, asked, &table, &pipe, &answers)?;
    let last = count_of(asked, &answers);
    told.ends_with(&last)?;
    told.had_progress(count, &last)
}

/// What comes to the terminal at standard error; the answers have to be those that are expected.
fn at_terminal(
    setting: &Setting,
    asked: Asked,
    table: &Path,
    input: &Path,
    answers: &[u8],
) -> Result<Told, String> {
    let out = setting.file("out", b"");
    let program = quoted(&asked.program(setting));
    let arguments = asked.arguments(table).into_iter();
    let arguments: Vec<String> = arguments.map(|word| quoted(Path::new(word))).collect();
    let (arguments, input, output) = (arguments.join(" "), quoted(input), quoted(&out));
    let seen = terminal::call(&format!("{program} {arguments} < {input} > {output}")).run();
    seen.ended_well()?;
    let written = std::fs::read(&out).expect("it was just made");
    same_bytes(answers, &written)?;
    Ok(Told::new(&seen))
}

/// The line that is to be told at the end.
fn count_of(asked: Asked, answers: &[u8]) -> String {
    let text = String::from_utf8_lossy(answers);
    let (mut given, mut not_hex) = (0, 0);
    let mut refused: BTreeMap<usize, usize> = BTreeMap::new();
    for line in text.lines() {
        match line.split(' ').collect::<Vec<_>>().as_slice() {
            ["word" | "tree" | "record", ..] => given += 1,
            ["not", "hex"] => not_hex += 1,
            ["no", number, _] => {
                let number = number.parse().expect("a no has a number");
                *refused.entry(number).or_insert(0) += 1;
            }
            _ => panic!("the second program answers {line}"),
        }
    }
    let mut count = format!(
        "{} lines: {given} {}",
        text.lines().count(),
        asked.counted()
    );
    for (number, times) in refused {
        count += &format!(", no {number}: {times}");
    }
    if not_hex > 0 {
        count += &format!(", not hex: {not_hex}");
    }
    count
}

/// What a terminal was told, and the parts of it between carriage returns and line feeds.
struct Told {
    text: String,
    parts: Vec<String>,
    took: Duration,
}

impl Told {
    fn new(seen: &Seen) -> Told {
        let text = String::from_utf8_lossy(&seen.out).into_owned();
        let parts = text.split(['\r', '\n']).filter(|part| !part.is_empty());
        Told {
            parts: parts.map(str::to_string).collect(),
            text,
            took: seen.took,
        }
    }

    /// That the count closes it with a line feed, and that nothing but progress stands before.
    fn ends_with(&self, count: &str) -> Result<(), String> {
        let seen = shown(self.text.as_bytes());
        let (last, before) = match self.parts.split_last() {
            Some((last, before)) => (last.as_str(), before),
            None => ("", &[][..]),
        };
        if last != count || !self.text.ends_with('\n') {
            return Err(format!("expected the line `{count}` last, seen {seen}"));
        }
        if self.text.matches('\n').count() != 1 {
            return Err(format!("expected one line, seen {seen}"));
        }
        if before.iter().any(|part| lines_told(part).is_none()) {
            return Err(format!(
                "expected `LINES lines` before `{count}`, seen {seen}"
            ));
        }
        let most = self.took.div_duration_f32(SECOND) + 1.0;
        if before.len() as f32 > most {
            return Err(format!("expected progress once a second, seen {seen}"));
        }
        Ok(())
    }

    /// That there was progress, by rising numbers of lines, and that each part, the count too, began
    /// with a carriage return.
    fn had_progress(&self, lines: usize, count: &str) -> Result<(), String> {
        let seen = shown(self.text.as_bytes());
        let before = &self.parts[..self.parts.len() - 1];
        let told: Vec<usize> = before.iter().filter_map(|part| lines_told(part)).collect();
        if told.is_empty() {
            return Err(format!("expected progress before `{count}`, seen {seen}"));
        }
        let rising = told.windows(2).all(|pair| pair[0] < pair[1]);
        if !rising || told[told.len() - 1] > lines {
            return Err(format!(
                "expected rising numbers up to {lines}, seen {seen}"
            ));
        }
        let returned: String = self.parts.iter().map(|part| format!("\r{part}")).collect();
        if self.text.trim_end() != returned.trim_end() {
            return Err(format!("expected {returned:?}, seen {seen}"));
        }
        Ok(())
    }
}

/// The number of lines in a part that tells progress.
fn lines_told(part: &str) -> Option<usize> {
    part.strip_suffix(" lines")?.parse().ok()
}

#[cfg(test)]
mod tests {
    use super::*;

    fn told(text: &str) -> Told {
        let parts = text.split(['\r', '\n']).filter(|part| !part.is_empty());
        Told {
            text: text.to_string(),
            parts: parts.map(str::to_string).collect(),
            took: Duration::from_millis(2_500),
        }
    }

    #[test]
    fn the_count_is_that_of_the_answers() {
        let answers = b"word 0 1\nword 1 1 61\nno 9 0\nno 8 2\nno 11 0\nno 8 3\nnot hex\n";
        let count = "7 lines: 2 words, no 8: 2, no 9: 1, no 11: 1, not hex: 1";
        assert_eq!(count_of(Asked::Word, answers), count);
        assert_eq!(count_of(Asked::RecordWord, b""), "0 lines: 0 words");
        let count = count_of(Asked::RecordTree, b"tree 000101\nno 22 0\n");
        assert_eq!(count, "2 lines: 1 trees, no 22: 1");
        let count = count_of(Asked::RecordBack, b"record 00ff\nno 24 0\n");
        assert_eq!(count, "2 lines: 1 records, no 24: 1");
    }

    #[test]
    fn only_progress_and_one_count_pass() {
        let count = "9 lines: 9 words";
        for good in ["9 lines: 9 words\r\n", "\r4 lines\r9 lines: 9 words\r\n"] {
            assert_eq!(told(good).ends_with(count), Ok(()));
        }
        for wrong in [
            "",
            "9 lines: 9 words",
            "9 lines: 8 words\r\n",
            "4 lines\r\n9 lines: 9 words\r\n",
            "\rso far 4\r9 lines: 9 words\r\n",
            "\r1 lines\r2 lines\r3 lines\r4 lines\r9 lines: 9 words\r\n",
        ] {
            assert!(told(wrong).ends_with(count).is_err(), "{wrong:?}");
        }
    }

    #[test]
    fn progress_rises_behind_carriage_returns() {
        let count = "9 lines: 9 words";
        let good = "\r4 lines\r8 lines\r9 lines: 9 words\r\n";
        assert_eq!(told(good).had_progress(9, count), Ok(()));
        for wrong in [
            "9 lines: 9 words\r\n",
            "\r8 lines\r4 lines\r9 lines: 9 words\r\n",
            "\r8 lines\r10 lines\r9 lines: 9 words\r\n",
            "4 lines\r9 lines: 9 words\r\n",
        ] {
            assert!(told(wrong).had_progress(9, count).is_err(), "{wrong:?}");
        }
    }
}
