//! How the programs are called: too many or too few arguments, help, modes that there are not, files that
//! cannot be read, and a file in place of standard input.

use std::fs;
use std::path::{Path, PathBuf};

use crate::check::{answered, exact_lines, shown, silent};
use crate::report::Report;
use crate::run::{Call, Seen};
use crate::second;
use crate::setting::Setting;
use crate::terminal::{self, quoted};

struct Program {
    name: &'static str,
    /// What its usage says that it answers.
    answers: &'static [&'static str],
    /// Arguments that are too few or too many.
    wrong: &'static [&'static [&'static str]],
    /// What stands before the files.
    mode: &'static [&'static str],
    /// How many files it may be given.
    files: usize,
}

const PROGRAMS: [Program; 5] = [
    Program {
        name: "judge",
        answers: &["earliest", "no NUMBER PLACE"],
        wrong: &[&["a", "b"]],
        mode: &[],
        files: 1,
    },
    Program {
        name: "form",
        answers: &["no NUMBER PLACE"],
        wrong: &[&["a", "b"]],
        mode: &[],
        files: 1,
    },
    Program {
        name: "compare",
        answers: &["same", "different", "no TABLE NUMBER PLACE"],
        wrong: &[&[], &["a"], &["a", "b", "c"]],
        mode: &[],
        files: 2,
    },
    Program {
        name: "word",
        answers: &["word LENGTH TERMS HEX", "no NUMBER PLACE"],
        wrong: &[&[], &["a", "b"]],
        mode: &[],
        files: 1,
    },
    Program {
        name: "record",
        answers: &["MODE TABLEFILE", "word, tree or back", "no NUMBER PLACE"],
        wrong: &[&[], &["word"], &["word", "a", "b"]],
        mode: &["tree"],
        files: 1,
    },
];

/// Modes that there are not.
const WRONG_MODES: [&str; 7] = ["words", "wor", "WORD", " tree", "back ", "--", ""];

/// How many generated tables are given as files.
const TABLES: usize = 9;

pub fn run(setting: &Setting, report: &mut Report) {
    let [others @ .., record] = &PROGRAMS;
    let record = setting.has_record().then_some(record);
    for program in others.iter().chain(record) {
        wrong_arguments(program, setting, report);
        help(program, setting, report);
        unreadable_files(program, setting, report);
    }
    match record {
        Some(record) => wrong_modes(record, setting, report),
        None => report.not_tried("record, because it is not there yet"),
    }
    for name in ["judge", "form"] {
        files_for_standard_input(name, setting, report);
    }
    if terminal::is_there() {
        for program in &PROGRAMS[..2] {
            at_a_terminal(program, setting, report);
        }
    } else {
        report.not_tried("judge and form at a terminal, because there is no `script`");
    }
}

fn wrong_arguments(program: &Program, setting: &Setting, report: &mut Report) {
    for words in program.wrong {
        let seen = call(program, setting).args(words).run();
        let name = format!("usage: {} {}", program.name, words.join(" "));
        report.case(name.trim_end(), refused_with_usage(program, &seen));
    }
}

/// Nothing ever comes from standard input, so that a program that reads it is seen to wait.
fn call(program: &Program, setting: &Setting) -> Call {
    Call::new(setting.program(program.name)).at_once()
}

fn refused_with_usage(program: &Program, seen: &Seen) -> Result<(), String> {
    seen.ended_well()?;
    silent("standard output", &seen.out)?;
    is_usage(program, &seen.err)
}

/// Two lines, the first of which says how the program is called and what it answers.
fn is_usage(program: &Program, text: &[u8]) -> Result<(), String> {
    let lines = exact_lines(2, text)?;
    begins_usage(program, &lines[0])?;
    let lacking = program
        .answers
        .iter()
        .find(|words| !lines[0].contains(*words));
    lacking.map_or(Ok(()), |words| {
        let line = shown(lines[0].as_bytes());
        Err(format!("expected `{words}` in the first line, seen {line}"))
    })
}

fn begins_usage(program: &Program, line: &str) -> Result<(), String> {
    let start = format!("usage: {}", program.name);
    let rest = line.strip_prefix(&start);
    if rest.is_some_and(|rest| !rest.starts_with(char::is_alphanumeric)) {
        return Ok(());
    }
    let line = shown(line.as_bytes());
    Err(format!(
        "expected a line that begins `{start}`, seen {line}"
    ))
}

/// Help is what a wrong call says, but on standard output.
fn help(program: &Program, setting: &Setting, report: &mut Report) {
    let usage = call(program, setting).args(program.wrong[0]).run();
    for word in ["--help", "-h"] {
        let seen = call(program, setting).arg(word).run();
        let outcome = answered(&usage.err, &seen).and_then(|()| is_usage(program, &seen.out));
        report.case(format!("usage: {} {word}", program.name), outcome);
    }
}

/// A folder and a name at which nothing is, at each place where the program is given a file.
fn unreadable_files(program: &Program, setting: &Setting, report: &mut Report) {
    let good = setting.example("clips.table");
    let folder = setting.folder("folder");
    let lacking = setting.fresh("lacking");
    for place in 0..program.files {
        for (path, cause) in [
            (&folder, "Is a directory"),
            (&lacking, "No such file or directory"),
        ] {
            let mut paths = vec![good.clone(); program.files];
            paths[place] = path.clone();
            let seen = call(program, setting).args(program.mode);
            let seen = seen.args(&paths).run();
            let name = format!("usage: {}, file {}: {cause}", program.name, place + 1);
            report.case(name, told_unreadable(program, path, cause, &seen));
        }
    }
}

fn told_unreadable(program: &Program, path: &Path, cause: &str, seen: &Seen) -> Result<(), String> {
    seen.ended_well()?;
    silent("standard output", &seen.out)?;
    let lines = exact_lines(2, &seen.err)?;
    let told = format!("{}: {cause}", path.display());
    if !lines[0].contains(&told) {
        let line = shown(lines[0].as_bytes());
        return Err(format!("expected `{told}` in the first line, seen {line}"));
    }
    begins_usage(program, &lines[1])
}

/// A mode that there is not is told at once, with those that there are, whatever the file is.
fn wrong_modes(program: &Program, setting: &Setting, report: &mut Report) {
    for file in [setting.example("records.table"), setting.fresh("lacking")] {
        for mode in WRONG_MODES {
            let seen = call(program, setting).arg(mode).arg(&file).run();
            report.case(
                format!("usage: record, mode {mode:?}"),
                told_modes(program, mode, &seen),
            );
        }
    }
}

fn told_modes(program: &Program, mode: &str, seen: &Seen) -> Result<(), String> {
    seen.ended_well()?;
    silent("standard output", &seen.out)?;
    let lines = exact_lines(2, &seen.err)?;
    let told = format!("{mode}: not a mode; there are word, tree and back");
    if lines[0] != told {
        let line = shown(lines[0].as_bytes());
        return Err(format!("expected `{told}`, seen {line}"));
    }
    begins_usage(program, &lines[1])
}

/// Examples, damaged ones and generated ones.
fn tables(setting: &Setting) -> Vec<PathBuf> {
    let examples = ["clips.table", "tidied.table", "slip.table"].map(|name| setting.example(name));
    let generated = second::cases(setting, "tables", TABLES)
        .into_iter()
        .map(|case| case.with_extension("table"));
    examples.into_iter().chain(generated).collect()
}

/// The same answer with a file as the argument, though standard input gives nothing, as with the
/// file at standard input.
fn files_for_standard_input(name: &str, setting: &Setting, report: &mut Report) {
    let program = setting.program(name);
    for path in tables(setting) {
        let text = fs::read(&path).expect("the table was just found");
        let expected = second::on_text(setting, name, &text);
        let last = path.file_name().unwrap_or_default().display();
        let seen = Call::new(&program).arg(&path).at_once().run();
        report.case(format!("usage: {name} {last}"), answered(&expected, &seen));
        let seen = Call::new(&program).reading_file(&path).at_once().run();
        report.case(
            format!("usage: {name} < {last}"),
            answered(&expected, &seen),
        );
    }
}

/// With no file and nobody typing the usage is told; with a file the terminal does not matter.
fn at_a_terminal(program: &Program, setting: &Setting, report: &mut Report) {
    let name = program.name;
    let path = quoted(&setting.program(name));
    let seen = typed(&path, setting);
    let outcome = refused_with_usage(program, &seen);
    report.case(format!("usage: {name} at a terminal"), outcome);

    let table = setting.example("clips.table");
    let text = fs::read(&table).expect("the examples can be read");
    let expected = second::on_text(setting, name, &text);
    let seen = typed(&format!("{path} {}", quoted(&table)), setting);
    let outcome = answered(&expected, &seen);
    report.case(format!("usage: {name} FILE at a terminal"), outcome);
}

/// What a shell line writes whose standard input alone is a terminal.
fn typed(line: &str, setting: &Setting) -> Seen {
    let (out, err) = (setting.file("out", b""), setting.file("err", b""));
    let line = format!("{line} > {} 2> {}", quoted(&out), quoted(&err));
    let mut seen = terminal::call(&line).at_once().run();
    seen.out = fs::read(&out).expect("it was just made");
    seen.err = fs::read(&err).expect("it was just made");
    seen
}

#[cfg(test)]
mod tests {
    use super::*;

    #[test]
    fn only_a_whole_usage_passes() {
        let judge = &PROGRAMS[0];
        let good = "usage: judge [FILE]: earliest, or no NUMBER PLACE\nmore\n";
        assert_eq!(is_usage(judge, good.as_bytes()), Ok(()));
        for wrong in [
            good.replace("judge", "judges"),
            good.replace("usage", "use"),
            good.replace("earliest", "early"),
            good.replace("more\n", ""),
            format!("{good}and more\n"),
        ] {
            assert!(is_usage(judge, wrong.as_bytes()).is_err(), "{wrong}");
        }
    }

    #[test]
    fn the_name_ends_where_it_should() {
        let form = &PROGRAMS[1];
        assert_eq!(begins_usage(form, "usage: form"), Ok(()));
        assert!(begins_usage(form, "usage: former").is_err());
    }
}
