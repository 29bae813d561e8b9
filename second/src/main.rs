//! The command line of the second program.

use std::collections::BTreeMap;
use std::ffi::OsString;
use std::fs::{self, File};
use std::io::{self, BufRead, BufWriter, Read, Write};
use std::path::Path;
use std::process::ExitCode;

use fadurinko_second::compare::compare;
use fadurinko_second::form::form_text;
use fadurinko_second::gen::{pairs, records, tables, trees};
use fadurinko_second::hex;
use fadurinko_second::judge::judge;
use fadurinko_second::limits::MAX_TEXT;
use fadurinko_second::record::Desk;
use fadurinko_second::refusal::Refusal;
use fadurinko_second::selftest;
use fadurinko_second::table::{self, Table};
use fadurinko_second::walk::{Found, Walker};

const USAGE: &str = "usage:
  second form                        table text on standard input
  second judge                       table text on standard input
  second word TABLEFILE              trees in hexadecimal on standard input
  second record MODE TABLEFILE       MODE is word, tree or back; records (for
                                     back trees) in hexadecimal on standard input
  second compare FILE1 FILE2
  second gen KIND SEED COUNT DIR     KIND is tables, trees, records or pairs
  second classes KIND SEED COUNT
  second selftest [SEED]";

fn main() -> ExitCode {
    let arguments: Vec<OsString> = std::env::args_os().skip(1).collect();
    match run(&arguments) {
        Ok(code) => code,
        Err(message) => {
            eprintln!("{message}");
            ExitCode::from(2)
        }
    }
}

/// An answer, a no included, is a success; what could not be tried is not.
/// Names of files are taken as they are, even where they are no text.
fn run(arguments: &[OsString]) -> Result<ExitCode, String> {
    let shown: Vec<_> = arguments.iter().map(|one| one.to_string_lossy()).collect();
    let words: Vec<&str> = shown.iter().map(|one| one.as_ref()).collect();
    let path = |index: usize| Path::new(&arguments[index]);
    match words.as_slice() {
        ["form"] => run_form(),
        ["judge"] => run_judge(),
        ["word", _] => run_word(path(1)),
        ["record", mode, _] => run_record(mode, path(2)),
        ["compare", _, _] => run_compare(path(1), path(2)),
        ["gen", kind, seed, count, _] => {
            generate(kind, number(seed)?, number(count)? as usize, path(4))
        }
        ["classes", kind, seed, count] => run_classes(kind, number(seed)?, number(count)? as usize),
        ["selftest"] => run_selftest(1),
        ["selftest", seed] => run_selftest(number(seed)?),
        _ => Err(USAGE.to_string()),
    }
}

fn number(argument: &str) -> Result<u64, String> {
    argument
        .parse()
        .map_err(|_| format!("{argument}: not a number\n{USAGE}"))
}

fn said(error: io::Error) -> String {
    format!("standard output: {error}")
}

fn print(bytes: &[u8]) -> Result<ExitCode, String> {
    let mut out = io::stdout().lock();
    out.write_all(bytes).map_err(said)?;
    out.flush().map_err(said)?;
    Ok(ExitCode::SUCCESS)
}

fn print_line(line: impl std::fmt::Display) -> Result<ExitCode, String> {
    print(format!("{line}\n").as_bytes())
}

/// Reads a table text. Of a text that is too long only so much is kept that it
/// is still seen to be too long; the rest is read, so that a writer at the other
/// end of a pipe can finish.
fn read_text(name: &str, mut source: impl Read) -> Result<Vec<u8>, String> {
    let failed = |error: io::Error| format!("{name}: {error}");
    let mut text = Vec::new();
    let mut limited = source.by_ref().take(MAX_TEXT as u64 + 1);
    limited.read_to_end(&mut text).map_err(failed)?;
    io::copy(&mut source, &mut io::sink()).map_err(failed)?;
    Ok(text)
}

fn read_standard_input() -> Result<Vec<u8>, String> {
    read_text("standard input", io::stdin().lock())
}

fn read_file(path: &Path) -> Result<Vec<u8>, String> {
    let name = path.display().to_string();
    let file = File::open(path).map_err(|error| format!("{name}: {error}"))?;
    read_text(&name, file)
}

fn run_form() -> Result<ExitCode, String> {
    match form_text(&read_standard_input()?) {
        Ok(form) => print(&form),
        Err(refusal) => print_line(refusal),
    }
}

fn run_judge() -> Result<ExitCode, String> {
    match judge(&read_standard_input()?) {
        Ok(()) => print_line("earliest"),
        Err(refusal) => print_line(refusal),
    }
}

fn run_compare(first: &Path, second: &Path) -> Result<ExitCode, String> {
    let (first, second) = (read_file(first)?, read_file(second)?);
    match compare(&first, &second) {
        Ok(answer) => print_line(answer),
        Err(refusal) => print_line(refusal),
    }
}

/// Answers each line of standard input: `answer` is given what the line spells
/// and puts its answer behind the empty bytes that it is lent. Memory is used
/// again from line to line.
fn answer_lines(mut answer: impl FnMut(&[u8], &mut Vec<u8>)) -> Result<ExitCode, String> {
    let mut input = io::stdin().lock();
    let mut out = BufWriter::new(io::stdout().lock());
    let (mut line, mut bytes, mut answered) = (Vec::new(), Vec::new(), Vec::new());
    loop {
        line.clear();
        let read = input.read_until(b'\n', &mut line);
        if read.map_err(|error| format!("standard input: {error}"))? == 0 {
            break;
        }
        if line.last() == Some(&b'\n') {
            line.pop();
        }
        answered.clear();
        if hex::decode_onto(&line, &mut bytes) {
            answer(&bytes, &mut answered);
        } else {
            answered.extend_from_slice(b"not hex");
        }
        answered.push(b'\n');
        out.write_all(&answered).map_err(said)?;
    }
    out.flush().map_err(said)?;
    Ok(ExitCode::SUCCESS)
}

fn put_refusal(refusal: Refusal, answer: &mut Vec<u8>) {
    answer.extend_from_slice(refusal.to_string().as_bytes());
}

fn put_word(found: Result<Found, Refusal>, word: &[u8], answer: &mut Vec<u8>) {
    match found {
        Ok(Found { length, terms }) => {
            answer.extend_from_slice(format!("word {length} {terms}").as_bytes());
            if !word.is_empty() {
                answer.push(b' ');
                hex::encode_onto(word, answer);
            }
        }
        Err(refusal) => put_refusal(refusal, answer),
    }
}

/// What is never empty, with what it is called in front of it.
fn put_bytes(name: &str, bytes: Result<Vec<u8>, Refusal>, answer: &mut Vec<u8>) {
    match bytes {
        Ok(bytes) => {
            answer.extend_from_slice(name.as_bytes());
            answer.push(b' ');
            hex::encode_onto(&bytes, answer);
        }
        Err(refusal) => put_refusal(refusal, answer),
    }
}

fn run_word(table_file: &Path) -> Result<ExitCode, String> {
    let table = table::read(&read_file(table_file)?);
    let walker = table.as_ref().map(Walker::new).map_err(|refusal| *refusal);
    let mut word = Vec::new();
    answer_lines(|tree, answer| {
        let found = match &walker {
            Ok(walker) => walker.word(tree, &mut word),
            Err(refusal) => Err(*refusal),
        };
        put_word(found, &word, answer);
    })
}

fn run_record(mode: &str, table_file: &Path) -> Result<ExitCode, String> {
    let mode = match mode {
        "word" => Mode::Word,
        "tree" => Mode::Tree,
        "back" => Mode::Back,
        _ => return Err(format!("{mode}: not a mode; there are word, tree and back")),
    };
    let table = table::read(&read_file(table_file)?);
    let desk = desk_of(&table);
    let mut word = Vec::new();
    answer_lines(|bytes, answer| match (&desk, mode) {
        (Err(refusal), _) => put_refusal(*refusal, answer),
        (Ok(desk), Mode::Word) => put_word(desk.word(bytes, &mut word), &word, answer),
        (Ok(desk), Mode::Tree) => put_bytes("tree", desk.tree(bytes), answer),
        (Ok(desk), Mode::Back) => put_bytes("record", desk.record(bytes), answer),
    })
}

/// What is asked for: the word or the tree of a record, the record of a tree.
#[derive(Clone, Copy)]
enum Mode {
    Word,
    Tree,
    Back,
}

fn desk_of(table: &Result<Table, Refusal>) -> Result<Desk<'_>, Refusal> {
    match table {
        Ok(table) => Desk::new(table),
        Err(refusal) => Err(*refusal),
    }
}

fn generate(kind: &str, seed: u64, count: usize, directory: &Path) -> Result<ExitCode, String> {
    let failed = |path: &Path, error: io::Error| format!("{}: {error}", path.display());
    fs::create_dir_all(directory).map_err(|error| failed(directory, error))?;
    for index in 0..count {
        for (ending, bytes) in case_files(kind, seed, index)? {
            let path = directory.join(format!("{index:06}.{ending}"));
            fs::write(&path, bytes).map_err(|error| failed(&path, error))?;
        }
    }
    Ok(ExitCode::SUCCESS)
}

type CaseFile = (&'static str, Vec<u8>);

/// The files of one case: the ending of each name and the content.
fn case_files(kind: &str, seed: u64, index: usize) -> Result<Vec<CaseFile>, String> {
    match kind {
        "tables" => Ok(vec![("table", tables::case(seed, index).text)]),
        "trees" => {
            let case = trees::case(seed, index);
            Ok(vec![("table", case.table), ("trees", case.lines)])
        }
        "records" => {
            let case = records::case(seed, index);
            Ok(vec![
                ("table", case.table),
                ("records", case.records),
                ("backs", case.backs),
            ])
        }
        "pairs" => {
            let case = pairs::case(seed, index);
            Ok(vec![("a", case.first), ("b", case.second)])
        }
        _ => Err(format!("{kind}: not a kind\n{USAGE}")),
    }
}

fn run_classes(kind: &str, seed: u64, count: usize) -> Result<ExitCode, String> {
    let mut classes = Classes::new(kind);
    for index in 0..count {
        let files = case_files(kind, seed, index)?;
        match files.as_slice() {
            [(_, table)] => classes.count(&class_of_judgement(table)),
            [("table", table), (_, lines)] => count_lines(&mut classes, table, lines),
            [(_, first), (_, second)] => classes.count(&class_of_pair(first, second)),
            [(_, table), (_, records), (_, trees)] => {
                count_record_lines(&mut classes, table, records, trees);
            }
            _ => {}
        }
    }
    print(classes.shown().as_bytes())
}

/// How often each class of answers occurred; also those that did not.
struct Classes(BTreeMap<String, usize>);

impl Classes {
    fn new(kind: &str) -> Classes {
        let table = (1..=5).chain(13..=18);
        let names: Vec<String> = match kind {
            "tables" => table.map(class_of_number).collect(),
            "trees" => (1..=11).map(class_of_number).collect(),
            "records" => {
                let of_stream = (1..=6).chain([10]).chain(20..=23);
                let of_tree = (1..=8).chain([10, 11, 20, 24]);
                let words = of_stream.clone().chain([9]);
                let words = words.map(|number| class_in_mode("word", number));
                let trees = of_stream.map(|number| class_in_mode("tree", number));
                let backs = of_tree.map(|number| class_in_mode("back", number));
                words.chain(trees).chain(backs).collect()
            }
            _ => table
                .flat_map(|number| [1, 2].map(|which| class_of_pair_number(which, number)))
                .collect(),
        };
        Classes(names.into_iter().map(|name| (name, 0)).collect())
    }

    fn count(&mut self, name: &str) {
        *self.0.entry(name.to_string()).or_insert(0) += 1;
    }

    fn shown(&self) -> String {
        let lines = self
            .0
            .iter()
            .map(|(name, count)| format!("{name}: {count}\n"));
        lines.collect()
    }
}

/// Padded, so that the classes are sorted by number.
fn class_of_number(number: u8) -> String {
    format!("no {number:2}")
}

fn class_of_pair_number(table: u8, number: u8) -> String {
    format!("no {table} {number:2}")
}

fn class_of_judgement(text: &[u8]) -> String {
    match judge(text) {
        Ok(()) => "earliest".to_string(),
        Err(refusal) => class_of_number(refusal.number),
    }
}

fn class_of_pair(first: &[u8], second: &[u8]) -> String {
    match compare(first, second) {
        Ok(answer) => answer.to_string(),
        Err(answer) => class_of_pair_number(answer.table, answer.refusal.number),
    }
}

fn class_in_mode(mode: &str, number: u8) -> String {
    format!("{mode}: {}", class_of_number(number))
}

fn count_lines(classes: &mut Classes, table: &[u8], lines: &[u8]) {
    let table = table::read(table);
    let walker = table.as_ref().map(Walker::new).map_err(|refusal| *refusal);
    let mut word = Vec::new();
    for tree in hex::decode_lines(lines) {
        let answer = tree.map(|tree| match &walker {
            Ok(walker) => walker.word(&tree, &mut word).map(|_| ()),
            Err(refusal) => Err(*refusal),
        });
        match answer {
            None => classes.count("not hex"),
            Some(Ok(())) => classes.count("word"),
            Some(Err(refusal)) => classes.count(&class_of_number(refusal.number)),
        }
    }
}

fn count_record_lines(classes: &mut Classes, table: &[u8], records: &[u8], trees: &[u8]) {
    let table = table::read(table);
    let desk = desk_of(&table);
    let desk = desk.as_ref().map_err(|refusal| *refusal);
    let mut count = |mode: &str, answer: Result<(), Refusal>| match answer {
        Ok(()) => classes.count(&format!("{mode}: yes")),
        Err(refusal) => classes.count(&class_in_mode(mode, refusal.number)),
    };
    let mut word = Vec::new();
    for record in hex::decode_lines(records).flatten() {
        let found = desk.and_then(|desk| desk.word(&record, &mut word));
        count("word", found.map(|_| ()));
        count("tree", desk.and_then(|desk| desk.tree(&record)).map(|_| ()));
    }
    for tree in hex::decode_lines(trees).flatten() {
        count("back", desk.and_then(|desk| desk.record(&tree)).map(|_| ()));
    }
}

fn run_selftest(seed: u64) -> Result<ExitCode, String> {
    let passed = selftest::run(seed, &mut io::stdout().lock()).map_err(said)?;
    Ok(if passed {
        ExitCode::SUCCESS
    } else {
        ExitCode::FAILURE
    })
}
