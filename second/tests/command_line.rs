//! The programs as a user meets them.

use std::fs;
use std::io::Write;
use std::path::PathBuf;
use std::process::{Command, Output, Stdio};

use fadurinko_second::examples::{self, LISTING_INPUT, LISTING_OUTPUT};
use fadurinko_second::table;

fn second(arguments: &[&str], input: &[u8]) -> Output {
    let mut child = Command::new(env!("CARGO_BIN_EXE_second"))
        .args(arguments)
        .stdin(Stdio::piped())
        .stdout(Stdio::piped())
        .stderr(Stdio::piped())
        .spawn()
        .unwrap();
    // The program may have ended before it read anything.
    let _ = child.stdin.take().unwrap().write_all(input);
    child.wait_with_output().unwrap()
}

fn said(arguments: &[&str], input: &[u8]) -> String {
    let output = second(arguments, input);
    assert!(output.status.success());
    assert!(output.stderr.is_empty());
    String::from_utf8(output.stdout).unwrap()
}

/// A file of this test run with this content; gives its name.
fn file(name: &str, content: &[u8]) -> String {
    let path = PathBuf::from(env!("CARGO_TARGET_TMPDIR")).join(name);
    fs::write(&path, content).unwrap();
    path.to_str().unwrap().to_string()
}

#[test]
fn form_prints_the_listing() {
    assert_eq!(said(&["form"], LISTING_INPUT.as_bytes()), LISTING_OUTPUT);
    assert_eq!(said(&["form"], b""), "no 1 0\n");
    assert_eq!(said(&["form"], &[b'0'; 100_000]), "no 1 0\n");
    let m2 = table::write(&examples::m2());
    assert_eq!(said(&["form"], &m2), "no 18 0\n");
}

#[test]
fn judge_says_earliest_or_why_not() {
    assert_eq!(said(&["judge"], LISTING_INPUT.as_bytes()), "earliest\n");
    let m1 = table::write(&examples::m1());
    assert_eq!(said(&["judge"], &m1), "no 15 0\n");
}

#[test]
fn word_answers_each_line() {
    let table = file("word.table", LISTING_INPUT.as_bytes());
    let input = b"000201\n000101\n\n01\n0\n0G\n00\r\n000202";
    let expected = "word 2 1 782c\nword 1 1 2c\nno 6 0\nno 9 0\nnot hex\nnot hex\nnot hex\n\
        word 3 1 782c78\n";
    assert_eq!(said(&["word", &table], input), expected);
    assert_eq!(said(&["word", &table], b""), "");
    assert_eq!(said(&["word", &table], b"\n"), "no 6 0\n");
    let turn = file("turn.table", &table::write(&examples::turn()));
    assert_eq!(said(&["word", &turn], b"02\n"), "word 0 1\n");
}

#[test]
fn word_by_a_refused_table() {
    let table = file("refused.table", b"0100\n04\n");
    let expected = "no 3 5\nnot hex\nno 3 5\n";
    assert_eq!(said(&["word", &table], b"00\nxy\n\n"), expected);
}

#[test]
fn record_answers_each_line() {
    let table = file("brackets.table", &table::write(&examples::brackets()));
    let records = b"0001ffff\n\nff\n00ff00\n00f\n02\n00FF\n00ff\r\n01ff";
    let refused = "no 22 0\nno 22 0\nno 23 2\nnot hex\nno 21 0\nnot hex\nnot hex\n";
    let words = format!("word 4 1 285b5d29\n{refused}word 2 1 5b5d\n");
    assert_eq!(said(&["record", "word", &table], records), words);
    let trees = format!("tree 0001020202\n{refused}tree 010202\n");
    assert_eq!(said(&["record", "tree", &table], records), trees);
    let trees = b"0001020202\n\n02\n0002010202\n0\n03\n0002\n010202";
    let back = "record 0001ffff\nno 6 0\nno 24 0\nno 24 2\nnot hex\nno 7 0\nno 8 2\n\
        record 01ff\n";
    assert_eq!(said(&["record", "back", &table], trees), back);
    for mode in ["word", "tree", "back"] {
        assert_eq!(said(&["record", mode, &table], b""), "");
    }
}

#[test]
fn record_with_an_empty_word() {
    let mut quiet = examples::brackets();
    for rule in &mut quiet.rules {
        rule.before.clear();
        rule.children
            .iter_mut()
            .for_each(|child| child.after.clear());
    }
    let table = file("quiet.table", &table::write(&quiet));
    assert_eq!(said(&["record", "word", &table], b"00ff\n"), "word 0 1\n");
}

#[test]
fn record_by_a_refused_table() {
    let damaged = file("damaged.table", b"0102\n04\n");
    let listing = file("listing.table", LISTING_INPUT.as_bytes());
    for mode in ["word", "tree", "back"] {
        let answers = "no 3 5\nnot hex\nno 3 5\n";
        assert_eq!(said(&["record", mode, &damaged], b"00ff\nxy\n\n"), answers);
        let answers = "no 20 1\nnot hex\nno 20 1\n";
        assert_eq!(said(&["record", mode, &listing], b"00ff\n0\n\n"), answers);
    }
}

#[test]
fn record_in_another_mode() {
    let output = second(&["record", "words", "lacking.table"], b"");
    let message = String::from_utf8(output.stderr).unwrap();
    assert_eq!(
        message,
        "words: not a mode; there are word, tree and back\n"
    );
    assert!(output.stdout.is_empty());
    assert_eq!(output.status.code(), Some(2));
}

#[test]
fn compare_answers() {
    let first = file("first.table", LISTING_INPUT.as_bytes());
    let second = file("second.table", LISTING_OUTPUT.as_bytes());
    let late = file("late.table", &table::write(&examples::m1()));
    let turn = file("other.table", &table::write(&examples::turn()));
    let counting = file("counting.table", &table::write(&examples::counting()));
    assert_eq!(said(&["compare", &first, &second], b""), "same\n");
    assert_eq!(said(&["compare", &first, &counting], b""), "different\n");
    assert_eq!(said(&["compare", &late, &first], b""), "no 1 15 0\n");
    assert_eq!(said(&["compare", &first, &late], b""), "no 2 15 0\n");
    assert_eq!(said(&["compare", &first, &turn], b""), "no 0 19 0\n");
}

#[test]
fn files_that_cannot_be_read_are_named() {
    let good = file("good.table", LISTING_INPUT.as_bytes());
    let directory = env!("CARGO_TARGET_TMPDIR");
    let calls: [&[&str]; 5] = [
        &["word", "lacking.table"],
        &["record", "back", "lacking.table"],
        &["compare", "lacking.table", &good],
        &["compare", &good, "lacking.table"],
        &["word", directory],
    ];
    for arguments in calls {
        let output = second(arguments, b"00\n");
        let message = String::from_utf8(output.stderr).unwrap();
        assert!(output.stdout.is_empty());
        assert!(message.contains("lacking.table") || message.contains(directory));
        assert!(!output.status.success());
    }
}

#[test]
fn generated_cases_are_settled_by_the_seed() {
    let directory = PathBuf::from(env!("CARGO_TARGET_TMPDIR")).join("generated");
    let name = directory.to_str().unwrap();
    for (kind, endings) in [
        ("tables", &["table"][..]),
        ("trees", &["table", "trees"]),
        ("records", &["table", "records", "backs"]),
        ("pairs", &["a", "b"]),
    ] {
        let _ = fs::remove_dir_all(&directory);
        assert_eq!(said(&["gen", kind, "7", "50", name], b""), "");
        let content = |index: usize, ending: &str| {
            fs::read(directory.join(format!("{index:06}.{ending}"))).unwrap()
        };
        let before: Vec<Vec<u8>> = endings.iter().map(|ending| content(30, ending)).collect();
        assert_eq!(
            fs::read_dir(&directory).unwrap().count(),
            50 * endings.len()
        );
        assert_eq!(said(&["gen", kind, "7", "31", name], b""), "");
        let after: Vec<Vec<u8>> = endings.iter().map(|ending| content(30, ending)).collect();
        assert_eq!(before, after);
    }
}

#[test]
fn every_class_is_hit() {
    for (kind, count) in [
        ("tables", "2000"),
        ("trees", "2000"),
        ("records", "400"),
        ("pairs", "2000"),
    ] {
        let classes = said(&["classes", kind, "1", count], b"");
        assert!(classes.lines().count() > 10);
        assert!(
            classes.lines().all(|line| !line.ends_with(": 0")),
            "{classes}"
        );
    }
}

#[test]
fn other_calls_are_answered_with_the_usage() {
    for arguments in [
        &[][..],
        &["form", "x"],
        &["record", "word"],
        &["gen", "tables", "x", "1", "d"],
        &["what"],
    ] {
        let output = second(arguments, b"");
        assert!(output.stdout.is_empty());
        assert!(String::from_utf8(output.stderr).unwrap().contains("usage"));
        assert!(!output.status.success());
    }
}
