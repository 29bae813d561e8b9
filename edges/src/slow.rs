//! Input that comes a few bytes at a time, through pipes and named pipes: the answers are those to
//! the whole.

use std::path::Path;

use fadurinko_second::rng::Rng;

use crate::asked::Asked;
use crate::check::answered;
use crate::feed::Pieces;
use crate::report::Report;
use crate::run::{Call, Source};
use crate::second::{self, case_file};
use crate::setting::Setting;

/// A text has at most so many bytes.
const MOST_BYTES: usize = 32_768;
const TABLES: usize = 44;
const PAIRS: usize = 24;
const TREES: usize = 12;
const RECORDS: usize = 3;
/// Lengths of pieces at which buffers of usual lengths are filled unevenly.
const UNEVEN: [usize; 2] = [4_095, 65_537];
const MANY_LINES: usize = 12_000;

pub fn run(setting: &Setting, report: &mut Report) {
    let mut rng = setting.rng("slow");
    judged_and_formed(setting, &mut rng, report);
    compared(setting, &mut rng, report);
    lines(setting, &mut rng, report);
    long_texts(setting, &mut rng, report);
}

/// What is poured through a fresh named pipe, which a program is given in place of a file.
fn named(setting: &Setting, text: &[u8], rng: &mut Rng) -> std::path::PathBuf {
    let pipe = setting.named_pipe();
    Pieces::small(text, rng).pour_into_named(&pipe);
    pipe
}

fn slowly(call: Call, text: &[u8], rng: &mut Rng) -> Call {
    call.source(Source::Pieces(Pieces::small(text, rng)))
}

fn judged_and_formed(setting: &Setting, rng: &mut Rng, report: &mut Report) {
    for case in second::cases(setting, "tables", TABLES) {
        let (_, text) = case_file(&case, "table");
        let shown = case.file_name().unwrap_or_default().display();
        for name in ["judge", "form"] {
            let expected = second::on_text(setting, name, &text);
            let seen = slowly(Call::new(setting.program(name)), &text, rng).run();
            report.case(
                format!("slow: {name}, table {shown}"),
                answered(&expected, &seen),
            );
        }
    }
}

/// Both tables slowly, or one of them with the other as a file; at last one at standard input.
fn compared(setting: &Setting, rng: &mut Rng, report: &mut Report) {
    for (index, case) in second::cases(setting, "pairs", PAIRS).iter().enumerate() {
        let ((one, first), (other, second)) = (case_file(case, "a"), case_file(case, "b"));
        let expected = second::compare(setting, &one, &other);
        let given = match index % 4 {
            0 => [named(setting, &first, rng), other],
            1 => [one, named(setting, &second, rng)],
            _ => [named(setting, &first, rng), named(setting, &second, rng)],
        };
        let seen = Call::new(setting.program("compare")).args(&given).run();
        report.case(
            format!("slow: compare, pair {index}"),
            answered(&expected, &seen),
        );
    }
    let (clips, slip) = (
        setting.example("clips.table"),
        setting.example("slip.table"),
    );
    let text = std::fs::read(&clips).expect("the examples can be read");
    let call = Call::new(setting.program("compare")).args(&[Path::new("/dev/fd/0"), &slip]);
    let outcome = answered(b"different\n", &slowly(call, &text, rng).run());
    report.case("slow: compare /dev/fd/0", outcome);
}

/// Table and lines slowly.
fn lines(setting: &Setting, rng: &mut Rng, report: &mut Report) {
    for asked in Asked::all(setting) {
        let (kind, ending) = asked.cases();
        let count = if kind == "trees" { TREES } else { RECORDS };
        for (index, case) in second::cases(setting, kind, count).iter().enumerate() {
            let ((path, table), (_, lines)) = (case_file(case, "table"), case_file(case, ending));
            let expected = asked.expected(setting, &path, &lines);
            let call = asked.call(setting, &named(setting, &table, rng));
            let outcome = answered(&expected, &slowly(call, &lines, rng).run());
            report.case(format!("slow: {}, {kind} {index}", asked.name()), outcome);
        }
        uneven_pieces(setting, asked, report);
    }
}

fn uneven_pieces(setting: &Setting, asked: Asked, report: &mut Report) {
    let table = asked.example(setting);
    let lines = asked.lines(setting.rng("uneven")).take(MANY_LINES).concat();
    let expected = asked.expected(setting, &table, &lines);
    for length in UNEVEN {
        let pieces = Source::Pieces(Pieces::of_length(&lines, length));
        let seen = asked.call(setting, &table).source(pieces).run();
        report.case(
            format!("slow: {}, pieces of {length} bytes", asked.name()),
            answered(&expected, &seen),
        );
    }
}

/// A good table, and behind its end more frames, up to this length: a part of the text would be
/// answered in another way than the whole.
fn lengthened(setting: &Setting, length: usize) -> Vec<u8> {
    let clips = std::fs::read(setting.example("clips.table")).expect("the examples can be read");
    let more = b"04\n".iter().copied().cycle();
    clips.into_iter().chain(more).take(length).collect()
}

/// Texts at the limit and beyond it.
fn long_texts(setting: &Setting, rng: &mut Rng, report: &mut Report) {
    for length in [MOST_BYTES, MOST_BYTES + 1, MOST_BYTES + 7_000] {
        let text = lengthened(setting, length);
        for name in ["judge", "form"] {
            let expected = second::on_text(setting, name, &text);
            let seen = slowly(Call::new(setting.program(name)), &text, rng).run();
            report.case(
                format!("slow: {name}, {length} bytes"),
                answered(&expected, &seen),
            );
        }
        long_files(setting, &text, rng, report);
    }
}

/// A long text where a file is asked for.
fn long_files(setting: &Setting, text: &[u8], rng: &mut Rng, report: &mut Report) {
    let (clips, long) = (setting.example("clips.table"), setting.file("long", text));
    let length = text.len();
    let lines = b"000102030402\n\nno tree\n";
    for asked in Asked::all(setting) {
        let expected = asked.expected(setting, &long, lines);
        let call = asked.call(setting, &named(setting, text, rng));
        let outcome = answered(&expected, &call.reading_pipe(lines).run());
        let name = format!("slow: {}, table of {length} bytes", asked.name());
        report.case(name, outcome);
    }
    for place in 0..2 {
        let mut files = [clips.clone(), clips.clone()];
        files[place] = long.clone();
        let expected = second::compare(setting, &files[0], &files[1]);
        files[place] = named(setting, text, rng);
        let seen = Call::new(setting.program("compare")).args(&files).run();
        let name = format!("slow: compare, table {} of {length} bytes", place + 1);
        report.case(name, answered(&expected, &seen));
    }
}
