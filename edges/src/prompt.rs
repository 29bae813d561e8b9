//! `word` and `record` answer a line as soon as it has come: both of their ends are pipes that stay open,
//! and each answer is waited for before more is sent.

use std::io::{BufRead, BufReader, Write};
use std::path::Path;
use std::process::{ChildStdin, ChildStdout, Command, Stdio};
use std::sync::mpsc::{self, Receiver, Sender};
use std::thread;
use std::time::{Duration, Instant};

use crate::asked::Asked;
use crate::check::same_bytes;
use crate::lines::Lines;
use crate::longest;
use crate::report::Report;
use crate::run::{Kept, AT_ONCE};
use crate::setting::Setting;

/// Between two pieces of a line.
const PAUSE: Duration = Duration::from_millis(50);
const TURNS: usize = 20;

/// What is sent before answers are waited for: pieces with a pause between.
type Turn = Vec<Vec<u8>>;

pub fn run(setting: &Setting, report: &mut Report) {
    for asked in Asked::all(setting) {
        talks(setting, asked, report);
    }
    let table = setting.file("longest.table", &longest::table());
    let outcome = long_talk(setting, Asked::Word, &table, &longest::tree());
    report.case("prompt: the longest word", outcome);
    if setting.has_record() {
        let table = setting.file("longest.table", &longest::record_table());
        let record = longest::record(longest::MOST_ELEMENTS);
        let outcome = long_talk(setting, Asked::RecordWord, &table, &record);
        report.case("prompt: the largest record", outcome);
    }
}

fn talks(setting: &Setting, asked: Asked, report: &mut Report) {
    let name = asked.name();
    let table = asked.example(setting);
    let mut lines = asked.lines(setting.rng("prompt"));
    let turns: Vec<Turn> = (0..TURNS).map(|_| lines.take(1)).collect();
    let outcome = talk(setting, asked, &table, &turns);
    report.case(format!("prompt: {name}, line by line"), outcome);
    for (pieces, turn) in [
        ("a line in two pieces", two_pieces(&mut lines)),
        ("three lines in one piece", vec![lines.take(3).concat()]),
        ("a piece that ends in a line", ends_in_a_line(&mut lines)),
    ] {
        let turns = [lines.take(1), turn, lines.take(1)];
        let outcome = talk(setting, asked, &table, &turns);
        report.case(format!("prompt: {name}, {pieces}"), outcome);
    }
    let mut open = lines.take(1);
    open[0].pop();
    let turns = [lines.take(1), open];
    let outcome = talk(setting, asked, &table, &turns);
    report.case(
        format!("prompt: {name}, a last line that is not closed"),
        outcome,
    );
    let outcome = talk(setting, asked, &table, &[]);
    report.case(format!("prompt: {name}, no line at all"), outcome);
}

fn two_pieces(lines: &mut Lines) -> Turn {
    let line = lines.take(1).concat();
    let (front, back) = line.split_at(line.len() / 2);
    vec![front.to_vec(), back.to_vec()]
}

/// Two lines and the front of a third: the two are answered before the rest has come.
fn ends_in_a_line(lines: &mut Lines) -> Turn {
    let two = lines.take(2).concat();
    let third = two_pieces(lines);
    vec![[two, third[0].clone()].concat(), third[1].clone()]
}

/// A long line between short ones.
fn long_talk(setting: &Setting, asked: Asked, table: &Path, long: &[u8]) -> Result<(), String> {
    let line = format!("{}\n", longest::hexadecimal(long)).into_bytes();
    let turns = [vec![b"01\n".to_vec()], vec![line], vec![b"0201\n".to_vec()]];
    talk(setting, asked, table, &turns)
}

/// Sends turn by turn and hears the answers, those of the second program; then closes the input and
/// sees the end.
fn talk(setting: &Setting, asked: Asked, table: &Path, turns: &[Turn]) -> Result<(), String> {
    let all = turns.concat().concat();
    let expected = asked.expected(setting, table, &all);
    let mut answers = expected.split_inclusive(|&byte| byte == b'\n');
    let mut talk = Talk::start(setting, asked, table)?;
    for piece in turns.iter().flat_map(|turn| turn.iter().enumerate()) {
        let (place, piece) = piece;
        if place > 0 {
            thread::sleep(PAUSE);
        }
        talk.send(piece);
        for _ in piece.iter().filter(|&&byte| byte == b'\n') {
            let answer = answers.next().expect("each line has an answer");
            talk.hear(answer)?;
        }
    }
    talk.close();
    for answer in answers {
        talk.hear(answer)?;
    }
    talk.end()
}

/// A running program, what is sent to it while its input is open, and its answers, line by line.
struct Talk {
    program: Kept,
    input: Option<Sender<Vec<u8>>>,
    answers: Receiver<Vec<u8>>,
}

impl Talk {
    fn start(setting: &Setting, asked: Asked, table: &Path) -> Result<Talk, String> {
        let mut command = Command::new(asked.program(setting));
        command.args(asked.arguments(table)).stdin(Stdio::piped());
        command.stdout(Stdio::piped()).stderr(Stdio::null());
        let child = command.spawn();
        let mut program = Kept(child.map_err(|error| format!("could not be started: {error}"))?);
        let input = program.0.stdin.take().expect("it was asked for");
        let output = program.0.stdout.take().expect("it was asked for");
        Ok(Talk {
            program,
            input: Some(sender_to(input)),
            answers: lines_of(output),
        })
    }

    fn send(&mut self, piece: &[u8]) {
        let input = self.input.as_ref();
        let input = input.expect("nothing is sent once it is closed");
        // Where nobody listens any more the answer is waited for in vain, which is told.
        let _ = input.send(piece.to_vec());
    }

    fn hear(&self, expected: &[u8]) -> Result<(), String> {
        match self.answers.recv_timeout(AT_ONCE) {
            Ok(answer) => same_bytes(expected, &answer),
            Err(_) => Err(format!("expected an answer, seen none within {AT_ONCE:?}")),
        }
    }

    fn close(&mut self) {
        self.input = None;
    }

    /// That it ends, and says nothing more.
    fn end(mut self) -> Result<(), String> {
        let ended = self.program.end_by(Instant::now() + AT_ONCE);
        if ended.is_none_or(|status| status.code().is_none()) {
            return Err(format!(
                "expected an end, seen {ended:?} within {AT_ONCE:?}"
            ));
        }
        match self.answers.recv_timeout(AT_ONCE) {
            Ok(more) => same_bytes(b"", &more),
            Err(_) => Ok(()),
        }
    }
}

/// Writes from a thread of its own, so that a program that does not read holds nobody up.
fn sender_to(mut input: ChildStdin) -> Sender<Vec<u8>> {
    let (sender, pieces) = mpsc::channel::<Vec<u8>>();
    thread::spawn(move || {
        for piece in pieces {
            if input.write_all(&piece).is_err() {
                return;
            }
        }
    });
    sender
}

fn lines_of(output: ChildStdout) -> Receiver<Vec<u8>> {
    let (sender, lines) = mpsc::channel();
    thread::spawn(move || {
        let mut output = BufReader::new(output);
        let mut line = Vec::new();
        while let Ok(1..) = output.read_until(b'\n', &mut line) {
            if sender.send(std::mem::take(&mut line)).is_err() {
                return;
            }
        }
    });
    lines
}
