//! Damaged table texts: each fault of 1 to 5, with its number and place.

use super::sample::{self, readable, simple_rule, with_symbol, Scale};
use super::{Expected, TableCase};
use crate::examples::LISTING_INPUT;
use crate::hex;
use crate::limits::MAX_TEXT;
use crate::refusal::{FRAME_LENGTH, KIND, LINE, RANGE, TEXT_SIZE};
use crate::rng::Rng;
use crate::table::{self, Child, Table, Word};

/// The number of the round is for recipes that go through a list.
pub type Recipe = fn(&mut Rng, usize) -> TableCase;

pub const RECIPES: &[Recipe] = &[
    empty_text,
    text_too_long,
    broken_line,
    empty_line,
    no_last_line_feed,
    broken_line_after_end,
    unknown_kind,
    undue_kind,
    rule_not_rising,
    no_end,
    too_many_symbols,
    too_many_rules,
    number_out_of_range,
    state_or_symbol_out_of_range,
    word_too_long,
    frame_too_short,
    frame_too_long,
    two_faults_in_a_rule,
    two_faulty_lines,
    listing_cut,
    random_text_cut,
    random_bytes_changed,
    lines_moved,
];

/// The lines of a text without their line feeds.
struct Lines(Vec<Vec<u8>>);

impl Lines {
    fn of(frames: &[Vec<u8>]) -> Lines {
        Lines(frames.iter().map(|frame| hex::encode(frame)).collect())
    }

    fn start(&self, line: usize) -> usize {
        self.0[..line].iter().map(|line| line.len() + 1).sum()
    }

    fn text(&self) -> Vec<u8> {
        let closed = self.0.iter().flat_map(|line| [line.as_slice(), b"\n"]);
        closed.flatten().copied().collect()
    }

    fn refused(&self, number: u8, line: usize) -> TableCase {
        TableCase {
            text: self.text(),
            expected: Expected::refused(number, self.start(line)),
        }
    }
}

fn refused_frames(frames: &[Vec<u8>], number: u8, line: usize) -> TableCase {
    Lines::of(frames).refused(number, line)
}

/// A small readable table with at least one rule, one of which has a child.
fn base(rng: &mut Rng) -> Table {
    let scale = *rng.pick(&[Scale::Tiny, Scale::Small]);
    let mut table = readable(rng, scale);
    let symbol = table.arities.len();
    table = with_symbol(&table, symbol, 2);
    let child = Child {
        state: 0,
        after: b"ab".to_vec(),
    };
    let rule = simple_rule(0, symbol, b"c", vec![child.clone(), child]);
    table.rules.push(rule);
    sample::sort_rules(&mut table);
    table
}

fn head_line(table: &Table) -> usize {
    table.arities.len()
}

fn rule_line(table: &Table, rule: usize) -> usize {
    table.arities.len() + 1 + rule
}

fn empty_text(_: &mut Rng, _: usize) -> TableCase {
    TableCase {
        text: Vec::new(),
        expected: Expected::refused(TEXT_SIZE, 0),
    }
}

/// One byte too many: a table of that length, or a good text and a line feed.
fn text_too_long(rng: &mut Rng, round: usize) -> TableCase {
    let mut text = match round % 3 {
        0 => table::write(&sample::earliest_of_length(rng, MAX_TEXT + 1)),
        1 => table::write(&sample::earliest_of_length(rng, MAX_TEXT)),
        _ => vec![rng.byte(); MAX_TEXT],
    };
    text.resize(MAX_TEXT + 1, b'\n');
    TableCase {
        text,
        expected: Expected::refused(TEXT_SIZE, 0),
    }
}

fn break_line(rng: &mut Rng, line: &mut Vec<u8>) {
    let at = rng.below(line.len());
    match rng.below(6) {
        0 => line[at] = rng.byte_between(b'A', b'F'),
        1 => line[at] = *rng.pick(b"gz/:@`G \t\r\0\x80\xff"),
        2 => line.truncate(line.len() - 1),
        3 => line.push(b'0'),
        4 => line.push(b'\r'),
        _ => line.insert(0, b' '),
    }
}

fn broken_line(rng: &mut Rng, _: usize) -> TableCase {
    let mut lines = Lines::of(&table::frames(&base(rng)));
    let at = rng.below(lines.0.len());
    break_line(rng, &mut lines.0[at]);
    lines.refused(LINE, at)
}

fn empty_line(rng: &mut Rng, _: usize) -> TableCase {
    let mut lines = Lines::of(&table::frames(&base(rng)));
    let at = rng.below(lines.0.len() + 1);
    lines.0.insert(at, Vec::new());
    lines.refused(LINE, at)
}

fn no_last_line_feed(rng: &mut Rng, _: usize) -> TableCase {
    let lines = Lines::of(&table::frames(&base(rng)));
    let mut case = lines.refused(LINE, lines.0.len() - 1);
    case.text.pop();
    case
}

/// The line is tested as a line before it is found not to be due.
fn broken_line_after_end(rng: &mut Rng, _: usize) -> TableCase {
    let mut lines = Lines::of(&table::frames(&base(rng)));
    let mut line = rng.pick(&lines.0).clone();
    break_line(rng, &mut line);
    lines.0.push(line);
    lines.refused(LINE, lines.0.len() - 1)
}

/// Some of these lines have further faults; the kind comes first.
fn unknown_kind(rng: &mut Rng, _: usize) -> TableCase {
    let mut frames = table::frames(&base(rng));
    let at = rng.below(frames.len());
    frames[at][0] = *rng.pick(&[0, 5, 6, 0x10, 0x12, 0x7f, 0x80, 0xfe, 0xff]);
    if rng.percent(30) {
        frames[at].truncate(1);
    }
    refused_frames(&frames, KIND, at)
}

/// A frame of the table once more at a place where its kind is not due.
fn undue_kind(rng: &mut Rng, _: usize) -> TableCase {
    let table = base(rng);
    let mut frames = table::frames(&table);
    let head = head_line(&table);
    let end = frames.len() - 1;
    let rule = rule_line(&table, rng.below(table.rules.len()));
    let (from, to) = match rng.below(7) {
        0 => (head, 0),
        1 => (rule, rng.between(0, head)),
        2 => (end, rng.between(0, head)),
        3 => (0, rng.between(head + 1, end)),
        4 => (head, rng.between(head + 1, end)),
        5 => (end, end + 1),
        _ => (rng.below(frames.len()), end + 1),
    };
    let mut frame = frames[from].clone();
    if rng.percent(30) {
        frame.push(0);
    }
    frames.insert(to, frame);
    refused_frames(&frames, KIND, to)
}

/// A rule once more behind itself. What follows its symbol can be faulty too.
fn rule_not_rising(rng: &mut Rng, _: usize) -> TableCase {
    let table = base(rng);
    let mut frames = table::frames(&table);
    let rule = rng.below(table.rules.len());
    let to = rule_line(&table, rng.between(rule + 1, table.rules.len()));
    let mut frame = frames[rule_line(&table, rule)].clone();
    match rng.below(4) {
        0 => frame.truncate(3),
        1 => frame[3] = 33,
        2 => frame.push(0),
        _ => {}
    }
    frames.insert(to, frame);
    refused_frames(&frames, KIND, to)
}

fn no_end(rng: &mut Rng, _: usize) -> TableCase {
    let mut frames = table::frames(&base(rng));
    frames.pop();
    if rng.percent(10) {
        frames.truncate(rng.between(1, frames.len()));
    }
    let text = table::text_of_frames(&frames);
    TableCase {
        expected: Expected::refused(KIND, text.len()),
        text,
    }
}

/// The 65th symbol is refused before its arity is looked at.
fn too_many_symbols(rng: &mut Rng, _: usize) -> TableCase {
    let mut table = base(rng);
    table.arities.resize(64, 0);
    let mut frames = table::frames(&table);
    let mut symbol = vec![table::SYMBOL_FRAME, rng.byte_between(0, 6)];
    match rng.below(4) {
        0 => symbol.truncate(1),
        1 => symbol.push(0),
        _ => {}
    }
    frames.insert(64, symbol);
    refused_frames(&frames, RANGE, 64)
}

/// The 513th rule is refused before its fields are looked at.
fn too_many_rules(rng: &mut Rng, _: usize) -> TableCase {
    let mut table = sample::with_all_rules(rng);
    table.states = 9;
    let mut frames = table::frames(&table);
    let mut rule = vec![table::RULE_FRAME, 8, 0, 0, 0, 0];
    match rng.below(5) {
        0 => rule.truncate(rng.between(1, 5)),
        1 => rule.push(0),
        2 => rule[1] = rng.byte(),
        3 => rule[2] = rng.byte(),
        _ => {}
    }
    let at = frames.len() - 1;
    frames.insert(at, rule);
    refused_frames(&frames, RANGE, at)
}

/// An arity above 4, or a number of states of 0 or above 64. What follows the
/// number can be lacking: the number comes first.
fn number_out_of_range(rng: &mut Rng, _: usize) -> TableCase {
    let table = base(rng);
    let mut frames = table::frames(&table);
    let head = head_line(&table);
    let (at, number) = match rng.below(4) {
        0 => (rng.below(head), rng.byte_between(5, 255)),
        1 => (rng.below(head), 5),
        2 => (head, 0),
        _ => (head, *rng.pick(&[65, 66, 128, 255])),
    };
    frames[at][1] = number;
    match rng.below(4) {
        0 => frames[at].truncate(2),
        1 => frames[at].push(0),
        _ => {}
    }
    refused_frames(&frames, RANGE, at)
}

fn state_or_symbol_out_of_range(rng: &mut Rng, _: usize) -> TableCase {
    let mut table = base(rng);
    let rule = rng.below(table.rules.len());
    let with_child = table
        .rules
        .iter()
        .position(|rule| !rule.children.is_empty());
    let with_child = with_child.expect("the base has such a rule");
    let bad_state = *rng.pick(&[table.states, table.states + 1, 64, 255]);
    let symbols = table.arities.len() as u8;
    let at = match rng.below(4) {
        0 => {
            table.initial.state = bad_state;
            head_line(&table)
        }
        1 => {
            table.rules[rule].state = bad_state;
            rule_line(&table, rule)
        }
        2 => {
            table.rules[rule].symbol = rng.byte_between(symbols, 255);
            rule_line(&table, rule)
        }
        _ => {
            let children = &mut table.rules[with_child].children;
            let child = rng.below(children.len());
            children[child].state = bad_state;
            rule_line(&table, with_child)
        }
    };
    refused_frames(&table::frames(&table), RANGE, at)
}

/// A word of 33 letters, or a length that no letters follow.
fn word_too_long(rng: &mut Rng, _: usize) -> TableCase {
    let mut table = base(rng);
    let rule = rng.below(table.rules.len());
    let children = table.rules[rule].children.len();
    let at = rule_line(&table, rule);
    let word: Word = vec![rng.byte(); 33];
    let line = match rng.below(5) {
        0 => {
            table.initial.before = word;
            head_line(&table)
        }
        1 => {
            table.initial.after = word;
            head_line(&table)
        }
        2 if children > 0 => {
            table.rules[rule].children[rng.below(children)].after = word;
            at
        }
        3 => {
            let mut frames = table::frames(&table);
            frames[at].truncate(4);
            frames[at][3] = rng.byte_between(33, 255);
            return refused_frames(&frames, RANGE, at);
        }
        _ => {
            table.rules[rule].before = word;
            at
        }
    };
    refused_frames(&table::frames(&table), RANGE, line)
}

fn frame_too_short(rng: &mut Rng, _: usize) -> TableCase {
    let mut frames = table::frames(&base(rng));
    let at = rng.below(frames.len() - 1);
    let kept = rng.between(1, frames[at].len() - 1);
    frames[at].truncate(kept);
    refused_frames(&frames, FRAME_LENGTH, at)
}

fn frame_too_long(rng: &mut Rng, _: usize) -> TableCase {
    let mut frames = table::frames(&base(rng));
    let at = if rng.percent(30) {
        frames.len() - 1
    } else {
        rng.below(frames.len())
    };
    let extra = rng.between(1, 3);
    frames[at].extend((0..extra).map(|_| rng.byte()));
    refused_frames(&frames, FRAME_LENGTH, at)
}

/// The field further left decides, and bytes left over come last.
fn two_faults_in_a_rule(rng: &mut Rng, _: usize) -> TableCase {
    let table = base(rng);
    let mut frames = table::frames(&table);
    let rule = rng.below(table.rules.len());
    let at = rule_line(&table, rule);
    let states = table.states;
    let symbols = table.arities.len() as u8;
    let frame = &mut frames[at];
    match rng.below(5) {
        0 => {
            frame[1] = rng.byte_between(states, 255);
            frame.truncate(2);
        }
        1 => {
            frame[2] = rng.byte_between(symbols, 255);
            frame.truncate(3);
        }
        2 => {
            frame[1] = states;
            frame[2] = symbols;
        }
        3 => {
            frame[3] = 33;
            frame.push(0);
        }
        _ => {
            frame[1] = states;
            frame.push(0);
        }
    }
    refused_frames(&frames, RANGE, at)
}

/// The first faulty line answers.
fn two_faulty_lines(rng: &mut Rng, round: usize) -> TableCase {
    let first: [Recipe; 4] = [broken_line, unknown_kind, frame_too_long, word_too_long];
    let mut case = rng.pick(&first)(rng, round);
    let more: [&[u8]; 6] = [b"FF\n", b"\n", b"05\n", b"04", b"0105\n04\n", b"0400\n"];
    case.text.extend_from_slice(more[rng.below(more.len())]);
    case
}

/// The listing's table cut at every byte, one round after the other.
fn listing_cut(_: &mut Rng, round: usize) -> TableCase {
    let text = LISTING_INPUT.as_bytes();
    cut(text, round % text.len())
}

fn random_text_cut(rng: &mut Rng, _: usize) -> TableCase {
    let text = table::write(&base(rng));
    cut(&text, rng.below(text.len()))
}

/// Cut inside a line the line is not closed; cut between lines the end lacks.
fn cut(text: &[u8], length: usize) -> TableCase {
    let text = text[..length].to_vec();
    let line_start = text.iter().rposition(|&byte| byte == b'\n');
    let line_start = line_start.map_or(0, |line_feed| line_feed + 1);
    let expected = match (length, line_start) {
        (0, _) => Expected::refused(TEXT_SIZE, 0),
        (_, start) if start == length => Expected::refused(KIND, length),
        (_, start) => Expected::refused(LINE, start),
    };
    TableCase { text, expected }
}

/// Some bytes changed to what stands in texts anyway: mostly still lines.
fn random_bytes_changed(rng: &mut Rng, _: usize) -> TableCase {
    let mut text = table::write(&base(rng));
    for _ in 0..rng.between(1, 3) {
        let at = rng.below(text.len());
        text[at] = *rng.pick(b"0123456789abcdef000111222333444\n\nA");
    }
    TableCase {
        text,
        expected: Expected::Anything,
    }
}

/// Lines dropped, doubled, swapped.
fn lines_moved(rng: &mut Rng, _: usize) -> TableCase {
    let mut frames = table::frames(&base(rng));
    for _ in 0..rng.between(1, 2) {
        let from = rng.below(frames.len());
        let to = rng.below(frames.len());
        match rng.below(3) {
            0 if frames.len() > 1 => drop(frames.remove(from)),
            1 => frames.insert(to, frames[from].clone()),
            _ => frames.swap(from, to),
        }
    }
    TableCase {
        text: table::text_of_frames(&frames),
        expected: Expected::Anything,
    }
}
