//! Checks of the library against the definitions taken literally (`brute`) and
//! against what the generator knows about its cases.

mod records;

use std::io::{self, Write};

use crate::brute;
use crate::compare::{compare, Comparison};
use crate::form::{form, form_of, form_text};
use crate::gen::{pairs, sample, tables, trees};
use crate::judge::{judge, judge_table};
use crate::limits::SPACE;
use crate::refusal::{Refusal, ROOM};
use crate::rng::Rng;
use crate::table::{self, Child, Initial, Rule, Table, Word};
use crate::tree::check_shape;
use crate::walk::{word, Found, Walker};

/// How often one check was tried, and what went wrong first.
#[derive(Default)]
struct Tally {
    cases: usize,
    failures: usize,
    first_failure: Option<String>,
}

impl Tally {
    fn expect(&mut self, holds: bool, describe: impl FnOnce() -> String) {
        self.cases += 1;
        if !holds {
            self.failures += 1;
            self.first_failure.get_or_insert_with(describe);
        }
    }
}

type Check = (&'static str, fn(&mut Rng, &mut Tally));

const CHECKS: &[Check] = &[
    ("reading undoes writing", reading_undoes_writing),
    ("writing undoes reading", writing_undoes_reading),
    ("generated tables answer as they were made", tables_as_made),
    ("generated pairs answer as they were made", pairs_as_made),
    ("shapes of all short byte strings", shapes_of_short_strings),
    ("words of all small trees", words_of_small_trees),
    ("words of generated tree lines", words_of_generated_lines),
    (
        "judgements hold on all small trees",
        judgements_on_small_trees,
    ),
    (
        "judgements from all trees deep enough",
        judgements_from_deep_trees,
    ),
    ("judgements from whole languages", judgements_from_languages),
    (
        "a form is earliest and numbered in order",
        forms_are_in_order,
    ),
    ("a form gives every tree the same word", forms_keep_words),
    ("a form's states are all told apart", forms_have_no_twins),
    (
        "the form of a form is the form, none is longer",
        forms_of_forms,
    ),
    ("same exactly when all trees agree", same_means_agreeing),
    ("same exactly when the forms agree", same_means_equal_forms),
    ("a word in every room", words_in_rooms),
    ("a form in every room", forms_in_rooms),
    ("symbol lists for records", records::lists),
    ("every small record both ways", records::both_ways),
    ("streams of all short byte strings", records::short_streams),
    ("records of all short trees", records::short_trees),
    ("words of all small records", records::words),
    ("generated records and trees", records::generated_lines),
    ("records and trees in every room", records::in_rooms),
];

/// Runs all checks, one line each; says whether all passed.
pub fn run(seed: u64, out: &mut impl Write) -> io::Result<bool> {
    let mut failed = 0;
    for (index, (name, check)) in CHECKS.iter().enumerate() {
        let mut tally = Tally::default();
        check(&mut Rng::for_case(seed, index), &mut tally);
        // A check that tried nothing says nothing.
        tally.expect(tally.cases > 0, || "no case was tried".to_string());
        match &tally.first_failure {
            None => writeln!(out, "ok {name} ({} cases)", tally.cases - 1)?,
            Some(failure) => {
                failed += 1;
                let Tally {
                    failures, cases, ..
                } = tally;
                writeln!(out, "FAILED {name} ({failures} of {cases}): {failure}")?;
            }
        }
        out.flush()?;
    }
    writeln!(out, "{} checks, {failed} failed", CHECKS.len())?;
    Ok(failed == 0)
}

fn shown(table: &Table) -> String {
    String::from_utf8_lossy(&table::write(table)).replace('\n', " ")
}

/// Symbol lists whose trees can be counted.
const SMALL_LISTS: [&[u8]; 9] = [
    &[0],
    &[1, 0],
    &[0, 1, 0],
    &[1, 1, 0],
    &[2, 0],
    &[0, 2, 0],
    &[2, 1, 0],
    &[1, 0, 0, 0],
    &[3, 0, 0],
];

/// Over two letters, one of which splits terms.
const SHORT_WORDS: [&[u8]; 8] = [b"", b"", b"", b"a", b" ", b"a ", b" a", b"  "];

fn short_word(rng: &mut Rng) -> Word {
    rng.pick(&SHORT_WORDS).to_vec()
}

/// A table with few states and short words over two letters; nearly all rules
/// are there in some, few in others.
fn tiny_table(rng: &mut Rng, arities: &[u8], states: usize) -> Table {
    let filled = *rng.pick(&[40, 70, 90, 100]);
    let mut rules = Vec::new();
    for state in 0..states as u8 {
        for (symbol, &arity) in arities.iter().enumerate() {
            if rng.percent(filled) {
                rules.push(tiny_rule(rng, (state, symbol as u8), arity, states));
            }
        }
    }
    Table {
        arities: arities.to_vec(),
        states: states as u8,
        initial: Initial {
            before: short_word(rng),
            state: rng.below(states) as u8,
            after: short_word(rng),
        },
        rules,
    }
}

fn tiny_rule(rng: &mut Rng, (state, symbol): (u8, u8), arity: u8, states: usize) -> Rule {
    let before = short_word(rng);
    let child = |_| Child {
        state: rng.below(states) as u8,
        after: short_word(rng),
    };
    Rule {
        state,
        symbol,
        before,
        children: (0..arity).map(child).collect(),
    }
}

fn any_tiny_table(rng: &mut Rng, most_states: usize) -> Table {
    let arities = *rng.pick(&SMALL_LISTS);
    let states = rng.between(1, most_states);
    tiny_table(rng, arities, states)
}

/// A tiny table that is earliest by the definitions, not by the judgement. The
/// number of states is settled first, since those with one state are found most
/// easily; it falls where no table is found for long (a list of leaves alone
/// has none with two states).
fn tiny_earliest(rng: &mut Rng, arities: &[u8], most_states: usize) -> Table {
    let mut states = rng.between(1, most_states);
    loop {
        for _ in 0..1_000 {
            let table = tiny_table(rng, arities, states);
            if brute::judgement(&table, &brute::languages(&table)).is_ok() {
                return table;
            }
        }
        states = 1.max(states - 1);
    }
}

/// An earliest table for the checks of forms: found or made, with twins or not.
fn some_earliest(rng: &mut Rng) -> Table {
    let arities = *rng.pick(&SMALL_LISTS);
    let mut table = match rng.below(3) {
        0 => tiny_earliest(rng, arities, 3),
        1 => tiny_earliest(rng, arities, 2),
        _ => nearly_twins(rng),
    };
    for _ in 0..rng.below(4) {
        table = sample::with_twin(rng, &table);
    }
    let order = sample::random_order(rng, usize::from(table.states));
    sample::renumbered(&table, &order)
}

/// A table whose states differ little, in a later child or far below.
fn nearly_twins(rng: &mut Rng) -> Table {
    let lists: [&[u8]; 4] = [&[0, 1, 0], &[0, 2, 0], &[1, 0, 0, 0], &[3, 0, 0]];
    let states = rng.between(1, 3);
    let list = *rng.pick(&lists);
    let mut table = sample::earliest_over(rng, list, states);
    for _ in 0..rng.below(3) {
        table = sample::with_near_twin(rng, &table);
    }
    table
}

fn reading_undoes_writing(rng: &mut Rng, tally: &mut Tally) {
    for _ in 0..2_000 {
        let scale = *rng.pick(&[sample::Scale::Tiny, sample::Scale::Small]);
        let table = match rng.below(3) {
            0 => sample::readable(rng, scale),
            1 => sample::earliest(rng, scale),
            _ => any_tiny_table(rng, 4),
        };
        let back = table::read(&table::write(&table));
        tally.expect(back.as_ref() == Ok(&table), || shown(&table));
    }
}

fn writing_undoes_reading(rng: &mut Rng, tally: &mut Tally) {
    let seed = rng.below(1 << 30) as u64;
    for index in 0..4_000 {
        let text = tables::case(seed, index).text;
        if let Ok(table) = table::read(&text) {
            tally.expect(table::write(&table) == text, || shown(&table));
        }
    }
}

fn tables_as_made(rng: &mut Rng, tally: &mut Tally) {
    let seed = rng.below(1 << 30) as u64;
    for index in 0..8_000 {
        let case = tables::case(seed, index);
        let answer = judge(&case.text);
        tally.expect(case.expected.allows(answer), || {
            format!(
                "case {index} of seed {seed}: {:?} {answer:?}",
                case.expected
            )
        });
    }
}

fn pairs_as_made(rng: &mut Rng, tally: &mut Tally) {
    let seed = rng.below(1 << 30) as u64;
    for index in 0..6_000 {
        let case = pairs::case(seed, index);
        let answer = compare(&case.first, &case.second);
        tally.expect(case.expected.allows(answer), || {
            format!(
                "case {index} of seed {seed}: {:?} {answer:?}",
                case.expected
            )
        });
    }
}

/// Over each small symbol list, with one symbol that is not in the list.
fn shapes_of_short_strings(_: &mut Rng, tally: &mut Tally) {
    for arities in SMALL_LISTS {
        let mut strings: Vec<Vec<u8>> = vec![Vec::new()];
        let mut length_done = 0;
        while length_done < 6 {
            for string in &strings {
                let expected = brute::tree_of_bytes(arities, string).map(|_| ());
                let answer = check_shape(arities, string);
                tally.expect(answer == expected, || format!("{arities:?} {string:?}"));
            }
            let longer = |string: &Vec<u8>| {
                let symbols = 0..=arities.len() as u8;
                symbols
                    .map(|symbol| [&string[..], &[symbol]].concat())
                    .collect::<Vec<_>>()
            };
            strings = strings.iter().flat_map(longer).collect();
            length_done += 1;
        }
    }
}

/// Whether an answer, with the letters written, is the word or refusal expected.
fn is_expected(
    answer: Result<Found, Refusal>,
    written: &[u8],
    expected: Result<Word, Refusal>,
) -> bool {
    match (answer, expected) {
        (Ok(found), Ok(word)) => {
            let terms = word.split(|&letter| letter == SPACE).count();
            written == word && found.length == word.len() && found.terms == terms
        }
        (Err(refusal), Err(expected)) => refusal == expected,
        _ => false,
    }
}

fn words_of_small_trees(rng: &mut Rng, tally: &mut Tally) {
    for _ in 0..400 {
        let table = any_tiny_table(rng, 4);
        let walker = Walker::new(&table);
        let (trees, _) = brute::all_trees(&table.arities, 6, 400);
        for tree in trees {
            let bytes = tree.preorder();
            let mut out = Vec::new();
            let answer = walker.word(&bytes, &mut out);
            let expected = brute::word_of_bytes(&table, &bytes);
            let agrees = is_expected(answer, &out, expected);
            tally.expect(agrees, || format!("{} {bytes:?}", shown(&table)));
        }
    }
}

fn words_of_generated_lines(rng: &mut Rng, tally: &mut Tally) {
    let seed = rng.below(1 << 30) as u64;
    for index in 0..160 {
        let case = trees::case(seed, index);
        let Ok(table) = table::read(&case.table) else {
            continue;
        };
        let walker = Walker::new(&table);
        for line in case.lines.split(|&byte| byte == b'\n') {
            let Some(bytes) = crate::hex::decode(line) else {
                continue;
            };
            let mut out = Vec::new();
            let answer = walker.word(&bytes, &mut out);
            let expected = brute::word_of_bytes(&table, &bytes);
            tally.expect(is_expected(answer, &out, expected), || {
                format!(
                    "case {index} of seed {seed}: {}",
                    String::from_utf8_lossy(line)
                )
            });
        }
    }
}

/// What a judgement claims of all words holds on the words of some trees.
fn judgements_on_small_trees(rng: &mut Rng, tally: &mut Tally) {
    for _ in 0..1_500 {
        let table = any_tiny_table(rng, 4);
        let Err(refusal) = judge_table(&table) else {
            continue;
        };
        let (trees, _) = brute::all_trees(&table.arities, 8, 600);
        let some_words = brute::languages_over(&table, &trees);
        let holds = brute::is_not_contradicted(&table, refusal, &some_words);
        tally.expect(holds, || format!("{} {refusal}", shown(&table)));
    }
}

/// With n states, each end that L(q) has is shown by a tree of depth 2n: at
/// most n states along a way to the letter, and beside it trees of depth n that
/// give the empty word or any word. So these trees settle the judgement.
fn judgements_from_deep_trees(rng: &mut Rng, tally: &mut Tally) {
    for _ in 0..4_000 {
        let table = any_tiny_table(rng, 3);
        let enough = 2 * usize::from(table.states);
        let (trees, depth) = brute::all_trees(&table.arities, enough, 2_000);
        if depth == enough {
            let words = brute::languages_over(&table, &trees);
            let expected = brute::judgement(&table, &words);
            let answer = judge_table(&table);
            tally.expect(answer == expected, || {
                format!("{} {answer:?}", shown(&table))
            });
        }
    }
}

fn judgements_from_languages(rng: &mut Rng, tally: &mut Tally) {
    for round in 0..12_000 {
        let table = match round % 4 {
            0 => sample::readable(rng, sample::Scale::Tiny),
            1 => sample::earliest(rng, sample::Scale::Tiny),
            _ => any_tiny_table(rng, 4),
        };
        let expected = brute::judgement(&table, &brute::languages(&table));
        let answer = judge_table(&table);
        tally.expect(answer == expected, || {
            format!("{} {answer:?}", shown(&table))
        });
    }
}

/// Following the form from its initial state in the stated order, each state
/// that was not met before has the next number.
fn is_numbered_in_order(form: &Table) -> bool {
    let mut met = 1;
    for state in 0..form.states {
        for rule in form.rules.iter().filter(|rule| rule.state == state) {
            for child in &rule.children {
                if child.state > met {
                    return false;
                }
                met = met.max(child.state + 1);
            }
        }
    }
    form.initial.state == 0 && met == form.states
}

fn forms_are_in_order(rng: &mut Rng, tally: &mut Tally) {
    for _ in 0..3_000 {
        let table = some_earliest(rng);
        let form = form_of(&table);
        let is_earliest = brute::judgement(&form, &brute::languages(&form)).is_ok();
        let keeps = form.arities == table.arities
            && form.initial.before == table.initial.before
            && form.initial.after == table.initial.after;
        let holds = is_earliest && keeps && is_numbered_in_order(&form);
        tally.expect(holds, || shown(&table));
    }
}

fn forms_keep_words(rng: &mut Rng, tally: &mut Tally) {
    for _ in 0..600 {
        let table = some_earliest(rng);
        let form = form_of(&table);
        let (trees, _) = brute::all_trees(&table.arities, 6, 300);
        for tree in trees {
            let word = brute::word_of_table(&table, &tree);
            let agrees = brute::word_of_table(&form, &tree) == word;
            tally.expect(agrees, || format!("{} {tree:?}", shown(&table)));
        }
    }
}

/// Each two states of a form have other words on some tree.
fn forms_have_no_twins(rng: &mut Rng, tally: &mut Tally) {
    for _ in 0..2_000 {
        let form = form_of(&some_earliest(rng));
        for one in 0..form.states {
            for other in 0..one {
                let told_apart = EFFORTS.iter().any(|&(size, most)| {
                    let trees = brute::telling_trees(&[&form], size, most);
                    trees.iter().any(|tree| {
                        brute::word_of_state(&form, one, tree)
                            != brute::word_of_state(&form, other, tree)
                    })
                });
                tally.expect(told_apart, || format!("{} {one} {other}", shown(&form)));
            }
        }
    }
}

/// Up to which size and among how many trees a difference is looked for, one
/// after the other: nearly all are found by the first.
const EFFORTS: [(usize, usize); 3] = [(5, 60), (9, 700), (15, 6_000)];

fn forms_of_forms(rng: &mut Rng, tally: &mut Tally) {
    for round in 0..3_000 {
        let table = match round % 100 {
            0 => tables::random_ring(rng),
            1 => tables::at_a_limit(rng, round / 100),
            2 => sample::earliest(rng, sample::Scale::Large),
            _ => some_earliest(rng),
        };
        let text = table::write(&table);
        let form = form_text(&text);
        let holds = form
            .as_ref()
            .is_ok_and(|form| form.len() <= text.len() && form_text(form).as_ref() == Ok(form));
        tally.expect(holds, || shown(&table));
    }
}

/// Whether two tables give the same word to all trees that tell their states
/// apart.
fn agree_on_trees(first: &Table, second: &Table, (size, most): (usize, usize)) -> bool {
    let trees = brute::telling_trees(&[first, second], size, most);
    trees
        .iter()
        .all(|tree| brute::word_of_table(first, tree) == brute::word_of_table(second, tree))
}

/// A table to compare with: unrelated, the same in disguise, or with one rule
/// changed, and in each case earliest by the definitions.
fn rival(rng: &mut Rng, table: &Table) -> Table {
    let mut other = table.clone();
    match rng.below(4) {
        0 => return tiny_earliest(rng, &table.arities, 2),
        1 => {}
        _ => {
            let rule = rng.below(other.rules.len());
            let (key, arity) = (other.rules[rule].key(), other.rules[rule].children.len());
            other.rules[rule] = tiny_rule(rng, key, arity as u8, usize::from(other.states));
        }
    }
    if rng.percent(50) {
        other = sample::with_twin(rng, &other);
    }
    if brute::judgement(&other, &brute::languages(&other)).is_err() {
        return table.clone();
    }
    let order = sample::random_order(rng, usize::from(other.states));
    sample::renumbered(&other, &order)
}

fn same_means_agreeing(rng: &mut Rng, tally: &mut Tally) {
    for _ in 0..2_000 {
        let arities = *rng.pick(&SMALL_LISTS[..8]);
        let first = tiny_earliest(rng, arities, 3);
        let second = rival(rng, &first);
        let answer = compare(&table::write(&first), &table::write(&second));
        let holds = match answer {
            Ok(Comparison::Same) => agree_on_trees(&first, &second, (9, 300)),
            Ok(Comparison::Different) => EFFORTS
                .iter()
                .any(|&effort| !agree_on_trees(&first, &second, effort)),
            Err(_) => false,
        };
        tally.expect(holds, || {
            format!("{} against {}: {answer:?}", shown(&first), shown(&second))
        });
    }
}

fn same_means_equal_forms(rng: &mut Rng, tally: &mut Tally) {
    let seed = rng.below(1 << 30) as u64;
    for index in 0..4_000 {
        let case = pairs::case(seed, index);
        if let Ok(answer) = compare(&case.first, &case.second) {
            let forms_agree = form_text(&case.first) == form_text(&case.second);
            let holds = forms_agree == (answer == Comparison::Same);
            tally.expect(holds, || format!("case {index} of seed {seed}"));
        }
    }
}

/// Tries rooms from none to more than enough: a short one is refused with the
/// length needed and unchanged, a long one is unchanged behind the output.
fn in_every_room(
    output: &[u8],
    call: impl Fn(&mut [u8]) -> Result<usize, Refusal>,
) -> Result<(), usize> {
    for length in 0..output.len() + 3 {
        let untouched: Vec<u8> = (0..length).map(|index| !(index as u8)).collect();
        let mut room = untouched.clone();
        let answer = call(&mut room);
        let holds = if length < output.len() {
            answer == Err(Refusal::new(ROOM, output.len())) && room == untouched
        } else {
            answer == Ok(output.len())
                && room[..output.len()] == *output
                && room[output.len()..] == untouched[output.len()..]
        };
        if !holds {
            return Err(length);
        }
    }
    Ok(())
}

fn words_in_rooms(rng: &mut Rng, tally: &mut Tally) {
    for _ in 0..300 {
        let table = any_tiny_table(rng, 3);
        let text = table::write(&table);
        for tree in brute::all_trees(&table.arities, 4, 30).0 {
            if let Some(expected) = brute::word_of_table(&table, &tree) {
                let bytes = tree.preorder();
                let result = in_every_room(&expected, |room| {
                    word(&text, &bytes, room).map(|found| found.length)
                });
                tally.expect(result.is_ok(), || format!("{} {result:?}", shown(&table)));
            }
        }
    }
}

fn forms_in_rooms(rng: &mut Rng, tally: &mut Tally) {
    for _ in 0..100 {
        let table = some_earliest(rng);
        let text = table::write(&table);
        let expected = table::write(&form_of(&table));
        let result = in_every_room(&expected, |room| form(&text, room));
        tally.expect(result.is_ok(), || format!("{} {result:?}", shown(&table)));
    }
}
