//! The judgement, of a text and of an opened table.

use std::hint::black_box;

use fadurinko_second::judge as second;
use fadurinko_second::refusal::Refusal;
use fadurinko_second::table::{self, Table};

use crate::best;
use crate::opened::Opened;
use crate::proved;
use crate::shapes::{self, Shaped};
use crate::task::{checking, hand, wanted, Task};
use crate::tuned;

type Answer = Result<(), (u8, usize)>;

fn second_told(judged: Result<(), Refusal>) -> Answer {
    judged.map_err(|no| (no.number, no.place))
}

fn opened(text: &[u8]) -> Opened {
    let mut opened = Opened::blank();
    assert_eq!(proved::open(text, &mut opened), Ok(()));
    opened
}

fn agree(text: &[u8]) {
    let answer = proved::judge(text);
    assert_eq!(answer, second_told(second::judge(text)));
    assert_eq!(answer, tuned::judge::judge(text, &mut Opened::blank()));
    assert_eq!(answer, best::judge::judge(text));
}

fn agree_opened(opened: &Opened, read: &Table) {
    let answer = proved::judge_opened(opened);
    assert_eq!(answer, second_told(second::judge_table(read)));
    assert_eq!(answer, tuned::judge::judge_opened(opened));
    assert_eq!(answer, best::opened::judge_opened(opened));
}

fn of_text(shaped: &'static Shaped) -> Option<Task> {
    let name = format!("judge, {shaped}");
    if !wanted(&name) {
        return None;
    }
    let text: &[u8] = &shaped.text;
    if checking() {
        agree(text);
    }
    let mut table = Opened::blank();
    Some(Task {
        name,
        unit: "rule",
        units: shaped.table.rules.len(),
        hands: vec![
            hand("proved", move || proved::judge(black_box(text))),
            hand("plain", move || second::judge(black_box(text))),
            hand("tuned", move || {
                tuned::judge::judge(black_box(text), &mut table)
            }),
            hand("best", move || best::judge::judge(black_box(text))),
        ],
    })
}

fn of_opened(shaped: &'static Shaped) -> Option<Task> {
    let name = format!("judge opened, {shaped}");
    if !wanted(&name) {
        return None;
    }
    let opened: &'static Opened = Box::leak(Box::new(opened(&shaped.text)));
    let read = table::read(&shaped.text).expect("the text is readable");
    if checking() {
        agree_opened(opened, &read);
    }
    Some(Task {
        name,
        unit: "rule",
        units: shaped.table.rules.len(),
        hands: vec![
            hand("proved", move || proved::judge_opened(black_box(opened))),
            hand("plain", move || second::judge_table(black_box(&read))),
            hand("tuned", move || {
                tuned::judge::judge_opened(black_box(opened))
            }),
            hand("best", move || {
                best::opened::judge_opened(black_box(opened))
            }),
        ],
    })
}

pub fn tasks() -> Vec<Task> {
    let texts = shapes::all().iter().filter_map(of_text);
    texts
        .chain(shapes::all().iter().filter_map(of_opened))
        .collect()
}

/// The unproved hands are tried on generated texts, which are refused in every way.
#[cfg(test)]
mod tests {
    use super::*;
    use fadurinko_second::gen::tables;

    #[test]
    fn all_hands_judge_as_the_second_program_does() {
        let mut table = Opened::blank();
        for index in 0..10_000 {
            let text = tables::case(5, index).text;
            let answer = second_told(second::judge(&text));
            assert_eq!(
                tuned::judge::judge(&text, &mut table),
                answer,
                "case {index}"
            );
            assert_eq!(best::judge::judge(&text), answer, "case {index}");
            if tuned::open::open(&text, &mut table).is_ok() {
                assert_eq!(best::opened::judge_opened(&table), answer, "case {index}");
            }
        }
    }
}
