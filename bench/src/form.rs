//! The form of a text.

use std::hint::black_box;

use fadurinko_second::form as second;

use crate::best;
use crate::opened::Opened;
use crate::proved::{self, LONGEST};
use crate::shapes::{self, Shaped};
use crate::task::{checking, hand, wanted, Task};
use crate::tuned;

fn room() -> Vec<u8> {
    vec![0; LONGEST]
}

/// The form's text as each hand writes it; all of them must agree.
fn agree(text: &[u8]) {
    let (mut one, mut other, mut third) = (room(), room(), room());
    let form = second::form_text(text).expect("every shape is earliest");
    let n = form.len();
    assert_eq!(proved::form(text, &mut one), Ok(n));
    assert_eq!(
        tuned::form::form(text, &mut Opened::blank(), &mut other),
        Ok(n)
    );
    assert_eq!(best::form::form(text, &mut third), Ok(n));
    assert!(one[..n] == form && other[..n] == form && third[..n] == form);
}

fn of_text(shaped: &'static Shaped) -> Option<Task> {
    let name = format!("form, {shaped}");
    if !wanted(&name) {
        return None;
    }
    let text: &[u8] = &shaped.text;
    if checking() {
        agree(text);
    }
    let mut table = Opened::blank();
    let (mut one, mut two, mut three, mut four) = (room(), room(), room(), room());
    Some(Task {
        name,
        unit: "rule",
        units: shaped.table.rules.len(),
        hands: vec![
            hand("proved", move || proved::form(black_box(text), &mut one)),
            hand("plain", move || second::form(black_box(text), &mut two)),
            hand("tuned", move || {
                tuned::form::form(black_box(text), &mut table, &mut three)
            }),
            hand("best", move || best::form::form(black_box(text), &mut four)),
        ],
    })
}

pub fn tasks() -> Vec<Task> {
    shapes::all().iter().filter_map(of_text).collect()
}

/// The unproved hands are tried on generated texts, with rooms that are too short too.
#[cfg(test)]
mod tests {
    use super::*;
    use fadurinko_second::gen::tables;

    /// The answer, and what a room full of other bytes holds then.
    type Formed = (Result<usize, (u8, usize)>, Vec<u8>);

    fn formed(size: usize, form: impl FnOnce(&mut [u8]) -> Result<usize, (u8, usize)>) -> Formed {
        let mut room = vec![170; size];
        let answer = form(&mut room);
        (answer, room)
    }

    #[test]
    fn all_hands_form_as_the_second_program_does() {
        let mut table = Opened::blank();
        for index in 0..10_000 {
            let text = tables::case(5, index).text;
            let needed = second::form_text(&text).map_or(0, |form| form.len());
            for size in [needed.saturating_sub(1), needed, needed + 50] {
                let told =
                    |room: &mut [u8]| second::form(&text, room).map_err(|no| (no.number, no.place));
                let answer = formed(size, told);
                assert!(
                    formed(size, |room| tuned::form::form(&text, &mut table, room)) == answer,
                    "case {index}"
                );
                assert!(
                    formed(size, |room| best::form::form(&text, room)) == answer,
                    "case {index}"
                );
            }
        }
    }
}
