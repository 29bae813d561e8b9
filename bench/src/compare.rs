//! The comparison of a text with that of the same table in another order, and with one that differs
//! in a letter.

use std::hint::black_box;

use fadurinko_second::compare::{self as second, Comparison};

use crate::best;
use crate::proved;
use crate::shapes::{self, Shaped};
use crate::task::{checking, hand, wanted, Task};
use crate::tuned::{self, compare::Desk};

fn agree(first: &[u8], other: &[u8], same: bool) {
    let answer = if same {
        Comparison::Same
    } else {
        Comparison::Different
    };
    let mut desks = (Desk::new(), Desk::new());
    assert_eq!(proved::compare(first, other), Ok(same));
    assert_eq!(second::compare(first, other), Ok(answer));
    assert_eq!(tuned::compare::compare(first, other, &mut desks), Ok(same));
    assert_eq!(best::compare::compare(first, other), Ok(same));
}

fn of_texts(
    name: String,
    shaped: &'static Shaped,
    other: fn(&Shaped) -> Vec<u8>,
    same: bool,
) -> Option<Task> {
    if !wanted(&name) {
        return None;
    }
    let first: &[u8] = &shaped.text;
    let other: &[u8] = Box::leak(other(shaped).into_boxed_slice());
    if checking() {
        agree(first, other, same);
    }
    let pair = move || (black_box(first), black_box(other));
    let mut desks = (Desk::new(), Desk::new());
    Some(Task {
        name,
        unit: "rule",
        units: 2 * shaped.table.rules.len(),
        hands: vec![
            hand("proved", move || proved::compare(pair().0, pair().1)),
            hand("plain", move || second::compare(pair().0, pair().1)),
            hand("tuned", move || {
                tuned::compare::compare(pair().0, pair().1, &mut desks)
            }),
            hand("best", move || best::compare::compare(pair().0, pair().1)),
        ],
    })
}

fn reordered(shaped: &Shaped) -> Vec<u8> {
    shapes::text(&shapes::reordered(&shaped.table))
}

fn altered(shaped: &Shaped) -> Vec<u8> {
    shapes::text(&shapes::altered(&shaped.table))
}

pub fn tasks() -> Vec<Task> {
    let mut all = Vec::new();
    for shaped in shapes::all() {
        all.extend(of_texts(
            format!("compare, {shaped}"),
            shaped,
            reordered,
            true,
        ));
        if shaped.table.states == 64 {
            all.extend(of_texts(
                format!("compare, {shaped}, a letter differs"),
                shaped,
                altered,
                false,
            ));
        }
    }
    all
}

/// The unproved hands are tried on generated pairs of texts.
#[cfg(test)]
mod tests {
    use super::*;
    use fadurinko_second::gen::pairs;

    #[test]
    fn all_hands_compare_as_the_second_program_does() {
        let mut desks = (Desk::new(), Desk::new());
        for index in 0..10_000 {
            let case = pairs::case(5, index);
            let answer = match second::compare(&case.first, &case.second) {
                Ok(comparison) => Ok(comparison == Comparison::Same),
                Err(no) => Err((no.refusal.number, usize::from(no.table), no.refusal.place)),
            };
            assert_eq!(
                tuned::compare::compare(&case.first, &case.second, &mut desks),
                answer,
                "case {index}"
            );
            assert_eq!(
                best::compare::compare(&case.first, &case.second),
                answer,
                "case {index}"
            );
        }
    }
}
