//! Records and trees at the edges of what is answered, each with the no that is due, and every record of up
//! to six elements over two labels both ways. They are tried in every run.

use fadurinko_second::brute::records::all_records;
use fadurinko_second::refusal::Refusal;
use fadurinko_second::table::{self, Child, Initial, Rule, Table};

use crate::made_records::{bushy, image, nested, siblings, CLOSE};
use crate::record_calls::RecordCalls;
use crate::report::Report;
use crate::room::Rooms;

/// So many labels the lists have that the cases are tried under.
const LABELS: [u8; 3] = [1, 2, 63];
/// So many elements make a stream of a megabyte.
const MANY: usize = 500_000;

/// A record or tree, and the no that is due; none where it has an answer.
struct Named {
    name: &'static str,
    bytes: Vec<u8>,
    no: Option<Refusal>,
}

fn answered(name: &'static str, bytes: impl Into<Vec<u8>>) -> Named {
    let bytes = bytes.into();
    Named {
        name,
        bytes,
        no: None,
    }
}

fn refused(name: &'static str, bytes: impl Into<Vec<u8>>, number: u8, place: usize) -> Named {
    let bytes = bytes.into();
    Named {
        name,
        bytes,
        no: Some(Refusal::new(number, place)),
    }
}

/// Records under a list whose last symbol is this one.
fn records(last: u8) -> Vec<Named> {
    vec![
        refused("empty", [], 22, 0),
        refused("a lone ff", [CLOSE], 22, 0),
        answered("one element", [0, CLOSE]),
        refused("one element, open", [0], 22, 1),
        refused("one element, closed twice", [0, CLOSE, CLOSE], 22, 2),
        refused("a second root", [0, CLOSE, 0, CLOSE], 23, 2),
        refused("the last symbol for a label", [last, CLOSE], 21, 0),
        refused("the last symbol inside", [0, last, CLOSE, CLOSE], 21, 1),
        refused("the last symbol behind the root", [0, CLOSE, last], 21, 2),
        answered("62 siblings", siblings(0, 62)),
        refused("63 siblings", siblings(0, 63), 10, 126),
        answered("63 nested elements", nested(0, 63)),
        refused("64 nested elements", nested(0, 64), 10, 64),
        answered("16,383 elements", bushy(0, 16_383)),
        refused("16,384 elements", bushy(0, 16_384), 6, 0),
    ]
}

/// Streams of a megabyte, wide ones and deep ones.
fn long_records(last: u8) -> Vec<Named> {
    let streams = [siblings(last - 1, MANY - 1), nested(last - 1, MANY)];
    let long = streams.map(|stream| megabyte(&stream, last));
    long.into_iter().flatten().collect()
}

/// The stream of a megabyte, and some like it that are wrong at their last byte.
fn megabyte(stream: &[u8], last: u8) -> [Named; 6] {
    let front = &stream[..stream.len() - 1];
    let and = |front: &[u8], byte: u8| [front, &[byte]].concat();
    [
        refused("1 MB", stream, 6, 0),
        refused(
            "1 MB, no label at its end",
            and(front, last),
            21,
            front.len(),
        ),
        refused(
            "1 MB, a label for its last close",
            and(front, 0),
            22,
            stream.len(),
        ),
        refused("1 MB and a close", and(stream, CLOSE), 22, stream.len()),
        refused("1 MB and a label", and(stream, 0), 23, stream.len()),
        refused("1 MB and no label", and(stream, last), 21, stream.len()),
    ]
}

/// Trees under a list whose last symbol is this one.
fn trees(last: u8) -> Vec<Named> {
    let largest = image(&bushy(0, 16_383), last);
    let one_more = [&largest[..], &[last]].concat();
    let one_fewer = &largest[..largest.len() - 1];
    let too_large = image(&bushy(0, 16_384), last);
    vec![
        refused("no symbol", [], 6, 0),
        refused("a lone leaf", [last], 24, 0),
        answered("one element", [0, last, last]),
        refused("a sibling of the root", [0, last, 0, last, last], 24, 2),
        refused("it behind two", [0, 0, last, last, 0, last, last], 24, 4),
        refused("the last leaf left out", [0, last], 8, 2),
        refused("a close in a tree", [0, CLOSE, last], 7, 1),
        answered("62 siblings", image(&siblings(0, 62), last)),
        refused("63 siblings", image(&siblings(0, 63), last), 10, 126),
        answered("63 nested elements", image(&nested(0, 63), last)),
        refused("64 nested elements", image(&nested(0, 64), last), 10, 64),
        refused(
            "16,383 elements without the last leaf",
            one_fewer,
            8,
            32_766,
        ),
        refused("16,383 elements and a leaf", one_more, 11, 32_767),
        answered("16,383 elements", largest),
        refused("16,384 elements", too_large, 6, 0),
    ]
}

/// A list of one symbol has the right shape and no label.
fn records_without_label() -> Vec<Named> {
    vec![
        refused("empty", [], 22, 0),
        refused("a lone ff", [CLOSE], 22, 0),
        refused("the last symbol", [0, CLOSE], 21, 0),
    ]
}

fn trees_without_label() -> Vec<Named> {
    vec![
        refused("no symbol", [], 6, 0),
        refused("a lone leaf", [0], 24, 0),
        refused("two leaves", [0, 0], 11, 1),
    ]
}

/// Lists of another shape, and the first index that is wrong.
const WRONG_LISTS: [(&[u8], usize); 6] = [
    (&[2], 0),
    (&[1, 0], 0),
    (&[0, 0], 0),
    (&[2, 2], 1),
    (&[2, 0, 0], 1),
    (&[2, 2, 2, 4, 1], 3),
];

fn under_a_wrong_list(index: usize) -> Vec<Named> {
    vec![
        refused("empty", [], 20, index),
        refused("one element", [0, CLOSE], 20, index),
        refused("a tree", [0, 1, 1], 20, index),
    ]
}

/// A symbol list, and what is tried under it.
struct List {
    arities: Vec<u8>,
    records: Vec<Named>,
    trees: Vec<Named>,
}

fn lists() -> Vec<List> {
    let with_labels = LABELS.map(|last| List {
        arities: [vec![2; usize::from(last)], vec![0]].concat(),
        records: records(last),
        trees: trees(last),
    });
    let without_label = List {
        arities: vec![0],
        records: records_without_label(),
        trees: trees_without_label(),
    };
    let long = List {
        arities: vec![2, 2, 0],
        records: long_records(2),
        trees: Vec::new(),
    };
    let wrong = WRONG_LISTS.map(|(arities, index)| List {
        arities: arities.to_vec(),
        records: under_a_wrong_list(index),
        trees: under_a_wrong_list(index),
    });
    let lists = with_labels.into_iter().chain([without_label, long]);
    lists.chain(wrong).collect()
}

/// A table in which every symbol has a rule: it writes its number and, behind each child, a space.
fn table(arities: &[u8]) -> Table {
    let child = Child {
        state: 0,
        after: b" ".to_vec(),
    };
    let rule = |(symbol, &arity): (usize, &u8)| Rule {
        state: 0,
        symbol: symbol as u8,
        before: symbol.to_string().into_bytes(),
        children: vec![child.clone(); usize::from(arity)],
    };
    Table {
        arities: arities.to_vec(),
        states: 1,
        initial: Initial {
            before: b"<".to_vec(),
            state: 0,
            after: b">".to_vec(),
        },
        rules: arities.iter().enumerate().map(rule).collect(),
    }
}

pub fn run(seed: u64, rooms: &mut Rooms, report: &mut Report) {
    let mut calls = RecordCalls::new(seed);
    for list in lists() {
        let text = table::write(&table(&list.arities));
        let arities = &list.arities;
        calls.take(text, report, || format!("named, arities {arities:?}"));
        for Named { name, bytes, no } in &list.records {
            let name = || format!("named, {} symbols, record: {name}", arities.len());
            let theirs = calls.record(bytes, rooms, report, name);
            report.said(theirs, [*no; 2], name);
        }
        for Named { name, bytes, no } in &list.trees {
            let name = || format!("named, {} symbols, tree: {name}", arities.len());
            let theirs = calls.tree(bytes, rooms, report, name);
            report.said(theirs, *no, name);
        }
    }
    small_records(&mut calls, rooms, report);
}

/// Every record of up to six elements over two labels: its word and its tree, and the record of that.
fn small_records(calls: &mut RecordCalls, rooms: &mut Rooms, report: &mut Report) {
    calls.take(table::write(&table(&[2, 2, 0])), report, || {
        "small records".to_string()
    });
    for record in (1..=6).flat_map(|elements| all_records(2, elements)) {
        let name = || format!("small record {record:?}");
        calls.record(&record.stream(), rooms, report, name);
        calls.tree(&record.image(2).preorder(), rooms, report, name);
    }
}

#[cfg(test)]
mod tests {
    use super::*;

    #[test]
    fn small_records_are_all_there() {
        let count = (1..=6).map(|elements| all_records(2, elements).len());
        assert_eq!(count.sum::<usize>(), 2 + 4 + 16 + 80 + 448 + 2_688);
    }
}
