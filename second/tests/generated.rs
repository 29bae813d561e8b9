//! What the generators make keeps to what they say of it.

use fadurinko_second::compare::compare;
use fadurinko_second::gen::{pairs, records};
use fadurinko_second::record::Desk;
use fadurinko_second::table;

#[test]
fn a_large_table_keeps_to_the_most_rules() {
    // Once made with 519 rules, and refused with 4.
    let case = pairs::case(444_607_699, 5670);
    assert!(case.expected.allows(compare(&case.first, &case.second)));
}

#[test]
fn tables_for_records_keep_to_the_limits() {
    let (mut readable, mut right) = (0, 0);
    for index in 0..800 {
        let case = records::case(11, index);
        if let Ok(table) = table::read(&case.table) {
            readable += 1;
            right += usize::from(Desk::new(&table).is_ok());
        }
    }
    // One in sixteen is damaged, two or three more have another list.
    assert!(readable >= 800 * 15 / 16, "{readable}");
    assert!((600..680).contains(&right), "{right}");
}

#[test]
fn records_are_often_taken() {
    let (mut lines, mut words, mut images) = (0, 0, 0);
    for index in 0..160 {
        let case = records::case(12, index);
        let Ok(table) = table::read(&case.table) else {
            continue;
        };
        let Ok(desk) = Desk::new(&table) else {
            continue;
        };
        for stream in case.streams() {
            lines += 1;
            words += usize::from(desk.word(&stream, &mut Vec::new()).is_ok());
        }
        let trees = case.trees();
        images += trees
            .iter()
            .filter(|tree| desk.record(tree).is_ok())
            .count();
    }
    assert!(lines > 15_000, "{lines}");
    assert!(words > lines / 8, "{words} of {lines}");
    assert!(images > 3_000, "{images}");
}
