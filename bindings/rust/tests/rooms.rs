//! Rooms of every length around what is needed, with guard bytes before and behind.

mod common;

use common::room::{entries, in_a_room, is_guarded, lengths, noise, pattern, strange, GUARD};
use common::{full_tree, m1_earliest, m2, own_form, text, wordy, T, T_FORM};
use fadurinko::lent::{self, Answer};
use fadurinko::{form_into, limit, word_into, OpenTable, Plan, Word};

fn word_in_every_room(text: &[u8], tree: &[u8], output: &[u8], terms: usize) {
    let mut table = OpenTable::open(text).unwrap();
    let mut plan = Plan::new();
    for length in lengths(output.len()) {
        let yes = Word {
            length: output.len(),
            terms,
        };
        in_a_room(length, output, yes, |room| word_into(text, tree, room));
        in_a_room(length, output, yes, |room| table.word_into(tree, room));
        in_a_room(length, output, yes, |room| {
            table.word_into_with(tree, &mut plan, room)
        });
    }
    assert_eq!(table.word(tree).as_deref(), Ok(output));
}

#[test]
fn words_of_t() {
    word_in_every_room(T, &[0, 2, 2], b"x,x", 1);
    word_in_every_room(T, &[0, 1, 1], b",", 1);
}

#[test]
fn an_empty_word_needs_no_room() {
    let text = text(&[0], 1, (b"", 0, b""), &[(0, 0, b"", vec![])]);
    word_in_every_room(&text, &[0], b"", 1);
    assert_eq!(fadurinko::word(&text, &[0]), Ok(vec![]));
}

/// The word of a full tree by `wordy`, straight from the definition.
fn wordy_word(letters: usize, levels: u32, chain: usize) -> Vec<u8> {
    let words = [
        b"0123456789abcdefghijklmnopqrstuv".repeat(2),
        b" ".repeat(64),
    ]
    .concat();
    let word = |from: usize| words[from..from + letters].to_vec();
    let leaf = word(5);
    let full = (1..levels).fold(leaf, |tree, _| {
        [&word(0)[..], &tree, &word(1), &tree, &word(2)].concat()
    });
    let below = (0..chain).fold(full, |tree, _| [&word(3)[..], &tree, &word(64)].concat());
    [&word(6)[..], &below, &word(7)].concat()
}

#[test]
fn words_of_every_length_of_word() {
    for letters in [0, 1, 2, 15, 16, 17, 31, 32] {
        for (levels, chain) in [(1, 0), (2, 1), (4, 2)] {
            let output = wordy_word(letters, levels, chain);
            let terms = 1 + output.iter().filter(|&&letter| letter == 0x20).count();
            word_in_every_room(&wordy(letters), &full_tree(levels, chain), &output, terms);
        }
    }
}

#[test]
fn the_longest_word() {
    let (text, tree) = (wordy(32), full_tree(15, 1));
    assert_eq!(tree.len(), limit::TREE);
    let output = wordy_word(32, 15, 1);
    assert_eq!(output.len(), limit::LONGEST);
    let mut table = OpenTable::open(&text).unwrap();
    for length in [output.len() - 1, output.len(), output.len() + 1] {
        let yes = Word {
            length: output.len(),
            terms: 33,
        };
        in_a_room(length, &output, yes, |room| table.word_into(&tree, room));
        in_a_room(length, &output, yes, |room| word_into(&text, &tree, room));
    }
}

#[test]
fn forms() {
    let m1 = m1_earliest();
    for (text, output) in [(T, T_FORM), (T_FORM, T_FORM), (&m1[..], &m1[..])] {
        for length in lengths(output.len()) {
            in_a_room(length, output, output.len(), |room| form_into(text, room));
        }
    }
}

#[test]
fn the_longest_form() {
    let text = own_form(limit::TEXT);
    let need = text.len();
    for length in [
        0,
        1,
        need - 2,
        need - 1,
        need,
        need + 1,
        need + 2,
        need + 4096,
    ] {
        in_a_room(length, &text, need, |room| form_into(&text, room));
    }
    assert_eq!(fadurinko::form(&text).as_ref(), Ok(&text));
}

#[test]
fn a_refused_open_leaves_the_arrays() {
    let mut frames = [0x5a; limit::FRAMES];
    let mut numbers = [0x1234_5678_9abc_def0; limit::NUMBERS];
    let late_fault = [T, b"05\n"].concat();
    for text in [
        &b""[..],
        b"0102\n",
        &T[..T.len() - 1],
        &late_fault,
        &[b'0'; 32_769],
    ] {
        let mut answer = strange();
        assert_ne!(lent::open(text, &mut frames, &mut numbers, &mut answer), 0);
        assert!(frames == [0x5a; limit::FRAMES]);
        assert!(numbers == [0x1234_5678_9abc_def0; limit::NUMBERS]);
        assert_eq!(answer, entries(answer.place, 0, 0, 0, 0));
    }
}

/// Every call writes every entry, on a yes and on a no.
#[test]
fn every_entry_is_written() {
    let mut frames = [0; limit::FRAMES];
    let mut numbers = [0; limit::NUMBERS];
    let mut plan = [0; limit::PLAN];
    let told = |number: u8, due: Answer, call: &mut dyn FnMut(&mut Answer) -> u8| {
        let mut answer = strange();
        assert_eq!((call(&mut answer), answer), (number, due));
    };
    let room = &mut [0; 100][..];
    let form = T_FORM.len();
    told(0, entries(0, 3, 1, 0, 0), &mut |answer| {
        lent::word(T, &[0, 2, 2], room, answer)
    });
    told(8, entries(2, 0, 0, 0, 0), &mut |answer| {
        lent::word(T, &[0, 2], room, answer)
    });
    told(0, entries(0, 0, 0, 0, 0), &mut |answer| {
        lent::judge(T, answer)
    });
    told(18, entries(0, 0, 0, 0, 0), &mut |answer| {
        lent::judge(&m2(true), answer)
    });
    told(0, entries(0, form, 0, 0, 0), &mut |answer| {
        lent::form(T, room, answer)
    });
    told(12, entries(form, 0, 0, 0, 0), &mut |answer| {
        lent::form(T, &mut [], answer)
    });
    told(0, entries(0, 0, 0, 1, 0), &mut |answer| {
        lent::compare(T, T_FORM, answer)
    });
    told(0, entries(0, 0, 0, 0, 0), &mut |answer| {
        lent::compare(&m2(false), &m1_earliest(), answer)
    });
    told(3, entries(5, 0, 0, 0, 2), &mut |answer| {
        lent::compare(T, b"0100\n05\n", answer)
    });
    told(2, entries(5, 0, 0, 0, 0), &mut |answer| {
        lent::open(&T[..9], &mut frames, &mut numbers, answer)
    });
    told(0, entries(0, 0, 0, 0, 0), &mut |answer| {
        lent::open(T, &mut frames, &mut numbers, answer)
    });
    told(0, entries(0, 3, 1, 0, 0), &mut |answer| {
        lent::find(&frames, &numbers, &[0, 2, 2], &mut plan, room, answer)
    });
    told(12, entries(3, 0, 0, 0, 0), &mut |answer| {
        lent::find(&frames, &numbers, &[0, 2, 2], &mut plan, &mut [], answer)
    });
    told(0, entries(0, 0, 0, 0, 0), &mut |answer| {
        lent::judge_opened(&frames, &numbers, answer)
    });
}

/// Arrays that no call of `open` wrote: the answer means nothing, but no byte outside the room may
/// change, and every call comes to an end soon, whatever the numbers say.
#[test]
fn arrays_that_were_never_opened() {
    let mut next = noise();
    let mut frames = [0; limit::FRAMES];
    let mut numbers = [0; limit::NUMBERS];
    let mut plan = [u32::MAX; limit::PLAN];
    for round in 0..400 {
        let (bytes, counts, rest) = match round % 2 {
            0 => (5, 200, 1_000_000),
            _ => (256, u64::MAX, u64::MAX),
        };
        frames.fill_with(|| (next() % bytes) as u8);
        numbers.fill_with(|| next() % rest);
        numbers[..80].fill_with(|| next() % counts);
        let tree: Vec<u8> = (0..1 + next() % 300).map(|_| next() as u8 % 4).collect();
        let room = next() as usize % 5_000;
        let mut bytes = pattern(room + 2 * GUARD);
        let lent_room = &mut bytes[GUARD..GUARD + room];
        let mut answer = strange();
        lent::find(&frames, &numbers, &tree, &mut plan, lent_room, &mut answer);
        assert!(is_guarded(&bytes));
        lent::judge_opened(&frames, &numbers, &mut answer);
    }
}
