//! One table text (open, judge, form) and two (compare).

use fadurinko::lent;
use fadurinko_second::compare::{compare, Comparison};
use fadurinko_second::form::form_text;
use fadurinko_second::gen::{pairs, tables};
use fadurinko_second::judge::judge;
use fadurinko_second::table;

use crate::answer::{compared, due, in_a_room, refused_about, told, Told};
use crate::opened::Opened;
use crate::report::{Call, Report};
use crate::room::Rooms;

pub struct Tables {
    seed: u64,
    opened: Opened,
}

impl Tables {
    pub fn new(seed: u64) -> Tables {
        Tables {
            seed,
            opened: Opened::new(seed),
        }
    }

    pub fn text(&mut self, index: usize, rooms: &mut Rooms, report: &mut Report) {
        let seed = self.seed;
        let text = tables::case(seed, index).text;
        let name = || format!("seed {seed}, tables {index}");
        let judged = due(&judge(&text));
        report.input(Call::Judge);
        let mine = told(|answer| lent::judge(&text, answer));
        report.call(Call::Judge, mine, judged, Ok(()), name);
        self.open(&text, judged, report, name);
        form(&text, rooms, report, name);
    }

    fn open(&mut self, text: &[u8], judged: Told, report: &mut Report, name: impl Fn() -> String) {
        let read = table::read(text);
        let (mine, arrays) = self.opened.open(text, &read);
        report.input(Call::Open);
        report.call(Call::Open, mine, due(&read), arrays, &name);
        if mine.0 == 0 {
            report.input(Call::JudgeOpened);
            report.call(Call::JudgeOpened, self.opened.judge(), judged, Ok(()), name);
        }
    }

    pub fn pair(&mut self, index: usize, report: &mut Report) {
        let seed = self.seed;
        let case = pairs::case(seed, index);
        let theirs = match compare(&case.first, &case.second) {
            Ok(answer) => compared(answer == Comparison::Same),
            Err(no) => refused_about(no.table, no.refusal),
        };
        let mine = told(|answer| lent::compare(&case.first, &case.second, answer));
        report.input(Call::Compare);
        report.call(Call::Compare, mine, theirs, Ok(()), || {
            format!("seed {seed}, pairs {index}")
        });
    }
}

fn form(text: &[u8], rooms: &mut Rooms, report: &mut Report, name: impl Fn() -> String) {
    report.input(Call::Form);
    let formed = form_text(text);
    let output = match &formed {
        Ok(form) => Ok((&form[..], 0)),
        Err(refusal) => Err(*refusal),
    };
    for length in rooms.lengths_for(output) {
        let (theirs, written) = in_a_room(output, length);
        let mine = told(|answer| lent::form(text, rooms.lend(length), answer));
        report.call(Call::Form, mine, theirs, rooms.holds(written), || {
            format!("{}, room {length}", name())
        });
    }
}
