//! The calls on records under one table: by its text, and with the table opened once.

use fadurinko_second::record::Desk;
use fadurinko_second::refusal::Refusal;
use fadurinko_second::rng::Rng;
use fadurinko_second::table::{self, Table};

use crate::answer::{due, in_a_room, Output};
use crate::asked::Asked;
use crate::opened::Opened;
use crate::report::{Call, Report};
use crate::room::Rooms;

/// The second program takes long over longer inputs, and is not asked again.
const LONG: usize = 100_000;

pub struct RecordCalls {
    text: Vec<u8>,
    table: Result<Table, Refusal>,
    opened: Opened,
    bytes: Vec<u8>,
    rng: Rng,
}

impl RecordCalls {
    /// Under a text that is refused, until a table is taken.
    pub fn new(seed: u64) -> RecordCalls {
        RecordCalls {
            text: Vec::new(),
            table: table::read(b""),
            opened: Opened::new(seed),
            bytes: Vec::new(),
            rng: Rng::new(seed ^ 0x7365_636f_6e64),
        }
    }

    /// Goes on to another table.
    pub fn take(&mut self, text: Vec<u8>, report: &mut Report, name: impl FnOnce() -> String) {
        self.table = table::read(&text);
        let (mine, arrays) = self.opened.open(&text, &self.table);
        report.input(Call::Open);
        report.call(Call::Open, mine, due(&self.table), arrays, name);
        self.text = text;
    }

    /// Asks for the word and the tree of a record. What the second program refuses them with.
    pub fn record(
        &mut self,
        record: &[u8],
        rooms: &mut Rooms,
        report: &mut Report,
        name: impl Fn() -> String,
    ) -> [Option<Refusal>; 2] {
        [Asked::Word, Asked::Tree].map(|asked| self.ask(asked, record, rooms, report, &name))
    }

    /// Asks for the record of a tree. What the second program refuses it with.
    pub fn tree(
        &mut self,
        tree: &[u8],
        rooms: &mut Rooms,
        report: &mut Report,
        name: impl Fn() -> String,
    ) -> Option<Refusal> {
        self.ask(Asked::Record, tree, rooms, report, name)
    }

    fn ask(
        &mut self,
        asked: Asked,
        input: &[u8],
        rooms: &mut Rooms,
        report: &mut Report,
        name: impl Fn() -> String,
    ) -> Option<Refusal> {
        let mut bytes = std::mem::take(&mut self.bytes);
        let terms = self.due(asked, input, &mut bytes);
        let question = Question {
            asked,
            input,
            output: terms.map(|terms| (&bytes[..], terms)),
        };
        report.input(asked.calls().by_text);
        if self.table.is_ok() {
            report.input(asked.calls().opened);
        }
        let lengths = rooms.lengths_for_record(question.output, input.len());
        for &length in &lengths {
            let name = || format!("{}, room {length}", name());
            self.in_a_room(&question, length, rooms, report, name);
        }
        if input.len() <= LONG {
            let length = *self.rng.pick(&lengths);
            let name = || format!("{}, room {length}", name());
            self.second_in_a_room(&question, length, rooms, report, name);
        }
        self.bytes = bytes;
        terms.err()
    }

    /// The second program's answer by the table that it has read: the terms, and in `bytes` the output.
    fn due(&self, asked: Asked, input: &[u8], bytes: &mut Vec<u8>) -> Result<usize, Refusal> {
        let table = self.table.as_ref().map_err(|refusal| *refusal)?;
        asked.due(&Desk::new(table)?, input, bytes)
    }

    fn in_a_room(
        &mut self,
        question: &Question,
        length: usize,
        rooms: &mut Rooms,
        report: &mut Report,
        name: impl Fn() -> String,
    ) {
        let Question { asked, input, .. } = *question;
        let (theirs, written) = in_a_room(question.output, length);

        let mine = asked.by_text(&self.text, input, rooms.lend(length));
        let call = asked.calls().by_text;
        report.call(call, mine, theirs, rooms.holds(written), &name);

        if self.table.is_ok() {
            let mine = self.opened.ask(asked, input, rooms.lend(length));
            let bytes = rooms.holds(written).and(self.opened.is_as_opened());
            report.call(asked.calls().opened, mine, theirs, bytes, name);
        }
    }

    /// The second program's own call with a room agrees with what is due there.
    fn second_in_a_room(
        &self,
        question: &Question,
        length: usize,
        rooms: &mut Rooms,
        report: &mut Report,
        name: impl Fn() -> String,
    ) {
        let Question { asked, input, .. } = *question;
        let (due, written) = in_a_room(question.output, length);
        let theirs = asked.second(&self.text, input, rooms.lend(length));
        report.said((theirs, rooms.holds(written)), (due, Ok(())), name);
    }
}

/// What is asked about an input, and what the second program answers where the room is long enough.
struct Question<'input> {
    asked: Asked,
    input: &'input [u8],
    output: Output<'input>,
}
