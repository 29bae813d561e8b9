//! What is asked about records, and how the calls and the second program answer it.

use fadurinko::lent;
use fadurinko_second::record::{record_tree, record_word, tree_record, Desk};
use fadurinko_second::refusal::Refusal;

use crate::answer::{put, refused, told, Told};
use crate::opened::Arrays;
use crate::report::Call;
use crate::scratch::Scratch;

#[derive(Clone, Copy, Debug)]
pub enum Asked {
    /// The word of a record.
    Word,
    /// The tree of a record.
    Tree,
    /// The record of a tree.
    Record,
}

/// The calls that answer it: by a table text, by an opened table, and by arrays that no `open` wrote.
pub struct Calls {
    pub by_text: Call,
    pub opened: Call,
    pub damaged: Call,
}

impl Asked {
    pub fn calls(self) -> Calls {
        let (by_text, opened, damaged) = match self {
            Asked::Word => (
                Call::RecordWord,
                Call::RecordWordOpened,
                Call::RecordWordDamaged,
            ),
            Asked::Tree => (
                Call::RecordTree,
                Call::RecordTreeOpened,
                Call::RecordTreeDamaged,
            ),
            Asked::Record => (
                Call::TreeRecord,
                Call::TreeRecordOpened,
                Call::TreeRecordDamaged,
            ),
        };
        Calls {
            by_text,
            opened,
            damaged,
        }
    }

    pub fn by_text(self, text: &[u8], input: &[u8], room: &mut [u8]) -> Told {
        told(|answer| match self {
            Asked::Word => lent::record_word(text, input, room, answer),
            Asked::Tree => lent::record_tree(text, input, room, answer),
            Asked::Record => lent::tree_record(text, input, room, answer),
        })
    }

    pub fn by_arrays(
        self,
        arrays: &Arrays,
        input: &[u8],
        scratch: &mut Scratch,
        room: &mut [u8],
    ) -> Told {
        let Arrays { frames, numbers } = arrays;
        told(|answer| match self {
            Asked::Word => {
                let (tree, plan) = scratch.tree_and_plan();
                lent::record_word_opened(frames, numbers, input, tree, plan, room, answer)
            }
            Asked::Tree => lent::record_tree_opened(frames, numbers, input, room, answer),
            Asked::Record => lent::tree_record_opened(frames, numbers, input, room, answer),
        })
    }

    /// The second program's answer by a table text, put into a room.
    pub fn second(self, text: &[u8], input: &[u8], room: &mut [u8]) -> Told {
        let answer = match self {
            Asked::Word => record_word(text, input, room).map(|found| (found.length, found.terms)),
            Asked::Tree => record_tree(text, input, room).map(|length| (length, 0)),
            Asked::Record => tree_record(text, input, room).map(|length| (length, 0)),
        };
        match answer {
            Ok((length, terms)) => put(length, terms),
            Err(refusal) => refused(refusal),
        }
    }

    /// The second program's answer by a table that it has read: the terms, and in `output` the bytes.
    pub fn due(self, desk: &Desk, input: &[u8], output: &mut Vec<u8>) -> Result<usize, Refusal> {
        let (bytes, terms) = match self {
            Asked::Word => return desk.word(input, output).map(|found| found.terms),
            Asked::Tree => (desk.tree(input)?, 0),
            Asked::Record => (desk.record(input)?, 0),
        };
        *output = bytes;
        Ok(terms)
    }
}
