//! The stream of a record, as the desks send it: refusals 21, 22 and 23.

use crate::refusal::{Refusal, SECOND_ROOT, STREAM_BYTE, STREAM_CLOSE};

/// The byte that closes an element. A label is below 63, so it is none.
pub const CLOSE: u8 = 0xff;

/// An element: its label and the elements inside it. A record is one of them.
///
/// A stream has no limit, so elements can be nested in any depth, and nothing
/// here calls itself for each level.
#[derive(Debug)]
pub struct Element {
    pub label: u8,
    pub inside: Vec<Element>,
}

impl Element {
    fn opened(label: u8) -> Element {
        Element {
            label,
            inside: Vec::new(),
        }
    }
}

impl Drop for Element {
    /// What is inside is taken out first, one element after the other.
    fn drop(&mut self) {
        let mut left = std::mem::take(&mut self.inside);
        while let Some(mut element) = left.pop() {
            left.append(&mut element.inside);
        }
    }
}

/// Reads the record that a stream is, or gives the first refusal from left to
/// right. The labels are the numbers below `labels`.
pub fn read(labels: u8, stream: &[u8]) -> Result<Element, Refusal> {
    let mut open: Vec<Element> = Vec::new();
    let mut root = None;
    for (place, &byte) in stream.iter().enumerate() {
        if byte == CLOSE {
            let closed = open.pop().ok_or(Refusal::new(STREAM_CLOSE, place))?;
            match open.last_mut() {
                Some(around) => around.inside.push(closed),
                None => root = Some(closed),
            }
        } else if byte >= labels {
            return Err(Refusal::new(STREAM_BYTE, place));
        } else if root.is_some() {
            return Err(Refusal::new(SECOND_ROOT, place));
        } else {
            open.push(Element::opened(byte));
        }
    }
    root.ok_or(Refusal::new(STREAM_CLOSE, stream.len()))
}

/// The stream of a record: a label opens each element, behind what is inside
/// it stands its close.
pub fn write(record: &Element) -> Vec<u8> {
    let mut stream = vec![record.label];
    let mut open = vec![record.inside.iter()];
    while let Some(inside) = open.last_mut() {
        match inside.next() {
            Some(element) => {
                stream.push(element.label);
                open.push(element.inside.iter());
            }
            None => {
                stream.push(CLOSE);
                open.pop();
            }
        }
    }
    stream
}
