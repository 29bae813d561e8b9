//! Records by the definitions taken literally, on small ones, and by counting
//! alone on any. Nothing here uses the reading, the image or the writing of the
//! other modules.

use std::collections::HashSet;
use std::rc::Rc;

use super::{tree_of_bytes, Tree};
use crate::refusal::{Refusal, NO_IMAGE, RECORD_SYMBOLS, SECOND_ROOT, STREAM_BYTE, STREAM_CLOSE};

const CLOSE: u8 = 255;

/// A label and a list of elements inside.
#[derive(Clone, Debug, PartialEq, Eq, Hash)]
pub struct Element {
    pub label: u8,
    pub inside: Vec<Element>,
}

impl Element {
    pub fn stream(&self) -> Vec<u8> {
        let inside = self.inside.iter().flat_map(Element::stream);
        let mut stream = vec![self.label];
        stream.extend(inside);
        stream.push(CLOSE);
        stream
    }

    /// The record as a tree: the root has no next sibling.
    pub fn image(&self, absent: u8) -> Rc<Tree> {
        self.image_beside(&[], absent)
    }

    /// An element is its label with two children, the first element inside and
    /// the next element beside it; an absent one is the last symbol.
    fn image_beside(&self, beside: &[Element], absent: u8) -> Rc<Tree> {
        let first_of = |list: &[Element]| match list.first() {
            Some(first) => first.image_beside(&list[1..], absent),
            None => Rc::new(Tree {
                symbol: absent,
                children: Vec::new(),
            }),
        };
        Rc::new(Tree {
            symbol: self.label,
            children: vec![first_of(&self.inside), first_of(beside)],
        })
    }
}

/// All records of exactly so many elements over so many labels.
pub fn all_records(labels: u8, elements: usize) -> Vec<Element> {
    let mut records = Vec::new();
    if elements > 0 {
        let lists = all_lists(labels, elements - 1);
        for label in 0..labels {
            records.extend(lists.iter().map(|inside| Element {
                label,
                inside: inside.clone(),
            }));
        }
    }
    records
}

/// All lists that have so many elements, those inside others counted.
fn all_lists(labels: u8, elements: usize) -> Vec<Vec<Element>> {
    if elements == 0 {
        return vec![Vec::new()];
    }
    let mut lists = Vec::new();
    for in_first in 1..=elements {
        let others = all_lists(labels, elements - in_first);
        for first in all_records(labels, in_first) {
            for rest in &others {
                lists.push([std::slice::from_ref(&first), rest].concat());
            }
        }
    }
    lists
}

/// The streams of all records up to a size, and all that these begin with.
pub struct Streams {
    whole: HashSet<Vec<u8>>,
    begun: HashSet<Vec<u8>>,
    labels: u8,
}

impl Streams {
    /// What a stream begins with can be closed at once, so for streams of some
    /// length records of as many elements are enough, and one.
    pub fn up_to(labels: u8, elements: usize) -> Streams {
        let mut streams = Streams {
            whole: HashSet::new(),
            begun: HashSet::from([Vec::new()]),
            labels,
        };
        for record in (1..=elements).flat_map(|count| all_records(labels, count)) {
            let stream = record.stream();
            for length in 0..=stream.len() {
                streams.begun.insert(stream[..length].to_vec());
            }
            streams.whole.insert(stream);
        }
        streams
    }

    /// What reading a stream must answer: refused at the first byte with which no
    /// record's stream goes on, or at its end. The byte there says why.
    pub fn reading(&self, stream: &[u8]) -> Result<(), Refusal> {
        let goes_on = |place: &usize| self.begun.contains(&stream[..=*place]);
        match (0..stream.len()).find(|place| !goes_on(place)) {
            Some(place) => {
                let number = match stream[place] {
                    CLOSE => STREAM_CLOSE,
                    byte if byte < self.labels => SECOND_ROOT,
                    _ => STREAM_BYTE,
                };
                Err(Refusal::new(number, place))
            }
            None if self.whole.contains(stream) => Ok(()),
            None => Err(Refusal::new(STREAM_CLOSE, stream.len())),
        }
    }
}

/// The first wrong index of a symbol list: the last symbol has arity 0, each
/// other one 2.
pub fn list_reading(arities: &[u8]) -> Result<(), Refusal> {
    let mut right = vec![2; arities.len()];
    right[arities.len() - 1] = 0;
    let differs = right.iter().zip(arities).position(|(due, is)| due != is);
    differs.map_or(Ok(()), |index| Err(Refusal::new(RECORD_SYMBOLS, index)))
}

/// What reading a stream must answer, by counting opens and closes: nothing is
/// nested and nothing is built.
pub fn counted_reading(labels: u8, stream: &[u8]) -> Result<(), Refusal> {
    let (mut opens, mut closes) = (0, 0);
    for (place, &byte) in stream.iter().enumerate() {
        let balanced = opens == closes;
        let number = match byte {
            CLOSE if balanced => Some(STREAM_CLOSE),
            CLOSE => None,
            _ if byte >= labels => Some(STREAM_BYTE),
            _ if balanced && opens > 0 => Some(SECOND_ROOT),
            _ => None,
        };
        if let Some(number) = number {
            return Err(Refusal::new(number, place));
        }
        match byte {
            CLOSE => closes += 1,
            _ => opens += 1,
        }
    }
    match opens == closes && opens > 0 {
        true => Ok(()),
        false => Err(Refusal::new(STREAM_CLOSE, stream.len())),
    }
}

/// What the tree call must answer, room aside. The preorder of an image is the
/// stream with the last symbol for each close, and one last symbol more.
pub fn tree_of_stream(arities: &[u8], stream: &[u8]) -> Result<Vec<u8>, Refusal> {
    list_reading(arities)?;
    let absent = arities.len() as u8 - 1;
    counted_reading(absent, stream)?;
    let mut tree = stream.to_vec();
    for byte in tree.iter_mut().filter(|byte| **byte == CLOSE) {
        *byte = absent;
    }
    tree.push(absent);
    tree_of_bytes(arities, &tree)?;
    Ok(tree)
}

/// What the record call must answer, room aside: the tree is cut where the
/// stream of each element is, at its label, inside, and beside.
pub fn stream_of_tree(arities: &[u8], tree: &[u8]) -> Result<Vec<u8>, Refusal> {
    list_reading(arities)?;
    let tree = tree_of_bytes(arities, tree)?;
    match &tree.children[..] {
        [_, beside] if beside.children.is_empty() => Ok(stream_from(&tree)),
        [inside, _] => Err(Refusal::new(NO_IMAGE, 1 + inside.size())),
        _ => Err(Refusal::new(NO_IMAGE, 0)),
    }
}

fn stream_from(tree: &Tree) -> Vec<u8> {
    match &tree.children[..] {
        [inside, beside] => {
            let label = vec![tree.symbol];
            [label, stream_from(inside), vec![CLOSE], stream_from(beside)].concat()
        }
        _ => Vec::new(),
    }
}
