//! Cases of kind `records`: a table text, lines of records, and lines of trees
//! to be written back.

use super::damage;
use super::sample::{readable, readable_over, Scale};
use super::trees::{joined, not_hexadecimal, spoiled, spoiled_deep, Grower};
use crate::examples;
use crate::hex;
use crate::limits::{MAX_DEPTH, MAX_RULES, MAX_SYMBOLS, MAX_TREE};
use crate::record::labels_of;
use crate::rng::Rng;
use crate::stream::CLOSE;
use crate::table::{self, Initial, Table};

/// A generated table text, the text with one record a line, and the text with
/// one tree a line.
pub struct RecordsCase {
    pub table: Vec<u8>,
    pub records: Vec<u8>,
    pub backs: Vec<u8>,
}

impl RecordsCase {
    /// The streams of those lines of records that are hexadecimal.
    pub fn streams(&self) -> Vec<Vec<u8>> {
        hex::decode_lines(&self.records).flatten().collect()
    }

    /// The trees of those lines to be written back that are hexadecimal.
    pub fn trees(&self) -> Vec<Vec<u8>> {
        hex::decode_lines(&self.backs).flatten().collect()
    }
}

/// How many recipes for tables there are.
const RECIPES: usize = 16;

/// The case of this seed and index.
pub fn case(seed: u64, index: usize) -> RecordsCase {
    let mut rng = Rng::for_case(seed, index);
    let (round, recipe) = (index / RECIPES, index % RECIPES);
    if recipe == 5 {
        let recipe = damage::RECIPES[round % damage::RECIPES.len()];
        let text = recipe(&mut rng, round).text;
        return lines_for(&mut rng, &examples::brackets()).few(&mut rng, text);
    }
    let table = table_for_records(&mut rng, recipe, round);
    let mut lines = lines_for(&mut rng, &table);
    if labels_of(&table.arities).is_err() {
        return lines.few(&mut rng, table::write(&table));
    }
    // Such lines are long, so not in every round.
    match (recipe, round % 8) {
        (7, 0) => lines.add_largest(&mut rng, &table),
        (8, 4) => lines.add_longest(&mut rng, round / 8),
        _ => {}
    }
    lines.all(&mut rng, table::write(&table))
}

/// Mostly with a list of the right shape and a rule for each state and symbol,
/// so that a record has a word.
fn table_for_records(rng: &mut Rng, recipe: usize, round: usize) -> Table {
    match recipe {
        0 => examples::brackets(),
        1 => over_labels(rng, Scale::Tiny, (0, 0), 3, 100),
        2 => readable_over(rng, Scale::Tiny, &[[2, 1, 3, 4][round % 4]], 2, 100),
        3 => with_wrong_list(rng, round),
        4 => readable(rng, Scale::Tiny),
        6 => over_labels(rng, Scale::Small, (62, 63), 8, 100),
        7 | 8 => over_labels(rng, Scale::Tiny, (1, 3), 3, 100),
        9 => over_labels(rng, Scale::Small, (1, 7), 64, 100),
        10 => over_labels(rng, Scale::Tiny, (1, 3), 3, 70),
        11 => over_labels(rng, Scale::Small, (1, 8), 8, 85),
        12 => over_labels(rng, Scale::Small, (1, 4), 4, 97),
        13 => over_labels(rng, Scale::Large, (1, 20), 20, 100),
        _ => over_labels(rng, Scale::Small, (1, 6), 6, 100),
    }
}

fn list_of_labels(labels: usize) -> Vec<u8> {
    let mut arities = vec![2; labels];
    arities.push(0);
    arities
}

/// A table over at least and at most so many labels; it has so few states that
/// all its rules can be there.
fn over_labels(
    rng: &mut Rng,
    scale: Scale,
    (least, most): (usize, usize),
    states: usize,
    filled: usize,
) -> Table {
    let arities = list_of_labels(rng.between(least, most));
    let states = rng.between(1, states.min(MAX_RULES / arities.len()));
    readable_over(rng, scale, &arities, states, filled)
}

/// A list in which the first, the last or any symbol has another arity, and
/// sometimes one behind it too.
fn with_wrong_list(rng: &mut Rng, round: usize) -> Table {
    let labels = *rng.pick(&[1, 2, 3, 8, MAX_SYMBOLS - 1]);
    let mut arities = list_of_labels(labels);
    let index = match round % 4 {
        0 => 0,
        1 => labels,
        _ => rng.between(0, labels),
    };
    let mut spoil = |index: usize| {
        let others: Vec<u8> = (0..=4).filter(|&arity| arity != arities[index]).collect();
        arities[index] = *rng.pick(&others);
    };
    spoil(index);
    if round % 4 == 3 && index < labels {
        spoil(index + 1);
    }
    readable_over(rng, Scale::Tiny, &arities, 2, 100)
}

/// The lines of a case before they are joined.
struct Lines {
    labels: Labels,
    records: Vec<Vec<u8>>,
    backs: Vec<Vec<u8>>,
}

impl Lines {
    fn add_stream(&mut self, stream: &[u8]) {
        self.records.push(hex::encode(stream));
    }

    fn add_tree(&mut self, tree: &[u8]) {
        self.backs.push(hex::encode(tree));
    }

    fn all(self, rng: &mut Rng, table: Vec<u8>) -> RecordsCase {
        RecordsCase {
            table,
            records: joined(rng, &self.records),
            backs: joined(rng, &self.backs),
        }
    }

    /// Only some of the lines, since all get the same number.
    fn few(mut self, rng: &mut Rng, table: Vec<u8>) -> RecordsCase {
        for lines in [&mut self.records, &mut self.backs] {
            rng.shuffle(lines);
            lines.truncate(8);
            lines.extend([Vec::new(), b"zz".to_vec()]);
        }
        self.all(rng, table)
    }
}

/// Lines of every class for one table.
fn lines_for(rng: &mut Rng, table: &Table) -> Lines {
    let labels = Labels::of(table);
    let mut lines = Lines {
        labels,
        records: Vec::new(),
        backs: Vec::new(),
    };
    for stream in labels.without_label(rng) {
        lines.add_stream(&stream);
    }
    lines.add_tree(&[]);
    lines.add_tree(&[labels.absent()]);
    if labels.count > 0 {
        lines.add_images(rng, table);
    }
    lines.add_other_trees(rng, table);
    let line = hex::encode(&[0, CLOSE]);
    lines.records.extend(not_hexadecimal(rng, &line));
    lines.backs.extend(not_hexadecimal(rng, &line));
    lines
}

impl Lines {
    fn add_images(&mut self, rng: &mut Rng, table: &Table) {
        for size in [1, 2, 3, 5, 8, 13, 40, 200] {
            let shape = *rng.pick(&SHAPES);
            let images = [
                in_domain(rng, table, Wanted::Symbols(2 * size + 1)),
                self.labels.image(rng, size, shape),
            ];
            for image in images {
                self.add_image(rng, &image, 5);
                let damaged = spoiled(rng, table, &image);
                self.add_some_trees(rng, damaged.to_vec(), 3);
            }
        }
        for levels in [MAX_DEPTH - 1, MAX_DEPTH, MAX_DEPTH + 1, MAX_DEPTH + 2] {
            let images = [
                self.labels.siblings(rng, levels - 2),
                self.labels.nested(rng, levels - 1),
                self.labels.crooked(rng, levels),
                in_domain(rng, table, Wanted::Levels(levels)),
            ];
            for image in images {
                self.add_image(rng, &image, 2);
                let damaged = spoiled_deep(rng, table, &image);
                self.add_some_trees(rng, damaged.to_vec(), 2);
            }
        }
    }

    /// The record with so many damaged ones, the image, and the image with a
    /// sibling at the root.
    fn add_image(&mut self, rng: &mut Rng, image: &[u8], damaged: usize) {
        let stream = stream_of(image, self.labels.absent());
        let mut streams = self.labels.damaged(rng, &stream);
        rng.shuffle(&mut streams);
        streams.truncate(damaged);
        streams.push(stream);
        streams.iter().for_each(|stream| self.add_stream(stream));
        self.add_tree(image);
        let tree = self.labels.with_sibling_at_root(rng, image);
        self.add_tree(&tree);
    }

    fn add_some_trees(&mut self, rng: &mut Rng, mut trees: Vec<Vec<u8>>, count: usize) {
        rng.shuffle(&mut trees);
        trees.truncate(count);
        trees.iter().for_each(|tree| self.add_tree(tree));
    }

    /// Trees over the list, of which most are no images; each is tried as a
    /// stream too, where the last symbol is no label. A record is no tree.
    fn add_other_trees(&mut self, rng: &mut Rng, table: &Table) {
        let grower = Grower::new(table);
        for size in [1, 3, 7, 15] {
            let tree = grower.any_tree(rng, size);
            self.add_stream(&tree);
            self.add_tree(&tree);
        }
        self.add_tree(&[0, CLOSE]);
        self.add_tree(&grower.deep_tree(rng, MAX_DEPTH));
        self.add_tree(&grower.deep_tree(rng, MAX_DEPTH + 1));
    }

    /// Around 16,383 elements and 32,768 symbols.
    fn add_largest(&mut self, rng: &mut Rng, table: &Table) {
        let most = (MAX_TREE - 1) / 2;
        for elements in [most - 1, most, most + 1, most + 2] {
            let image = self.labels.image(rng, elements, Shape::Bushy);
            self.add_image(rng, &image, 1);
        }
        let image = self.labels.image(rng, most, Shape::Any);
        self.add_image(rng, &image, 1);
        let damaged = spoiled(rng, table, &image);
        self.add_some_trees(rng, damaged.to_vec(), 2);
        for count in [most, most + 1] {
            let images = [
                self.labels.siblings(rng, count - 1),
                self.labels.nested(rng, count),
            ];
            for image in images {
                self.add_image(rng, &image, 1);
            }
        }
    }

    /// A stream of 100 kilobytes or more, mostly wrong at its last byte.
    fn add_longest(&mut self, rng: &mut Rng, round: usize) {
        let elements = match rng.percent(15) {
            true => 500_000,
            false => rng.between(50_000, 150_000),
        };
        let mut stream = match rng.below(3) {
            0 => [vec![self.labels.any(rng); elements], vec![CLOSE; elements]].concat(),
            1 => {
                let label = self.labels.any(rng);
                let inside = [label, CLOSE].repeat(elements - 1);
                [&[label][..], &inside, &[CLOSE]].concat()
            }
            _ => self.labels.wandering(rng, elements),
        };
        let last = stream.len() - 1;
        match round % 8 {
            0 => stream[last] = self.labels.neither(rng),
            1 => stream[last] = self.labels.any(rng),
            2 => stream.truncate(last),
            3 => stream.push(CLOSE),
            4 => stream.push(self.labels.any(rng)),
            5 => stream.push(self.labels.neither(rng)),
            6 => stream = vec![self.labels.any(rng); 2 * elements],
            _ => {}
        }
        self.add_stream(&stream);
    }
}

/// How a list's elements are parted between its first element and the rest.
#[derive(Clone, Copy)]
enum Shape {
    /// Nearly all beside it.
    Wide,
    /// Nearly all inside it.
    Deep,
    /// About half and half, so that there are few levels.
    Bushy,
    Any,
}

const SHAPES: [Shape; 4] = [Shape::Wide, Shape::Deep, Shape::Bushy, Shape::Any];

/// Of so many elements that stand behind a list's first label, how many are
/// inside the first element.
fn share_inside(rng: &mut Rng, elements: usize, shape: Shape) -> usize {
    let few = rng.between(0, elements.min(2));
    match shape {
        Shape::Wide => few,
        Shape::Deep => elements - few,
        Shape::Bushy => rng.between(elements * 3 / 8, elements * 5 / 8),
        Shape::Any => rng.between(0, elements),
    }
}

/// The labels of a list: as many as there are symbols before the last.
#[derive(Clone, Copy)]
struct Labels {
    count: u8,
}

impl Labels {
    fn of(table: &Table) -> Labels {
        Labels {
            count: table.arities.len() as u8 - 1,
        }
    }

    fn absent(self) -> u8 {
        self.count
    }

    fn any(self, rng: &mut Rng) -> u8 {
        rng.below(usize::from(self.count)) as u8
    }

    /// A byte that is neither label nor close, often the last symbol's number.
    fn neither(self, rng: &mut Rng) -> u8 {
        match rng.below(3) {
            0 => self.absent(),
            _ => rng.byte_between(self.count, CLOSE - 1),
        }
    }

    /// The image of a record of so many elements.
    fn image(self, rng: &mut Rng, elements: usize, shape: Shape) -> Vec<u8> {
        let mut image = vec![self.any(rng)];
        self.add_list(rng, elements - 1, shape, &mut image);
        image.push(self.absent());
        image
    }

    /// Adds the image of a list of so many elements.
    fn add_list(self, rng: &mut Rng, elements: usize, shape: Shape, image: &mut Vec<u8>) {
        let mut due = vec![elements];
        while let Some(elements) = due.pop() {
            if elements == 0 {
                image.push(self.absent());
            } else {
                image.push(self.any(rng));
                let inside = share_inside(rng, elements - 1, shape);
                due.extend([elements - 1 - inside, inside]);
            }
        }
    }

    /// A root with so many childless elements inside, mostly of one label.
    fn siblings(self, rng: &mut Rng, count: usize) -> Vec<u8> {
        let (root, label) = (self.any(rng), self.any(rng));
        let inside = [label, self.absent()].repeat(count);
        [&[root][..], &inside, &[self.absent(); 2]].concat()
    }

    /// So many nested elements, mostly of one label.
    fn nested(self, rng: &mut Rng, count: usize) -> Vec<u8> {
        let mut image = vec![self.any(rng); count];
        image[count - 1] = self.any(rng);
        image.resize(2 * count + 1, self.absent());
        image
    }

    /// An image of exactly so many levels: a path that goes inside and beside,
    /// with childless elements next to it.
    fn crooked(self, rng: &mut Rng, levels: usize) -> Vec<u8> {
        let (mut image, mut behind) = (Vec::new(), Vec::new());
        for level in 1..levels {
            image.push(self.any(rng));
            let mut other = vec![self.absent()];
            if level > 1 && level + 2 <= levels && rng.percent(20) {
                other = vec![self.any(rng), self.absent(), self.absent()];
            }
            if level == 1 || rng.percent(50) {
                behind.push(other);
            } else {
                image.append(&mut other);
            }
        }
        image.push(self.absent());
        behind.iter().rev().for_each(|other| image.extend(other));
        image
    }

    /// The image without its last symbol, and a list of elements there.
    fn with_sibling_at_root(self, rng: &mut Rng, image: &[u8]) -> Vec<u8> {
        let mut tree = image.to_vec();
        tree.pop();
        let elements = rng.between(1, 4);
        self.add_list(rng, elements, Shape::Any, &mut tree);
        tree
    }

    /// A long stream that opens and closes at random.
    fn wandering(self, rng: &mut Rng, elements: usize) -> Vec<u8> {
        let mut stream = vec![self.any(rng)];
        let mut open = 1;
        for _ in 1..elements {
            while open > 1 && rng.percent(45) {
                stream.push(CLOSE);
                open -= 1;
            }
            stream.push(self.any(rng));
            open += 1;
        }
        stream.extend(vec![CLOSE; open]);
        stream
    }

    /// Streams that can be wrong with any list, also one without labels.
    fn without_label(self, rng: &mut Rng) -> Vec<Vec<u8>> {
        let neither = self.neither(rng);
        let mut streams = vec![
            vec![],
            vec![CLOSE],
            vec![CLOSE, CLOSE],
            vec![CLOSE, neither],
            vec![neither],
            vec![neither, CLOSE],
            vec![0],
            vec![0, CLOSE],
        ];
        for length in 1..6 {
            streams.push((0..length).map(|_| rng.byte()).collect());
        }
        streams
    }

    /// A record's stream with a fault; some are records all the same.
    fn damaged(self, rng: &mut Rng, stream: &[u8]) -> Vec<Vec<u8>> {
        let at = rng.below(stream.len().max(1));
        let (label, neither, byte) = (self.any(rng), self.neither(rng), rng.byte());
        let with = |changed: u8| {
            let mut stream = stream.to_vec();
            if let Some(byte) = stream.get_mut(at) {
                *byte = changed;
            }
            stream
        };
        let inserted = |byte: u8| [&stream[..at], &[byte], &stream[at..]].concat();
        let and_then = |behind: &[u8]| [stream, behind].concat();
        let first_closed = [&[CLOSE], stream].concat();
        let twice = and_then(stream);
        vec![
            with(byte),
            with(self.absent()),
            with(neither),
            with(label),
            with(CLOSE),
            inserted(byte),
            inserted(label),
            inserted(CLOSE),
            stream[..at].to_vec(),
            stream[..stream.len().saturating_sub(1)].to_vec(),
            stream[stream.len().min(1)..].to_vec(),
            and_then(&[CLOSE]),
            and_then(&[CLOSE, neither]),
            and_then(&[label]),
            and_then(&[label, CLOSE]),
            and_then(&[label, neither]),
            and_then(&[neither]),
            and_then(&[self.absent(), label]),
            first_closed,
            twice,
        ]
    }
}

/// The stream of the record whose image this is: an element is its label, what
/// is inside, and its close, and then comes what is beside it. Of a tree that is
/// no image, what it would be; a tree that is cut gives a stream that is cut.
fn stream_of(image: &[u8], absent: u8) -> Vec<u8> {
    enum Due {
        List,
        Close,
    }
    let mut symbols = image.iter().copied();
    let mut stream = Vec::new();
    let mut due = vec![Due::List];
    while let Some(next) = due.pop() {
        match next {
            Due::Close => stream.push(CLOSE),
            Due::List => match symbols.next() {
                None => break,
                Some(symbol) if symbol == absent => {}
                Some(label) => {
                    stream.push(label);
                    due.extend([Due::List, Due::Close, Due::List]);
                }
            },
        }
    }
    stream
}

/// How large an image is to be.
#[derive(Clone, Copy)]
enum Wanted {
    Symbols(usize),
    Levels(usize),
}

/// An image to which the table gives a word, if one is found: the root by a rule
/// of the initial state, and inside it a tree with a word at the first child's
/// state.
fn in_domain(rng: &mut Rng, table: &Table, wanted: Wanted) -> Vec<u8> {
    let absent = Labels::of(table).absent();
    let rules = table.rules_of(table.initial.state).iter();
    let rules: Vec<&table::Rule> = rules.filter(|rule| rule.children.len() == 2).collect();
    let (label, state) = match rules.is_empty() {
        true => (0, table.initial.state),
        false => {
            let rule = *rng.pick(&rules);
            (rule.symbol, rule.children[0].state)
        }
    };
    let from_inside = Table {
        initial: Initial {
            state,
            ..table.initial.clone()
        },
        ..table.clone()
    };
    let grower = Grower::new(&from_inside);
    let inside = match wanted {
        Wanted::Symbols(symbols) => grower.tree_in_domain(rng, symbols.max(3) - 2),
        Wanted::Levels(levels) => grower.deep_in_domain(rng, levels - 1),
    };
    [&[label][..], &inside, &[absent]].concat()
}
