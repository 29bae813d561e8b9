//! The image of a record as a tree, by first child and next sibling, and the
//! record of an image: refusal 24.

use crate::refusal::{Refusal, NO_IMAGE};
use crate::stream::Element;

/// A tree over symbols of arity 2, the labels, and one of arity 0, the absent
/// element. Its nodes are called by their numbers, since an image can be deeper
/// than calls can be nested: a record has no limit before it is a tree.
pub struct Tree {
    nodes: Vec<Node>,
}

struct Node {
    symbol: u8,
    /// The first element inside and the next element beside; none for a leaf.
    children: Option<[usize; 2]>,
}

/// The node from which a tree hangs.
const ROOT: usize = 0;

impl Tree {
    fn add(&mut self, symbol: u8) -> usize {
        self.nodes.push(Node {
            symbol,
            children: None,
        });
        self.nodes.len() - 1
    }

    /// The image of a record; `absent` is the last symbol.
    ///
    /// The image of a list of elements is that of its first: its label, below it
    /// the image of the list inside it and the image of the list that is left
    /// beside it. The image of no elements is the absent one.
    pub fn of_record(record: &Element, absent: u8) -> Tree {
        let mut tree = Tree { nodes: Vec::new() };
        // A node is the absent one until it is seen that its list has a first.
        let mut due = vec![(tree.add(absent), std::slice::from_ref(record))];
        while let Some((node, list)) = due.pop() {
            if let [element, beside @ ..] = list {
                let children = [tree.add(absent), tree.add(absent)];
                tree.nodes[node] = Node {
                    symbol: element.label,
                    children: Some(children),
                };
                due.extend([(children[0], &element.inside[..]), (children[1], beside)]);
            }
        }
        tree
    }

    /// The tree whose preorder the bytes are. Its shape is settled, so at most
    /// 64 calls are open.
    pub fn of_preorder(tree: &[u8], absent: u8) -> Tree {
        let mut symbols = tree.iter().copied();
        let mut tree = Tree { nodes: Vec::new() };
        tree.add_from(&mut symbols, absent);
        tree
    }

    fn add_from(&mut self, symbols: &mut impl Iterator<Item = u8>, absent: u8) -> usize {
        let symbol = symbols.next().expect("the tree does not stop early");
        let node = self.add(symbol);
        if symbol != absent {
            let inside = self.add_from(symbols, absent);
            let beside = self.add_from(symbols, absent);
            self.nodes[node].children = Some([inside, beside]);
        }
        node
    }

    /// The symbols in preorder.
    pub fn preorder(&self) -> Vec<u8> {
        self.preorder_from(ROOT)
    }

    fn preorder_from(&self, node: usize) -> Vec<u8> {
        let mut symbols = Vec::new();
        let mut due = vec![node];
        while let Some(node) = due.pop() {
            let Node { symbol, children } = &self.nodes[node];
            symbols.push(*symbol);
            if let Some([inside, beside]) = children {
                due.extend([beside, inside]);
            }
        }
        symbols
    }

    /// The record whose image this is, of a tree of at most 64 levels.
    pub fn record(&self) -> Result<Element, Refusal> {
        let root = &self.nodes[ROOT];
        let Some([inside, beside]) = root.children else {
            return Err(Refusal::new(NO_IMAGE, 0));
        };
        if self.nodes[beside].children.is_some() {
            let place = 1 + self.preorder_from(inside).len();
            return Err(Refusal::new(NO_IMAGE, place));
        }
        Ok(Element {
            label: root.symbol,
            inside: self.elements(inside),
        })
    }

    /// The list of elements whose image hangs from this node.
    fn elements(&self, mut node: usize) -> Vec<Element> {
        let mut list = Vec::new();
        while let Some([inside, beside]) = self.nodes[node].children {
            list.push(Element {
                label: self.nodes[node].symbol,
                inside: self.elements(inside),
            });
            node = beside;
        }
        list
    }
}
