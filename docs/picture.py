#!/usr/bin/env python3
"""Draws docs/tables.svg: a tree, the state that meets each node, and the word that the rules write.

    python3 docs/picture.py > docs/tables.svg

The states and letters are read off examples/clips.table, so the picture shows what the table says.
"""
import pathlib
import sys

TABLE = pathlib.Path(__file__).parent.parent / "examples" / "clips.table"
TREE = bytes.fromhex("000102030402")
NAMES = ["clip", "pair", "day", "night", "restored"]
COLOURS = ["#1f5fa8", "#8a4b08", "#2e7d32", "#6a1b9a"]

COLUMN, ROW, TOP, RADIUS = 150, 104, 46, 25


def fields(frame, at, children):
    """The words and states of a rule or of the initial rule, from `at` on."""
    word = lambda i: (frame[i + 1:i + 1 + frame[i]].decode(), i + 1 + frame[i])
    first, at = word(at)
    parts = [first]
    for _ in range(children):
        state = frame[at]
        text, at = word(at + 1)
        parts += [state, text]
    return parts


def read_table(path):
    """The arities, the initial rule and the rules by state and symbol of a well made table."""
    arities, start, rules = [], None, {}
    for line in path.read_text().split():
        frame = bytes.fromhex(line)
        if frame[0] == 1:
            arities.append(frame[1])
        elif frame[0] == 2:
            start = fields(frame, 2, 1)
        elif frame[0] == 3:
            rules[frame[1], frame[2]] = fields(frame, 3, arities[frame[2]])
    return arities, start, rules


class Node:
    """A node of the tree with the state that meets it, its rule and its children."""

    def __init__(self, machine, tree, state, depth):
        arities, _, rules = machine
        self.symbol, self.state, self.depth = tree.pop(0), state, depth
        self.rule = rules[state, self.symbol]
        self.children = [Node(machine, tree, q, depth + 1) for q in self.rule[1::2]]

    def place(self, next_column):
        """Leaves stand side by side, a parent above the middle of its children."""
        if not self.children:
            self.x = COLUMN * next_column + COLUMN // 2
            return next_column + 1
        for child in self.children:
            next_column = child.place(next_column)
        self.x = (self.children[0].x + self.children[-1].x) // 2
        return next_column

    def letters(self):
        """Each letter of the word with the node whose rule writes it."""
        written = [(letter, self) for letter in self.rule[0]]
        for child, text in zip(self.children, self.rule[2::2]):
            written += child.letters() + [(letter, self) for letter in text]
        return written

    def nodes(self):
        return [self] + [node for child in self.children for node in child.nodes()]

    @property
    def y(self):
        return TOP + ROW * self.depth

    @property
    def colour(self):
        return COLOURS[self.state]

    def rule_in_words(self):
        shown = [f"q{part}" if isinstance(part, int) else part for part in self.rule]
        return " ".join(part for part in shown if part)


def text(x, y, words, colour="#222", size=14, anchor="middle", family="sans-serif"):
    return (f'<text x="{x}" y="{y}" fill="{colour}" font-size="{size}" font-family="{family}" '
            f'text-anchor="{anchor}">{words}</text>')


def line(x1, y1, x2, y2, colour="#999", dash=""):
    return f'<line x1="{x1}" y1="{y1}" x2="{x2}" y2="{y2}" stroke="{colour}" stroke-width="1.5"{dash}/>'


def drawn(root, columns):
    """The picture's elements: edges and nodes above, the letters and who wrote them below."""
    depth = max(node.depth for node in root.nodes())
    bottom, width = TOP + ROW * (depth + 1), COLUMN * columns
    edges, marks = [], []
    for node in root.nodes():
        edges += [line(node.x, node.y + RADIUS, child.x, child.y - RADIUS) for child in node.children]
        marks.append(f'<circle cx="{node.x}" cy="{node.y}" r="{RADIUS}" fill="#fff" stroke="{node.colour}" stroke-width="2.5"/>')
        marks.append(text(node.x, node.y + 5, f"q{node.state}", node.colour, 16))
        marks.append(text(node.x + RADIUS + 7, node.y - 5, NAMES[node.symbol], size=15, anchor="start"))
        marks.append(text(node.x + RADIUS + 7, node.y + 14, f"writes {node.rule_in_words()}", node.colour, 12, "start", "monospace"))
    letters = root.letters()
    step = width / (len(letters) + 1)
    for i, (letter, node) in enumerate(letters, 1):
        x = round(step * i)
        if not node.children:
            edges.append(line(node.x, node.y + RADIUS, x, bottom - 20, node.colour, ' stroke-dasharray="4 4"'))
        marks.append(f'<rect x="{x - 19}" y="{bottom - 20}" width="38" height="38" rx="5" fill="#fff" stroke="{node.colour}" stroke-width="2"/>')
        marks.append(text(x, bottom + 6, letter, node.colour, 20, family="monospace"))
    word = "".join(letter for letter, _ in letters)
    marks.append(text(width // 2, bottom + 46, f"the clip's word: {word}; a letter has the colour of the state that wrote it", size=13))
    return width + 60, bottom + 62, edges + marks


def main():
    machine = read_table(TABLE)
    before, start, after = machine[1]
    if before or after:
        sys.exit("the picture has no place for letters of the initial rule")
    root = Node(machine, list(TREE), start, 0)
    width, height, parts = drawn(root, root.place(0))
    print(f'<svg xmlns="http://www.w3.org/2000/svg" viewBox="0 0 {width} {height}" width="{width}" height="{height}">')
    print(f'<rect width="{width}" height="{height}" fill="#fff"/>')
    print("\n".join(parts))
    print("</svg>")


main()
