#!/usr/bin/env python3
"""Draws docs/layers.svg: the crates in their layers, as crates.txt lists them.

    python3 docs/layers.py > docs/layers.svg

A crate stands under those that it needs. A line goes to each crate that it needs and that none of its
other crates brings along already.
"""
import pathlib
import re
import sys

LIST = pathlib.Path(__file__).parent.parent / "crates.txt"
COLOURS = ["#1f5fa8", "#8a4b08", "#2e7d32", "#6a1b9a", "#444444"]
WIDTH, HEIGHT, GAP, ROW, LEFT, TOP, ACROSS = 104, 26, 14, 62, 20, 40, 9


def read():
    """The crates in their order: name, what it needs, and the part of the list that it stands in."""
    crates, parts = {}, []
    for line in LIST.read_text().splitlines():
        if line.startswith("#"):
            parts.append(line.lstrip("# ").rstrip("."))
        elif ":" in line:
            named, rest = line.split(":", 1)
            name = named.split()[0]
            crates[name] = (rest.split("#")[0].split(), len(parts) - 1)
    ours = {name: ([need for need in needs if need in crates], part) for name, (needs, part) in crates.items()}
    return ours, parts


def everything(crates, name, known):
    """All that a crate stands on."""
    if name not in known:
        known[name] = set().union(*({need} | everything(crates, need, known) for need in crates[name][0]), set())
    return known[name]


def nearest(crates):
    """For each crate what it needs and nothing else of its needs brings along."""
    known = {}
    for name in crates:
        everything(crates, name, known)
    return {name: [need for need in needs if not any(need in known[other] for other in needs)]
            for name, (needs, _) in crates.items()}


def depths(crates):
    depth = {}
    for name, (needs, _) in crates.items():
        depth[name] = 1 + max((depth[need] for need in needs), default=-1)
    return depth


def places(crates):
    """Each crate below all that it needs; long rows are folded."""
    rows, depth = {}, depths(crates)
    for name in crates:
        rows.setdefault(depth[name], []).append(name)
    place, line = {}, 0
    for level in sorted(rows):
        for start in range(0, len(rows[level]), ACROSS):
            piece = rows[level][start:start + ACROSS]
            for column, name in enumerate(piece):
                place[name] = (LEFT + column * (WIDTH + GAP), TOP + line * ROW)
            line += 1
    return place, line


def main():
    crates, parts = read()
    place, lines = places(crates)
    wide = LEFT * 2 + ACROSS * (WIDTH + GAP)
    tall = TOP + lines * ROW + 22 * len(parts) + 20
    print(f'<svg xmlns="http://www.w3.org/2000/svg" width="{wide}" height="{tall}" font-family="sans-serif" font-size="13">')
    print(f'<rect width="{wide}" height="{tall}" fill="white"/>')
    for name, needs in nearest(crates).items():
        x, y = place[name]
        for need in needs:
            a, b = place[need]
            print(f'<line x1="{a + WIDTH // 2}" y1="{b + HEIGHT}" x2="{x + WIDTH // 2}" y2="{y}" stroke="#bbbbbb"/>')
    for name, (_, part) in crates.items():
        x, y = place[name]
        colour = COLOURS[part % len(COLOURS)]
        print(f'<rect x="{x}" y="{y}" width="{WIDTH}" height="{HEIGHT}" rx="4" fill="white" stroke="{colour}"/>')
        print(f'<text x="{x + WIDTH // 2}" y="{y + 17}" text-anchor="middle" fill="{colour}">{name}</text>')
    for number, part in enumerate(parts):
        y = TOP + lines * ROW + 22 * number + 10
        text = re.sub(r"[<&]", "", part)
        print(f'<text x="{LEFT}" y="{y}" fill="{COLOURS[number % len(COLOURS)]}">{text}</text>')
    print("</svg>")


if __name__ == "__main__":
    sys.exit(main())
