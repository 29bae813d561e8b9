#!/usr/bin/env python3
"""Breaks the lines of proofs that have more than 160 characters: `tools/wrap.py [CRATE..]`, in all crates if none is named.

A line is broken at a space, where as few brackets as can be are open, and the rest stands four spaces deeper; of an
import each name gets its own line, as `rt fmt` has it. What a line says stays, so the proof does. Comments, and lines
with no such space, stay; `.ci/order` names them. Behind it comes `rt fmt` in each crate.
"""
import pathlib
import sys

ROOT = pathlib.Path(__file__).resolve().parent.parent
LONGEST = 160
LEAST = 60


def places(line):
    """For each space of a line behind its indent: how many brackets are open there, and where it is."""
    depth, indent = 0, len(line) - len(line.lstrip())
    for at, letter in enumerate(line):
        depth += (letter in "([{") - (letter in ")]}")
        if letter == " " and at > indent:
            yield depth, at


def broken(line):
    """The line in lines of at most 160 characters, as far as there are places to break it."""
    indent = len(line) - len(line.lstrip())
    rest, out, deeper = line, [], indent
    while len(rest) > LONGEST:
        found = [(depth, -at) for depth, at in places(rest) if deeper + LEAST < at <= LONGEST]
        if not found:
            break
        at = -min(found)[1]
        out.append(rest[:at].rstrip())
        deeper = indent + 4
        rest = " " * deeper + rest[at:].lstrip()
    return [*out, rest]


def listed(line):
    """An import with each of its names on a line."""
    path, _, names = line.rstrip().removesuffix("}").partition("{")
    return [path + "{", *("  " + name.strip() + "," for name in names.split(",") if name.strip()), "}"]


def wrapped(line):
    if len(line) <= LONGEST or "--" in line:
        return [line]
    return listed(line) if line.startswith(("use ", "pub use ")) else broken(line)


def main():
    crates = sys.argv[1:] or sorted(path.name for path in (ROOT / "crates").iterdir())
    for crate in crates:
        for path in sorted((ROOT / "crates" / crate / "proofs").rglob("*.antt")):
            lines = path.read_text().split("\n")
            if all(len(line) <= LONGEST for line in lines):
                continue
            path.write_text("\n".join(piece for line in lines for piece in wrapped(line)))
            print(path.relative_to(ROOT))


main()
