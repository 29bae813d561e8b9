#!/usr/bin/env python3
"""Writes docs/MUST-FAIL.md out of the first line of each crates/*/must-fail/*.edit.

    python3 docs/must-fail.py > docs/MUST-FAIL.md

That line is `# WRONG PROGRAM: FACT THAT FAILS.`; an edit without it is named on standard error.
"""
import pathlib
import sys

ROOT = pathlib.Path(__file__).parent.parent
HEAD = """# Wrong programs that are refused

Each edit below makes a wrong program, or a wrong definition, out of a right one, and the prover has to refuse it: the gate tries them all. \
Beside each stands the fact that then fails. `rt ci` prints the prover's error on the line `rt: must-fail CRATE/EDIT.edit`.

A contract that allows one result only excludes every program that differs anywhere (the laws for that are named in [CONTRACTS.md](CONTRACTS.md)). \
So here are the wrong programs that the specification names and those that look most like sense, each in the smallest crate that can refuse it.

This page is made by `python3 docs/must-fail.py`, and the gate compares it.
"""


def crates():
    """The parts of crates.txt with their crates: (part, [(name, what it is)])."""
    parts = []
    for line in (ROOT / "crates.txt").read_text().splitlines():
        if line.startswith("#"):
            parts.append((line.lstrip("# ").rstrip("."), []))
        elif ":" in line:
            named, rest = line.split(":", 1)
            parts[-1][1].append((named.split()[0], rest.partition("#")[2].strip()))
    return parts


def row(edit):
    """The wrong program and the fact that it fails at, as the first line of the edit says."""
    first = edit.read_text().splitlines()[0]
    wrong, divider, fact = first.removeprefix("# ").partition(": ")
    if not first.startswith("# ") or not divider:
        sys.exit(f"{edit.relative_to(ROOT)}: the first line is not '# WRONG PROGRAM: FACT THAT FAILS.'")
    return wrong, fact.rstrip(".")


def main():
    out, count = [], 0
    for part, members in crates():
        sections = []
        for name, about in members:
            edits = sorted((ROOT / "crates" / name / "must-fail").glob("*.edit"))
            if not edits:
                continue
            count += len(edits)
            sections.append(f"### {name}\n\n{about[:1].upper()}{about[1:]}.\n\n| Wrong program | Fact that fails | Edit |\n|---|---|---|\n"
                            + "".join("| %s | %s | %s |\n" % (*(text.replace("|", "\\|") for text in row(edit)), edit.stem) for edit in edits))
        if sections:
            out.append(f"## {part}\n\n" + "\n".join(sections))
    print(HEAD + f"There are {count}.\n\n" + "\n".join(out), end="")


main()
