#!/usr/bin/env python3
"""Counts the places in src/ that docs/DESIGN-PASS.md speaks of, a line for each point; --list shows them."""

import glob
import re
import sys

PARAMETER = r"&(?:'a )?(?:mut )?\[[^\]]*\]"

POINTS = [
    ("1 own enums", r"^(?:pub )?enum \w+"),
    ("1 numbers for kinds or refusals", r"\b(?:number|phase|side|table|kind): (?:u8|usize)\b|^(?:pub )?const (?:NONE|STOPPED|STRANGE)\b"),
    ("2 twins by name", r"\bfn \w+(?:_full|2)\b"),
    ("3 loops that count by hand", r"^[ \t]*(?:'\w+: )?(?:while|loop)\b"),
    ("4 conversions by `as`", r" as (?:u8|u16|u32|u64|usize)\b"),
    ("5 lengths in a requires", r"length \w+\.(?:now|old) ≡ \w+"),
    ("5 frames and numbers together", r"frames2?: &[^,]*,\s*numbers2?: &"),
    ("6 a buffer and a place or a length", r"\b(?:order|out|room|stack|buf|from|to|bytes|frames): " + PARAMETER + r",\s*(?:\w+: &\w+,\s*)?(?:n|used|at|top|count|p): usize"),
    ("7 a switch on a number", r"match (?:number|phase|side|kind|asked)\b"),
]

CLAUSE = re.compile(r"^\s*(?:requires|ensures)\b")


def places(pattern):
    found = []
    for path in sorted(glob.glob("crates/*/src/**/*.rt", recursive=True)):
        with open(path, encoding="utf-8") as file:
            text = file.read()
        for match in re.finditer(pattern, text, re.M):
            line = text.count("\n", 0, match.start()) + 1
            whole = text.split("\n")[line - 1].strip()
            if not whole.startswith("//"):
                found.append((path, line, whole))
    return found


for name, pattern in POINTS:
    found = places(pattern)
    print(f"{len(found):4}  {name}")
    if "--list" in sys.argv[1:]:
        for path, line, whole in found:
            print(f"        {path}:{line}: {whole}")
