#!/usr/bin/env python3
"""Spells the names of this repository's own definitions and lemmas as the library spells its names.

Words are in snake case: a name in specs/ or in a file of lemmas right in proofs/ that has dashes or capitals
inside gets underscores. Types and modules keep their camel case. Names that would fall together are told apart
in APART. Names of the library, of functions in src/ and of goals stay. Runs once, over the files that git lists.
"""
import collections
import glob
import re
import subprocess

# Words apart from separators, as antt reads them.
TOKEN = re.compile(r"[^\s:(){}\[\];,.\"λ@`]+")
# Letters that the definitions take from mathematics, and cases of the specification: they keep their capital.
LETTERS = {"L", "T", "K", "M1", "M2"}
# Functions that were spelled as types.
FUNCTIONS = {"Single": "single", "Tails": "tails"}
# Lemmas that would have the name of the function that they speak of.
APART = {
    "fault-of": "fault_of_lem",
    "child-fault-of": "child_fault_of_lem",
    "row-frame": "row_frame_lem",
    "head-frames": "head_frames_lem",
    "form-room": "form_room_lem",
    "last-told": "last_told_lem",
    "last-symbol": "last_symbol_lem",
    "letters-most": "letters_most_lem",
    "stream-told": "stream_told_lem",
    "read-lines": "read_lines_lem",
    "text-most": "text_most_lem",
    "wrong_size": "wrong_size_lem",
    "read-tree": "read_tree_lem",
    "depth-most": "depth_most_lem",
    "arity-most": "arity_most_lem",
    "free-row": "free_row_lem",
    "image-told": "image_told_lem",
    "judged-by": "judged_by_lem",
    "states-of": "states_of_lem",
    "tree-read": "tree_read_lem",
    "first-state": "first_state_lem",
    "later-states": "later_states_lem",
}


def declared(path):
    """The names that a file of definitions or lemmas declares: items, fields and constructors."""
    block = False
    for line in open(path, encoding="utf-8"):
        line = line.rstrip("\n")
        if not line.strip():
            block = False
        if not line.strip() or line.lstrip().startswith("--") or re.match(r"(pub )?use |infix|unfolding", line):
            continue
        item = re.match(r"(\s*)(?:(?:pub|abbrev|unfoldable|opaque|abstract|private)\s+)*((?:data|record|ruleset)\s+)?([^\s:(){}\[\];,]+)(.*)$", line)
        if item is None:
            continue
        if not item.group(1) and item.group(2):
            block = True
            yield item.group(3)
        elif re.match(r"\s*(\{[^}]*\}\s*|\([^)]*\)\s*)*:", item.group(4)):
            block = block and bool(item.group(1))
            yield item.group(3)
        elif block:
            fields = re.match(r"\s+(?:pub )?([^\s:(){}\[\];,]+(?:\s+[^\s:(){}\[\];,]+)*)\s*:", line)
            if fields:
                yield from fields.group(1).split()


def snake(name):
    """The name in snake case."""
    if name in APART:
        return APART[name]
    if name in FUNCTIONS:
        return FUNCTIONS[name]
    if name in LETTERS or not re.match(r"\w", name):
        return name
    name = name.replace("-", "_")
    if name[0].islower():
        name = re.sub(r"([a-z0-9])([A-Z])", lambda m: m.group(1) + "_" + m.group(2).lower(), name)
    return name


def library_names(paths):
    """The names that files import from elsewhere than this repository's crates."""
    own = {line.split(":")[0].split()[0] for line in open("crates.txt", encoding="utf-8") if line[:1].isalpha()}
    names = set()
    for path in paths:
        for use in re.findall(r"^\s*(?:pub |ghost )*use ([^;\n{]*(?:\{[^}]*\})?)", open(path, encoding="utf-8").read(), re.M):
            crate = use.split(".")[1] if use.startswith("Rattle.") and "." in use[7:] else use.split(".")[0]
            if crate not in own:
                names.update(TOKEN.findall(use))
    return names


def main():
    listed = subprocess.run(["git", "ls-files"], capture_output=True, text=True, check=True).stdout.split("\n")
    sources = [p for p in listed if re.match(r"crates/.*\.(antt|rt|edit)$", p)]
    theirs = library_names([p for p in sources if not p.endswith(".edit")])
    spelled = {}
    for path in sorted(glob.glob("crates/*/specs/**/*.antt", recursive=True) + glob.glob("crates/*/proofs/*.antt")):
        for name in declared(path):
            if snake(name) != name and name not in theirs:
                spelled[name] = snake(name)
    together = collections.defaultdict(set)
    for old, new in spelled.items():
        together[new].add(old)
    for new, olds in sorted(together.items()):
        if len(olds) > 1:
            print("together:", new, sorted(olds))
    for path in sources:
        text = open(path, encoding="utf-8").read()
        new = TOKEN.sub(lambda m: spelled.get(m.group(0), m.group(0)), text)
        if new != text:
            open(path, "w", encoding="utf-8").write(new)
    # In pages only what stands between backquotes is a name.
    for path in (p for p in listed if re.match(r"(docs/[A-Z-]*|README|CONTRIBUTING|crates/.*)\.md$", p)):
        text = open(path, encoding="utf-8").read()
        new = re.sub(r"`[^`\n]+`", lambda c: TOKEN.sub(lambda m: spelled.get(m.group(0), m.group(0)), c.group(0)), text)
        if new != text:
            open(path, "w", encoding="utf-8").write(new)
    print(len(spelled), "names")


main()
