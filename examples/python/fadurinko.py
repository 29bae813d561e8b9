"""The proved calls from Python, by ctypes. From the folder of the repository:

    (cd crates/fadurinko_c && rt lib)
    mkdir -p target
    gcc -shared -o target/libfadurinko.so -Wl,--whole-archive crates/fadurinko_c/out/libfadurinko_c.a -Wl,--no-whole-archive
    python3 examples/python/fadurinko.py

The third command makes a shared library of the archive, whose code can stand anywhere. As a module
this file looks for it in target/, or where the variable FADURINKO_SO says.

    import fadurinko
    table = fadurinko.Table(open("examples/clips.table", "rb").read())
    table.word(bytes([0, 2, 4, 3]))     # b"d-x-n"
    fadurinko.compare(first, second)    # True for the same, False for different

A record is bytes too: a label opens an element and 255 closes it. By a table for records, whose symbols have
arity 2 and the last 0, it has a word and a tree, and a tree goes back to its record:

    table = fadurinko.Table(open("examples/records.table", "rb").read())
    record = bytes([0, 1, 2, 255, 255, 255])
    table.record_word(record)           # b"clip scene+take"
    tree = table.record_tree(record)    # bytes([0, 1, 2, 3, 3, 3, 3])
    table.tree_record(tree) == record   # True

Texts, trees and records are bytes, or anything else that has a buffer: a bytearray, a memoryview. A no is
raised as fadurinko.No, with its number, its place and, for a comparison, its table. Tables can be used by
several threads at once and sent to other processes.
"""

import ctypes
import os
import sys
import threading

# Of the limits and sizes that the header has, those that are used here.
TEXT = 32768
TREE = 32768
FRAMES = 16448
NUMBERS = 4688
PLAN = 32768
ANSWER = 8
ROOM_TOO_SHORT = 12

_HERE = os.path.dirname(os.path.abspath(__file__))
_LIBRARY = os.environ.get("FADURINKO_SO") or os.path.join(_HERE, "..", "..", "target", "libfadurinko.so")
_calls = ctypes.CDLL(_LIBRARY)


class _Answer(ctypes.Structure):
    """What a call hands out besides its number: one array of ANSWER entries, of which five have a use."""

    _named = ("place", "length", "terms", "same", "table")
    _fields_ = [(name, ctypes.c_size_t) for name in _named]
    _fields_ += [("kept_for_later", ctypes.c_size_t * (ANSWER - len(_named)))]


_BYTES = [ctypes.c_char_p, ctypes.c_size_t]
_ROOM = [ctypes.POINTER(ctypes.c_char), ctypes.c_size_t]
_HANDED = [ctypes.POINTER(_Answer)]
_FRAMES = ctypes.c_ubyte * FRAMES
_NUMBERS = ctypes.c_uint64 * NUMBERS
_PLAN = ctypes.c_uint32 * PLAN
_TREE = ctypes.c_ubyte * TREE
_ARRAYS = [ctypes.POINTER(_FRAMES), ctypes.POINTER(_NUMBERS)]
_SCRATCH = [ctypes.POINTER(_TREE), ctypes.POINTER(_PLAN)]

_PARAMETERS = {
    "fadurinko_judge": _BYTES + _HANDED,
    "fadurinko_form": _BYTES + _ROOM + _HANDED,
    "fadurinko_compare": _BYTES + _BYTES + _HANDED,
    "fadurinko_open": _BYTES + _ARRAYS + _HANDED,
    "fadurinko_find": _ARRAYS + _BYTES + [ctypes.POINTER(_PLAN)] + _ROOM + _HANDED,
    "fadurinko_judge_opened": _ARRAYS + _HANDED,
    "fadurinko_record_word": _BYTES + _BYTES + _ROOM + _HANDED,
    "fadurinko_record_tree": _BYTES + _BYTES + _ROOM + _HANDED,
    "fadurinko_tree_record": _BYTES + _BYTES + _ROOM + _HANDED,
    "fadurinko_record_word_opened": _ARRAYS + _BYTES + _SCRATCH + _ROOM + _HANDED,
    "fadurinko_record_tree_opened": _ARRAYS + _BYTES + _ROOM + _HANDED,
    "fadurinko_tree_record_opened": _ARRAYS + _BYTES + _ROOM + _HANDED,
}
for _name, _parameters in _PARAMETERS.items():
    getattr(_calls, _name).argtypes = _parameters
    getattr(_calls, _name).restype = ctypes.c_uint8


class No(Exception):
    """A refusal: its number, its place, and its table.

    The table is None where the call was given one table only. For a comparison it is 1 or 2, or 0 for
    number 19, which is about both. The text is what the programs print: "no NUMBER PLACE", and for a
    comparison "no TABLE NUMBER PLACE".
    """

    def __init__(self, number, place, table=None):
        # These are what a refusal is made of again in another process.
        super().__init__(number, place, table)
        self.number, self.place, self.table = number, place, table

    def __str__(self):
        about = "" if self.table is None else f"{self.table} "
        return f"no {about}{self.number} {self.place}"


class _Own(threading.local):
    """What each thread has for itself: the plan, which finding a word writes to, and a record's tree.

    Python's lock is free while a call runs, so a plan that two threads shared would be written to by
    both at once.
    """

    def __init__(self):
        self.plan = _PLAN()
        self.tree = _TREE()


_own = _Own()


def _bytes(given):
    if isinstance(given, bytes):
        return given
    try:
        return bytes(memoryview(given))
    except TypeError:
        raise TypeError(f"a text, tree or record must be bytes or have a buffer, not {type(given).__name__}") from None


def _answered(call, *given):
    """The answer of a call, which is raised if it is a no."""
    answer = _Answer()
    number = call(*given, answer)
    if number:
        raise No(number, answer.place)
    return answer


def _in_room(length, call, *given):
    """What a call writes into a room of this length."""
    # ctypes needs a buffer where the room is empty too.
    room = ctypes.create_string_buffer(max(length, 1))
    answer = _answered(call, *given, room, length)
    return room.raw[: answer.length]


def _found(call, *given):
    """A word, which a call is asked for with no room first: number 12 says how much is needed."""
    try:
        return _in_room(0, call, *given)
    except No as no:
        if no.number != ROOM_TOO_SHORT:
            raise
        needed = no.place
    return _in_room(needed, call, *given)


def _room_for(given):
    """Enough for the tree of a record, which has a byte more, and for the record of a tree."""
    return min(len(given) + 1, TREE)


def judge(text):
    """Nothing if the table text is earliest."""
    text = _bytes(text)
    _answered(_calls.fadurinko_judge, text, len(text))


def form(text):
    """The form's text. It is never longer than the table's."""
    text = _bytes(text)
    return _in_room(min(len(text), TEXT), _calls.fadurinko_form, text, len(text))


def compare(first, second):
    """Whether two table texts give every tree the same word."""
    first, second = _bytes(first), _bytes(second)
    answer = _Answer()
    number = _calls.fadurinko_compare(first, len(first), second, len(second), answer)
    if number:
        raise No(number, answer.place, answer.table)
    return answer.same == 1


def record_word(text, record):
    """The word of a record by a table text. For more than one record open the table once: Table."""
    text, record = _bytes(text), _bytes(record)
    return _found(_calls.fadurinko_record_word, text, len(text), record, len(record))


def record_tree(text, record):
    """The tree of a record by a table text."""
    text, record = _bytes(text), _bytes(record)
    return _in_room(_room_for(record), _calls.fadurinko_record_tree, text, len(text), record, len(record))


def tree_record(text, tree):
    """The record of a tree by a table text."""
    text, tree = _bytes(text), _bytes(tree)
    return _in_room(_room_for(tree), _calls.fadurinko_tree_record, text, len(text), tree, len(tree))


class Table:
    """A table that is opened once and finds the words of many trees and records.

    Finding only reads it, so any number of threads can use one table at once. It can be copied and
    pickled: it is its text that is sent, and opened again on the other side.
    """

    def __init__(self, text):
        self._text = _bytes(text)
        self._arrays = (_FRAMES(), _NUMBERS())
        _answered(_calls.fadurinko_open, self._text, len(self._text), *self._arrays)

    def __reduce__(self):
        return type(self), (self._text,)

    def word(self, tree):
        """The word of a tree, which is given as its symbols in preorder, a byte each."""
        tree = _bytes(tree)
        return _found(_calls.fadurinko_find, *self._arrays, tree, len(tree), _own.plan)

    def judge(self):
        """Nothing if the table is earliest."""
        _answered(_calls.fadurinko_judge_opened, *self._arrays)

    def record_word(self, record):
        """The word of a record: the word that the table gives its tree."""
        record = _bytes(record)
        scratch = (_own.tree, _own.plan)
        return _found(_calls.fadurinko_record_word_opened, *self._arrays, record, len(record), *scratch)

    def record_tree(self, record):
        """The tree of a record."""
        record = _bytes(record)
        given = (*self._arrays, record, len(record))
        return _in_room(_room_for(record), _calls.fadurinko_record_tree_opened, *given)

    def tree_record(self, tree):
        """The record of a tree."""
        tree = _bytes(tree)
        given = (*self._arrays, tree, len(tree))
        return _in_room(_room_for(tree), _calls.fadurinko_tree_record_opened, *given)


def _example(folder):
    def read(name):
        with open(os.path.join(folder, name), "rb") as file:
            return file.read()

    names = ("clips.table", "tidied.table", "slip.table", "records.table")
    clips, tidied, slip, records = (read(name) for name in names)
    table = Table(clips)
    table.judge()
    judge(clips)
    print("form of clips.table is tidied.table:", form(clips) == tidied)
    print("clips and tidied:", "same" if compare(clips, tidied) else "different")
    print("clips and slip:", "same" if compare(clips, slip) else "different")
    for digits in ("000102030402", "00020302", "0002", "02", "", "05"):
        try:
            print(digits or "(empty)", "word", table.word(bytes.fromhex(digits)).hex())
        except No as no:
            print(digits or "(empty)", no)
    try:
        Table(b"")
    except No as no:
        print("empty text", no)
    try:
        compare(clips, b"")
    except No as no:
        print("clips and empty text", no)
    _records_example(Table(records))


def _records_example(table):
    # A clip of two scenes, the first with two takes; a clip with a take outside a scene; one that is left open.
    for digits in ("000102ff02ffff01ffff", "0002ffff", "0001ff"):
        record = bytes.fromhex(digits)
        try:
            print(digits, "tree", table.record_tree(record).hex())
            print(digits, "word", table.record_word(record).decode())
        except No as no:
            print(digits, no)


if __name__ == "__main__":
    _example(sys.argv[1] if len(sys.argv) > 1 else os.path.join(_HERE, ".."))
