"""Tests of the module fadurinko.py. From the folder of the repository, with the library that is named there:

    python3 examples/python/test_fadurinko.py
"""

import copy
import multiprocessing
import pickle
import random
import unittest
from concurrent.futures import ThreadPoolExecutor

import fadurinko

# A pair is written (left,right), its leaves a and b: so each tree has a word of its own.
PAIRS = b"0102\n0100\n0100\n0201000000\n030000012800012c000129\n0300010161\n0300020162\n04\n"
LATE = b"0100\n0201000000\n0300000161\n04\n"
LEAVES = b"0100\n0100\n0201000000\n03000000\n04\n"
LEAF = b"0100\n0201000000\n03000000\n04\n"
# The labels 0 and 1 write a(inside) and b(inside), then what is beside them, and 2 is absent.
BRACKETS = b"0102\n0102\n0100\n0201000000\n0300000261280001290000\n0300010262280001290000\n03000200\n04\n"
RECORD, IMAGE, WORD = b"\0\1\xff\0\xff\xff", b"\0\1\2\0\2\2\2", b"a(b()a())"
EARLIEST = b"0102\n0100\n0100\n0202000000\n0300000001012c0100\n03010100\n0301020178\n04\n"


def grown(source, levels):
    """A tree of at most so many levels, and the word that PAIRS gives it."""
    if levels == 1 or source.random() < 0.05:
        letter = source.choice((1, 2))
        return bytes([letter]), b" ab"[letter : letter + 1]
    left, right = grown(source, levels - 1), grown(source, levels - 1)
    return b"\0" + left[0] + right[0], b"(" + left[1] + b"," + right[1] + b")"


def row(source, levels):
    """Elements beside each other, in a tree of at most so many levels, and the word that BRACKETS gives them."""
    if levels == 1 or source.random() < 0.05:
        return b"", b""
    label = source.choice((0, 1))
    inside, beside = row(source, levels - 1), row(source, levels - 1)
    opened = b"ab"[label : label + 1] + b"("
    return bytes([label]) + inside[0] + b"\xff" + beside[0], opened + inside[1] + b")" + beside[1]


def word_of(table, tree):
    return table.word(tree)


def record_word_of(table, record):
    return table.record_word(record)


def refusal_of(call, *given):
    try:
        call(*given)
    except fadurinko.No as no:
        return no
    raise AssertionError(f"{call.__name__} refused nothing")


class Threads(unittest.TestCase):
    ROUNDS = 300

    def test_two_threads_find_by_one_table(self):
        source = random.Random(1)
        trees = [grown(source, levels) for levels in range(8, 14) for _ in range(4)]
        table = fadurinko.Table(PAIRS)

        def others(first):
            """How many words are others than they should be, if a thread begins with this tree."""
            turns = self.ROUNDS * (trees[first:] + trees[:first])
            return sum(table.word(tree) != word for tree, word in turns)

        self.assertEqual([table.word(tree) for tree, _ in trees], [word for _, word in trees])
        with ThreadPoolExecutor(2) as threads:
            self.assertEqual(list(threads.map(others, (0, len(trees) // 2))), [0, 0])

    def test_two_threads_find_words_of_records_and_of_their_trees(self):
        source = random.Random(2)
        rows = [row(source, levels) for levels in range(8, 14) for _ in range(4)]
        table = fadurinko.Table(BRACKETS)
        records = [(b"\0" + inside + b"\xff", b"a(" + word + b")") for inside, word in rows]
        trees = [table.record_tree(record) for record, _ in records]

        def others(first):
            turns = [(record, tree, word) for (record, word), tree in zip(records, trees)]
            turns = self.ROUNDS // 6 * (turns[first:] + turns[:first])
            return sum(table.record_word(record) != word or table.word(tree) != word for record, tree, word in turns)

        with ThreadPoolExecutor(2) as threads:
            self.assertEqual(list(threads.map(others, (0, len(records) // 2))), [0, 0])


class Processes(unittest.TestCase):
    def in_another_process(self, call, *given):
        # A refusal that the pool cannot read would never arrive.
        with multiprocessing.Pool(1) as pool:
            return pool.apply_async(call, given).get(timeout=30)

    def test_a_refusal_comes_back(self):
        with self.assertRaises(fadurinko.No) as raised:
            self.in_another_process(fadurinko.compare, EARLIEST, LATE)
        self.assertEqual((raised.exception.number, raised.exception.place, raised.exception.table), (15, 0, 2))

    def test_a_table_is_sent(self):
        self.assertEqual(self.in_another_process(word_of, fadurinko.Table(EARLIEST), b"\0\2\2"), b"x,x")
        self.assertEqual(self.in_another_process(record_word_of, fadurinko.Table(BRACKETS), RECORD), WORD)

    def test_refusals_and_tables_are_pickled_and_copied(self):
        for no in (fadurinko.No(12, 40), fadurinko.No(19, 3, 0), fadurinko.No(15, 1, 2)):
            for other in (pickle.loads(pickle.dumps(no)), copy.copy(no)):
                self.assertEqual((other.number, other.place, other.table), (no.number, no.place, no.table))
                self.assertEqual(str(other), str(no))
        table = fadurinko.Table(EARLIEST)
        for other in (pickle.loads(pickle.dumps(table)), copy.copy(table), copy.deepcopy(table)):
            self.assertEqual(other.word(b"\0\2\1"), b"x,")


class Records(unittest.TestCase):
    def test_word_tree_and_back(self):
        table = fadurinko.Table(BRACKETS)
        self.assertEqual(table.record_word(RECORD), WORD)
        self.assertEqual(table.record_tree(RECORD), IMAGE)
        self.assertEqual(table.tree_record(IMAGE), RECORD)
        self.assertEqual(table.word(IMAGE), WORD)
        self.assertEqual(fadurinko.record_word(BRACKETS, RECORD), WORD)
        self.assertEqual(fadurinko.record_tree(BRACKETS, RECORD), IMAGE)
        self.assertEqual(fadurinko.tree_record(BRACKETS, IMAGE), RECORD)

    def test_the_tree_undoes_the_record(self):
        source = random.Random(3)
        table = fadurinko.Table(BRACKETS)
        for inside, word in [row(source, source.randrange(1, 13)) for _ in range(300)]:
            record = b"\0" + inside + b"\xff"
            tree = table.record_tree(record)
            self.assertEqual(tree, record.replace(b"\xff", b"\2") + b"\2")
            self.assertEqual(table.tree_record(tree), record)
            self.assertEqual(table.record_word(record), b"a(" + word + b")")

    def test_a_word_without_letters(self):
        quiet = b"0102\n0100\n0201000000\n0300000000000000\n03000100\n04\n"
        self.assertEqual(fadurinko.record_word(quiet, b"\0\xff"), b"")
        self.assertEqual(fadurinko.Table(quiet).record_word(b"\0\xff"), b"")

    def test_refusals(self):
        table = fadurinko.Table(BRACKETS)
        late = fadurinko.Table(LATE)
        wide = b"\0" + 63 * b"\1\xff" + b"\xff"
        for record, told in (
            (b"", "no 22 0"),
            (b"\xff", "no 22 0"),
            (b"\0", "no 22 1"),
            (b"\0\2", "no 21 1"),
            (b"\0\xff\0\xff", "no 23 2"),
            (wide, "no 10 126"),
            (16384 * b"\0" + 16384 * b"\xff", "no 6 0"),
            (10**6 * b"\0\xff", "no 23 2"),
            (10**6 * b"\0", "no 22 1000000"),
        ):
            for call in (table.record_word, table.record_tree):
                self.assertEqual(str(refusal_of(call, record)), told)
            for call in (fadurinko.record_word, fadurinko.record_tree):
                self.assertEqual(str(refusal_of(call, BRACKETS, record)), told)
                self.assertEqual(str(refusal_of(call, b"", record)), "no 1 0")
                self.assertEqual(str(refusal_of(call, EARLIEST, record)), "no 20 1")
        for tree, told in (
            (b"", "no 6 0"),
            (bytes(32769), "no 6 0"),
            (b"\3", "no 7 0"),
            (b"\0\2", "no 8 2"),
            (b"\0\2\2\2", "no 11 3"),
            (b"\2", "no 24 0"),
            (b"\0\2\1\2\2", "no 24 2"),
        ):
            self.assertEqual(str(refusal_of(table.tree_record, tree)), told)
            self.assertEqual(str(refusal_of(fadurinko.tree_record, BRACKETS, tree)), told)
        # One leaf is a list for records without a label.
        self.assertEqual(str(refusal_of(late.record_word, b"\0\xff")), "no 21 0")
        self.assertIsNone(refusal_of(late.tree_record, b"\0").table)


class Refusals(unittest.TestCase):
    def test_a_call_with_one_table_names_none(self):
        for call, given, told in (
            (fadurinko.judge, (LATE,), "no 15 0"),
            (fadurinko.form, (b"",), "no 1 0"),
            (fadurinko.Table, (b"0100\n05\n",), "no 3 5"),
            (fadurinko.Table(LATE).judge, (), "no 15 0"),
            (fadurinko.Table(EARLIEST).word, (b"\0\2",), "no 8 2"),
        ):
            no = refusal_of(call, *given)
            self.assertIsNone(no.table)
            self.assertEqual(str(no), told)

    def test_a_comparison_names_its_table(self):
        for first, second, table, told in (
            (LATE, EARLIEST, 1, "no 1 15 0"),
            (EARLIEST, LATE, 2, "no 2 15 0"),
            (LEAF, LEAVES, 0, "no 0 19 1"),
        ):
            no = refusal_of(fadurinko.compare, first, second)
            self.assertEqual(no.table, table)
            self.assertEqual(str(no), told)


class Buffers(unittest.TestCase):
    def test_all_that_has_a_buffer_is_taken(self):
        doubled = bytes(byte for pair in zip(EARLIEST, EARLIEST) for byte in pair)
        for text in (bytearray(EARLIEST), memoryview(EARLIEST), memoryview(doubled)[::2]):
            fadurinko.judge(text)
            self.assertEqual(fadurinko.form(text), EARLIEST)
            self.assertTrue(fadurinko.compare(text, text))
            table = fadurinko.Table(text)
            for tree in (bytearray(b"\0\2\2"), memoryview(b"\0\2\2"), memoryview(b"\0.\2.\2")[::2]):
                self.assertEqual(table.word(tree), b"x,x")
        for record in (bytearray(RECORD), memoryview(RECORD)):
            self.assertEqual(fadurinko.Table(memoryview(BRACKETS)).record_word(record), WORD)
            self.assertEqual(fadurinko.record_word(bytearray(BRACKETS), record), WORD)
            self.assertEqual(fadurinko.record_tree(BRACKETS, record), IMAGE)
        self.assertEqual(fadurinko.tree_record(BRACKETS, bytearray(IMAGE)), RECORD)

    def test_a_table_keeps_a_text_of_its_own(self):
        text = bytearray(EARLIEST)
        table = fadurinko.Table(text)
        text[:] = b"0" * len(text)
        self.assertEqual(copy.copy(table).word(b"\0\2\2"), b"x,x")

    def test_anything_else_is_a_type_error(self):
        table = fadurinko.Table(EARLIEST)
        for wrong in ("0100\n", [1], 3, None):
            calls = (fadurinko.judge, fadurinko.form, fadurinko.Table, table.word)
            calls += (table.record_word, table.record_tree, table.tree_record)
            pairs = (fadurinko.compare, fadurinko.record_word, fadurinko.record_tree, fadurinko.tree_record)
            given_one, given_two = [(call, (wrong,)) for call in calls], [(call, (EARLIEST, wrong)) for call in pairs]
            for call, given in given_one + given_two:
                with self.assertRaisesRegex(TypeError, f"not {type(wrong).__name__}$"):
                    call(*given)


if __name__ == "__main__":
    unittest.main()
