#!/usr/bin/env python3
"""Tests of the sheet tools: round trips, the judge, its messages, and the commands."""

import glob
import itertools
import os
import random
import re
import subprocess
import sys
import tempfile
import unittest

sys.dont_write_bytecode = True
HERE = os.path.dirname(os.path.realpath(__file__))
sys.path.insert(0, HERE)

import convertvectors  # noqa: E402
import ordervectors  # noqa: E402
import setvectors  # noqa: E402
import sheetform  # noqa: E402
import sheetlib  # noqa: E402
import sheetorder  # noqa: E402
import sheetvectors  # noqa: E402
import vectors  # noqa: E402
from sheetlib import ABI_SHEET, CLASS_SHEET, OLD_CLASS_SHEET, WORD, Sheet, blocks, judge, judge_set, judge_words, layout_of  # noqa: E402

TOP = WORD - 1
vectors.make_all()
convertvectors.make()


def sheet(*args, given=""):
    """Runs the command on this standard input; answers status, standard output, standard error."""
    command = [sys.executable, os.path.join(HERE, "sheet"), *args]
    done = subprocess.run(command, input=given, capture_output=True, text=True, check=False)
    return done.returncode, done.stdout, done.stderr


def form(text):
    return sheetform.parse(text)


def row(made, layout=None):
    """The row that a sheet, or bytes, meets."""
    data = made if isinstance(made, bytes) else made.blocks()
    return judge(layout or made.layout, data)[0]


# ---- random sheets

def random_name(pick):
    return "".join(chr(pick.randrange(0x21, 0x7F)) for _ in range(pick.choice((1, 1, 2, 5, 12))))


def random_type(pick):
    name = "/".join("".join(pick.choice("ab<(#V)") for _ in range(pick.randrange(1, 4))) for _ in range(pick.randrange(1, 4)))
    return "[" * pick.choice((0, 0, 1, 3)) + pick.choice(list("BCDFIJSZ") + [f"L{name};"] * 3)


def random_method_type(pick):
    return "(" + "".join(random_type(pick) for _ in range(pick.randrange(4))) + ")" + pick.choice(["V", random_type(pick)])


def random_form(pick, layout):
    """A text form of up to eight classes."""
    names = sorted({random_name(pick) for _ in range(pick.randrange(9))}, key=lambda n: (len(n), n[::-1]))
    out = ["sheet " + ("abi" if layout is ABI_SHEET else "classes")]
    for i, name in enumerate(names):
        if layout is ABI_SHEET:
            out.append(f"abi class {name}" + pick.choice(("", f" size {pick.randrange(1025)}"))
                       + pick.choice(("", f" words {pick.randrange(4097)}")))
            out += [f"slot {random_name(pick)} {random_method_type(pick)} {pick.randrange(1024)}" for _ in range(pick.randrange(4))]
            out += [f"field {random_name(pick)} {random_type(pick)} {pick.randrange(4096)}" for _ in range(pick.randrange(3))]
            continue
        kind = pick.choice(("", " built", " generated", " array", " packaged"))
        out.append(f"class {name}" + (f" extends {pick.choice(names[:i])}" if i and pick.random() < 0.6 else "") + kind)
        out += [f"statics {pick.choice((1, TOP, pick.randrange(WORD)))}"] if kind == " generated" and pick.random() < 0.5 else []
        for word in ("flags", "state", "words"):
            out += [f"{word} {pick.randrange(65536)}"] if pick.random() < 0.3 else []
        if pick.random() < 0.3:
            out.append("implements " + " ".join(pick.choice(names) for _ in range(pick.randrange(1, 4))))
        if pick.random() < 0.3:
            out.append(" ".join(["compiler"] + [str(pick.choice((0, TOP, 77))) for _ in range(pick.randrange(5))]))
        out += [f"method {random_name(pick)} {random_method_type(pick)} {pick.randrange(WORD)}"
                + pick.choice(("", f" flags 0x{pick.randrange(0x2000) & 0x1DFF:x}")) for _ in range(pick.randrange(4))]
        out += [f"field {random_name(pick)} {random_type(pick)} {pick.randrange(WORD)}"
                + pick.choice(("", f" flags {pick.randrange(65536)}")) for _ in range(pick.randrange(3))]
    return "\n".join(out) + "\n"


def odd(pick, made):
    """The sheet with one change that often leaves it good, and that the plain form cannot tell."""
    made = made.copy()
    section = pick.choice(made.layout.sections)
    records = made.records[section.name]
    change = pick.randrange(5)
    if change == 0 and records:
        records.append(pick.choice(records)[:])
    elif change == 1:
        made.text += bytes(pick.randrange(256) for _ in range(pick.randrange(1, 6)))
    elif change == 2 and records:
        pick.choice(records)[pick.randrange(section.width())] = pick.choice((0, 1, 2, pick.randrange(WORD)))
    elif change == 3 and records and section.parts:
        one = pick.choice(records)
        if 1 < one[1] < 256:
            one[0] = (one[0] + 1) % WORD
            one[1] -= 1
    elif change == 4:
        pick.shuffle(records)
    return made


class RoundTrips(unittest.TestCase):
    """make after show gives the same bytes."""

    def remade(self, layout, data):
        made = sheetlib.sheet_of(layout, sheetlib.block_words(data))
        self.assertEqual(made.blocks(), data)
        for text in (sheetform.render(made), sheetform.render_raw(made)):
            self.assertEqual(form(text).blocks(), data)
        return sheetform.render(made)

    def test_examples(self):
        texts = [path for path in glob.glob(os.path.join(HERE, "..", "examples", "*", "*.txt")) if not path.endswith(("listing.txt", "linked.txt"))]
        self.assertTrue(texts)
        for path in texts:
            with open(path, encoding="utf-8") as file:
                data = form(file.read()).blocks()
            # examples/alphabetical is in another order: its classes.bin is put in order.
            unordered = os.path.join(os.path.dirname(path), "unordered.bin")
            late = path.endswith("classes.txt") and os.path.exists(unordered)
            with open(unordered if late else path[:-4] + ".bin", "rb") as file:
                self.assertEqual(file.read(), data, path)
            shown = self.remade(layout_of(path), data)
            self.assertNotIn("raw", shown.split("\n")[0])

    def test_accepted_vectors(self):
        good = [name for name in sheetvectors.vectors if "-ok-" in name]
        self.assertGreater(len(good), 300)
        for name in good:
            with self.subTest(name):
                self.remade(layout_of(name), vectors.vectors[name])

    def test_random_sheets(self):
        pick = random.Random(20090401)
        plain = raw = 0
        for _ in range(250):
            layout = pick.choice((CLASS_SHEET, ABI_SHEET))
            made = form(random_form(pick, layout))
            self.assertEqual(judge(layout, made.blocks())[0], 0)
            self.assertNotIn("raw", self.remade(layout, made.blocks()).split("\n")[0])
            plain += 1
            for _ in range(pick.randrange(4)):
                made = odd(pick, made)
            if row(made) == 0:
                raw += "raw" in self.remade(layout, made.blocks()).split("\n")[0]
        self.assertEqual(plain, 250)
        self.assertGreater(raw, 40)

    def test_card(self):
        """The example of docs/SPECIFICATION.md."""
        with open(os.path.join(HERE, "..", "examples", "card", "classes.txt"), encoding="utf-8") as file:
            card = form(file.read())
        self.assertEqual(card.counts(), [2, 4, 0, 0, 0, 27])
        self.assertEqual([card.get("class", 1, w) for w in ("parent", "access flags", "kind", "first method", "method count")],
                         [1, 1, 0, 2, 2])
        self.assertEqual([card.get("method", i, "target") for i in range(4)], [4096, 4112, 8192, 8208])
        self.assertEqual([card.part("method", i, "name") for i in range(4)], [b"open", b"close", b"close", b"mark"])
        self.assertEqual(card.blocks(), vectors.vectors["class-ok-card.bin"])


def with_parents(parents):
    """Classes without members, of these parents."""
    text = bytes(range(0x41, 0x41 + len(parents)))
    records = {s.name: [] for s in CLASS_SHEET.sections}
    records["class"] = [[i, 1, parent, 1] + [0] * 14 for i, parent in enumerate(parents)]
    return Sheet(CLASS_SHEET, records, text)


class Orders(unittest.TestCase):
    """Classes in any order: which goes where, and what moves with it."""

    def test_smallest(self):
        """Of all orders that put parents first, each class once, the smallest read from the front; there is none exactly where a class
        is its own ancestor."""
        rings = 0
        for count in range(6):
            for parents in itertools.product(range(count + 1), repeat=count):
                good = (one for one in itertools.permutations(range(1, count + 1))
                        if all(parents[c - 1] in (0, *one[:i]) for i, c in enumerate(one)))
                smallest = next(good, None)  # permutations come in rising order
                order = sheetorder.order_of(parents)
                self.assertEqual(tuple(order) if len(order) == count else None, smallest, parents)
                self.assertEqual(bool(sheetorder.rings(parents)), smallest is None, parents)
                rings += smallest is None
        self.assertGreater(rings, 6000)

    def test_telling(self):
        for parents, order in (((3, 0, 0), [2, 3, 1]), ((2, 0, 0), [2, 1, 3]), ((2, 3, 0), [3, 2, 1]), ((), []),
                               (tuple(range(2, 65)) + (0,), list(range(64, 0, -1)))):
            self.assertEqual(sheetorder.order_of(parents), order)
        for parents, rings in (((1,), [[1]]), ((2, 1), [[1, 2]]), ((0, 3, 4, 3), [[3, 4]]), ((1, 4, 0, 2), [[1], [2, 4]]), ((9, 0), [])):
            self.assertEqual(sheetorder.rings(parents), rings)

    def test_what_moves(self):
        """Records with their parents, and interface words in a list or not; nothing else."""
        made = with_parents((2, 0))
        made.records["interface word"] = [[2], [1], [2]]
        made.put("class", 0, "first interface word", 1)
        made.put("class", 0, "interface count", 2)
        moved = sheetorder.in_order(made)
        self.assertEqual([moved.part("class", i, "name") for i in (0, 1)], [b"B", b"A"])
        self.assertEqual([moved.get("class", i, "parent") for i in (0, 1)], [0, 1])
        self.assertEqual([moved.get("class", 1, word) for word in ("first interface word", "interface count")], [1, 2])
        self.assertEqual(moved.records["interface word"], [[1], [2], [1]])
        self.assertEqual(moved.text, made.text)
        self.assertEqual(sheetorder.in_order(moved).words(), moved.words())

    def test_refused(self):
        """Stray numbers come before rings, and nothing else of row 4 is asked."""
        for parents, rows in (((5,), [4]), ((1, 3), [4, 19]), ((1,), [19]), ((2, 1), [19]), ((0, 0), [])):
            self.assertEqual([fault.row for fault in sheetorder.step_faults(with_parents(parents))], rows)
        for number in (0, 3):
            made = with_parents((2, 0))
            made.records["interface word"] = [[number]]
            self.assertEqual([fault.row for fault in sheetorder.step_faults(made)], [4])
        made = with_parents((2, 0))
        made.put("class", 0, "kind", 9)
        made.put("class", 0, "name start", 1)  # both are B
        self.assertEqual(list(sheetorder.step_faults(made)), [])
        self.assertEqual([fault.row for fault in sheetorder.loose_faults(made.blocks(), 127)], [])
        self.assertEqual([fault.row for fault in sheetorder.loose_faults(made.blocks(), 126)], [1])

    def test_links_refuse_no_order(self):
        """Random sheets: what the step leaves is refused by rows 4 and 5 exactly as before, but for the order of parents."""
        pick = random.Random(3)
        moved = refused = 0
        for _ in range(400):
            made = odd(pick, form(random_form(pick, CLASS_SHEET)))
            classes = len(made.records["class"])
            numbers = list(range(1, classes + 1))
            pick.shuffle(numbers)
            if next(sheetorder.step_faults(made), None):
                continue
            made = sheetorder.renumbered(made, numbers)
            ordered = sheetorder.in_order(made)
            before = [f.clause for f in sheetlib.content_faults(made) if f.clause != "class parent: below the class"]
            after = [f.clause for f in sheetlib.content_faults(ordered)]
            self.assertEqual(sorted(set(before)), sorted(set(after)))
            moved += ordered.words() != made.words()
            refused += bool(after)
        self.assertGreater(moved, 100)
        self.assertGreater(refused, 20)


class Blocks(unittest.TestCase):
    def test_form(self):
        """Little-endian words, the check word last: the sum of the 127 and the block's number."""
        data = blocks([1, 2, TOP] + [0] * 124 + [5])
        self.assertEqual(len(data), 1024)
        self.assertEqual(data[:12], bytes([1, 0, 0, 0, 2, 0, 0, 0, 255, 255, 255, 255]))
        self.assertEqual(data[508:512], (3 + TOP + 1 - WORD).to_bytes(4, "little"))
        self.assertEqual(data[512:516] + data[1020:], bytes([5, 0, 0, 0, 7, 0, 0, 0]))

    def test_sizes(self):
        """The limits of docs/SPECIFICATION.md fill 92 and 51 blocks."""
        for layout, words in ((CLASS_SHEET, 11654), (OLD_CLASS_SHEET, 11590), (ABI_SHEET, 6404)):
            counts = [s.limit for s in layout.sections] + [layout.text_limit]
            self.assertEqual(sheetlib.content_size(layout, counts), words)
            self.assertEqual(-(-words // 127), layout.most_blocks)
        self.assertEqual((CLASS_SHEET.most_words(), ABI_SHEET.most_words()), (11684, 6477))

    def test_widths(self):
        self.assertEqual([s.width() for s in CLASS_SHEET.sections], [18, 6, 6, 1, 1])
        self.assertEqual([s.width() for s in OLD_CLASS_SHEET.sections], [17, 6, 6, 1, 1])
        self.assertEqual(CLASS_SHEET.section("class").words[:17], OLD_CLASS_SHEET.section("class").words)
        self.assertEqual([s.width() for s in ABI_SHEET.sections], [8, 5, 5])


class Descriptors(unittest.TestCase):
    """The readers against the grammar as regular expressions."""

    TYPE = rb"\[*(?:[BCDFIJSZ]|L[^.;\[/]+(?:/[^.;\[/]+)*;)"
    FIELD = re.compile(TYPE, re.S)
    METHOD = re.compile(rb"\((?:" + TYPE + rb")*\)(?:V|" + TYPE + rb")", re.S)

    def agree(self, bs):
        for grammar, expression in (("field", self.FIELD), ("method", self.METHOD)):
            self.assertEqual(sheetlib.descriptor_fault(grammar, bs) is None, bool(expression.fullmatch(bs)), bs)

    def test_short(self):
        for size in range(5):
            for letters in itertools.product(b"VJL;[/().x", repeat=size):
                self.agree(bytes(letters))

    def test_random(self):
        pick = random.Random(432)
        for _ in range(20000):
            bs = (random_method_type(pick) if pick.random() < 0.7 else random_type(pick)).encode()
            if pick.random() < 0.7:
                at = pick.randrange(len(bs))
                bs = bs[:at] + bytes([pick.choice(b"VI;[/()L.\x80")]) * pick.randrange(2) + bs[at + pick.randrange(2):]
            self.agree(bs)

    def test_argument_words(self):
        """The examples of docs/SPECIFICATION.md, any bytes and flags, and the limit of 255 words."""
        longs = "(" + "J" * 127 + "I)V"
        for text, flags, want in (("(IJ)V", 1, (0, 4)), ("(IJ)V", 9, (0, 3)), ("(V)V", 1, (5, 0)), ("", 0, (5, 0)),
                                  ("()V", 0xFFFFFFF7, (0, 1)), ("()V", TOP, (0, 0)), ("([J[[DLa;D)J", 0, (0, 6)),
                                  (longs, 8, (0, 255)), (longs, 0, (5, 0)), (longs, TOP, (0, 255)), (longs, TOP - 8, (5, 0)),
                                  ("(" + "J" * 127 + ")V", 0, (0, 255)), ("(" + "J" * 128 + ")V", 8, (5, 0)), ("(" + "[J" * 127 + ")V", 0, (0, 128)),
                                  ("(" + "I" * 254 + ")V", 0, (0, 255)), ("(" + "I" * 255 + ")V", 0, (5, 0)), ("(" + "[" * 3000 + "I)V", 8, (0, 1))):
            self.assertEqual(sheetlib.argument_words(text.encode(), flags), want, text[:20])
        self.assertEqual(sheetlib.argument_words(b"(L\x80\xff;)V", 8), (0, 1))


class OpenPoints(unittest.TestCase):
    """The judge on the inputs that tell the readings of docs/SPECIFICATION.md apart."""

    def one(self, **words):
        return sheetvectors.but(form("class A\n"), "class", 1, **words)

    def test_words_already_read(self):
        """Of rows 1 to 3 only count limits and fit apply to words already read."""
        self.assertEqual(judge_words(ABI_SHEET, [])[0], 3)
        self.assertEqual(judge_words(ABI_SHEET, [0, 0, 0])[0], 3)
        self.assertEqual(judge_words(ABI_SHEET, [0, 0, 0, 0])[0], 0)
        self.assertEqual(judge_words(CLASS_SHEET, [0] * 6 + [5] * 20000)[0], 0)
        self.assertEqual(judge_words(CLASS_SHEET, [0] * 5 + [1, 0x0141])[0], 0)
        self.assertEqual(judge_words(CLASS_SHEET, [0] * 5 + [5, 0x41])[0], 3)
        self.assertEqual(judge_words(CLASS_SHEET, [65] + [0] * 20000)[0], 3)
        self.assertEqual([judge_words(CLASS_SHEET, self.one(kind=kind).words())[0] for kind in (2, 3, 4)], [0, 0, 4])

    def test_both_sheets(self):
        """Row by row over both sheets' words: the lower row counts."""
        good, abi = sheetvectors.CLASSES.words(), sheetvectors.ABI.words()
        row_5 = form("class A\n field x V 0\n").words()
        row_4 = form("abi class A\n slot m ()V 1024\n").words()
        for words, abi_words, want in ((good, abi, 0), (row_5, abi, 5), (good, row_4, 4), (row_5, row_4, 4), (row_5, [], 3),
                                       (self.one(kind=4).words(), abi[:-1], 3), ([], row_4, 3), ([], [], 3)):
            self.assertEqual(judge_set(words, abi_words), want)

    def test_writing(self):
        """The writer's rows come after those of a link: 3, 4, 5, 17, 18."""
        rows = sheetlib.judge_writing
        one = self.one().words()
        self.assertEqual(one, [1, 0, 0, 0, 0, 1, 0, 1, 0, 1] + [0] * 14 + [65])
        self.assertEqual(rows(one, 512), (0, 1))
        self.assertEqual(blocks(one)[508:], (70).to_bytes(4, "little"))
        self.assertEqual(rows(one + [7, 7], 512), (0, 1))
        self.assertEqual(rows([0] * 5, 512), (3, 0))
        for words, room, want in ((dict(table_place=1, kind=4), 512, 4), (dict(table_place=1, kind=3), 512, 17), (dict(table_place=1, slot_count=1025), 512, 4),
                                  (dict(table_place=1), 0, 17), (dict(slot_count=1), 512, 17), ({}, 511, 18)):
            self.assertEqual(rows(self.one(**words).words(), room), (want, 0))
        for kind, want in ((0, (17, 0)), (1, (0, 1)), (2, (17, 0)), (3, (17, 0)), (4, (4, 0))):
            self.assertEqual(rows(self.one(kind=kind, static_words=1).words(), 512), want)
        bad = sheetvectors.renamed(sheetvectors.with_statics(0, 1), "method", 0, "descriptor", b"(V)V")
        self.assertEqual(rows(bad.words(), 512), (5, 0))
        self.assertEqual(rows(one[:-1] + [0x0141], 512), (17, 0))
        self.assertEqual(rows([0] * 6, 511), (18, 0))
        self.assertEqual(rows([0] * 6, 512), (0, 1))
        for size, room, want in ((127, 512, (0, 1)), (128, 1023, (18, 0)), (128, 1024, (0, 2))):
            self.assertEqual(rows(sheetvectors.text_only(CLASS_SHEET, 4 * (size - 6)).words(), room), want)

    def test_order(self):
        """Of all orders that put parents first the smallest; 3, 4, 19, 15."""
        def of(*parents, room=9):
            return sheetlib.judge_order(ordervectors.parents(*parents).words(), room)
        for parents, order in (((3, 0, 0), [2, 3, 1]), ((2, 0, 0), [2, 1, 3]), ((2, 3, 0), [3, 2, 1]), ((), [])):
            self.assertEqual(of(*parents), (0, order))
        for parents, room, row in (((1,), 0, 19), ((2, 1), 9, 19), ((0, 3, 4, 3), 9, 19), ((1, 3), 9, 4), ((5,), 0, 4), ((0,), 0, 15)):
            self.assertEqual(of(*parents, room=room), (row, []))
        self.assertEqual(sheetlib.judge_order(self.one(slot_count=1, parent=9).words(), 9), (3, []))
        for kind, row in ((0, 3), (1, 0), (2, 3), (3, 3), (4, 0), (TOP, 0)):
            self.assertEqual(sheetlib.judge_order(self.one(kind=kind, static_words=1).words(), 9)[0], row)

    def test_orders(self):
        """Trying all orders, the heap, and taking the smallest that is ready agree; a set in order stays as it is."""
        numbers = random.Random(3)
        for _ in range(3000):
            count = numbers.randint(0, 8)
            parents = [numbers.randint(0, count) for _ in range(count)]
            words, order = ordervectors.parents(*parents).words(), []
            while (ready := [c for c in range(1, count + 1) if c not in order and (not parents[c - 1] or parents[c - 1] in order)]):
                order.append(ready[0])
            row, found = sheetlib.judge_order(words, count)
            self.assertEqual((row, found), (0, order) if len(order) == count else (19, []))
            if not row:
                after = sheetlib.renumbered(words, found)
                self.assertTrue(all(parent < number for number, parent in enumerate(sheetlib.parents_of(after), 1)))
                self.assertEqual(sheetlib.judge_order(after, count), (0, list(range(1, count + 1))))
                self.assertEqual(sheetlib.renumbered(after, list(range(1, count + 1))), after)

    def test_orders_of_the_tool(self):
        """`tools/sheet order` goes by rules of its own: on every stored set that row 3 does not refuse they say the same."""
        for name, data in vectors.vectors.items():
            words = setvectors.parted(data)[0] if name.startswith("set") else []
            row, order = sheetlib.judge_order(words, 64)
            if row == 3:
                continue
            made = sheetlib.sheet_of(CLASS_SHEET, words)
            self.assertEqual(next((fault.row for fault in sheetorder.step_faults(made)), 0), row, name)
            if not row:
                self.assertEqual(sheetorder.order_of(sheetorder.parents_of(made)), order, name)
                after = sheetlib.sheet_of(CLASS_SHEET, sheetlib.renumbered(words, order))
                self.assertEqual(sheetorder.renumbered(made, order).words(), after.words(), name)

    def test_linked_slot_count(self):
        """At most 1,024 where the class is linked; any number where it is not."""
        for place, slots, want in ((0, 1025, 0), (1, 1024, 0), (1, 1025, 4), (0, TOP, 0)):
            words = self.one(table_place=place, slot_count=slots).words()
            self.assertEqual(judge_words(CLASS_SHEET, words)[0], want)

    def test_what_is_written(self):
        """127 words a block are written, and the rest of the lent words stays."""
        self.assertEqual(judge(CLASS_SHEET, Sheet(CLASS_SHEET).blocks(), 128), (0, 127))
        self.assertEqual(vectors.answer("class-x-lent-128.bin", Sheet(CLASS_SHEET).blocks()), "class-x-lent-128.bin accepted 127 896 written 1 same loosely accepted 127 896")
        self.assertEqual(vectors.answer("abi-x-lent-126.bin", Sheet(ABI_SHEET).blocks()), f"abi-x-lent-126.bin refused 1 {7 * 126 * 127 // 2}")

    def test_after_the_content(self):
        made = Sheet(CLASS_SHEET, text=b"A")
        self.assertEqual(row(made), 0)
        self.assertEqual(row(blocks(made.words()[:-1] + [0x0141]), CLASS_SHEET), 3)
        self.assertEqual(row(blocks(made.words() + [0, 1]), CLASS_SHEET), 3)
        self.assertEqual(row(Sheet(CLASS_SHEET, text=b"A\x01")), 0)

    def test_least_blocks(self):
        for layout in (CLASS_SHEET, ABI_SHEET):
            self.assertEqual(row(blocks(Sheet(layout).words(), 1), layout), 0)
            self.assertEqual(row(blocks(Sheet(layout).words(), 2), layout), 3)

    def test_linked(self):
        self.assertEqual(row(self.one(table_place=1)), 3)
        self.assertEqual(row(self.one(slot_count=1)), 3)

    def test_statics(self):
        """Row 3 takes them of a built or array class alone; a link and an ask do not ask."""
        for kind, want in ((0, 3), (1, 0), (2, 3), (3, 3), (4, 4)):
            for words in (1, TOP):
                made = self.one(kind=kind, static_words=words)
                self.assertEqual((row(made), judge_words(CLASS_SHEET, made.words())[0]), (want, 4 if kind == 4 else 0))
        self.assertEqual(row(sheetvectors.renamed(sheetvectors.with_statics(0, 1), "method", 0, "descriptor", b"(V)V")), 3)

    def test_both_forms(self):
        """Bytes do not tell the form: sheets that are good in both and name another class in each, and 127 words that become 134."""
        for name in ("generated", "built"):
            data = vectors.vectors[f"class-ok-both-forms-{name}.bin"]
            words = sheetlib.block_words(data)
            new, old = sheetlib.sheet_of(CLASS_SHEET, words), sheetlib.sheet_of(OLD_CLASS_SHEET, words)
            self.assertEqual((judge(CLASS_SHEET, data)[0], judge(OLD_CLASS_SHEET, data)[0]), (0, 0))
            self.assertEqual((old.part("class", 0, "name"), new.part("class", 0, "name")), (b"AAAA", b"BBBB"))
            self.assertEqual(new.get("class", 0, "static words"), 0x41414141 if name == "generated" else 0)
        seven = form("".join(f"class {c}\n" for c in "ABCDEFG")).counts()
        self.assertEqual([sheetlib.content_size(layout, seven) for layout in (OLD_CLASS_SHEET, CLASS_SHEET)], [127, 134])

    def test_naturals(self):
        for word, count in (("first_method", "method_count"), ("first_field", "field_count"), ("first_interface_word", "interface_count")):
            self.assertEqual(row(self.one(**{word: TOP, count: 1})), 4)
        self.assertEqual(row(self.one(name_start=TOP, name_length=1)), 4)
        self.assertEqual(row(self.one(compiler_table=TOP, compiler_slots=2)), 4)

    def test_empty_lists(self):
        self.assertEqual(row(self.one(first_method=0, method_count=0)), 0)
        self.assertEqual(row(self.one(first_method=1, method_count=0)), 4)

    def test_compiler_table_without_slots(self):
        self.assertEqual(row(self.one(compiler_table=1, compiler_slots=0)), 0)
        self.assertEqual(row(self.one(compiler_table=2, compiler_slots=0)), 4)
        self.assertEqual(row(self.one(compiler_table=0, compiler_slots=1)), 4)

    def test_unowned(self):
        loose = Sheet(CLASS_SHEET, text=b"m()V")
        loose.records["method"] = [[0, 0, 1, 3, 1, 0]]
        self.assertEqual(row(loose), 4)
        loose.records["method"] = [[0, 1, 1, 1, 1, 0]]
        self.assertEqual(row(loose), 5)
        loose.records["method"] = [[0, 1, 1, 3, 1, 0]]
        self.assertEqual(row(loose), 0)

    def test_interface_words(self):
        made = form("class A\n")
        for word, want in ((0, 4), (1, 0), (2, 4)):
            made.records["interface word"] = [[word]]
            self.assertEqual(row(made), want)

    def test_overlaps(self):
        made = form("class A\n method m ()V 1\n method n ()V 2\nclass B\n")
        self.assertEqual(row(sheetvectors.but(made, "class", 2, first_method=1, method_count=0)), 0)
        self.assertEqual(row(sheetvectors.but(made, "class", 2, first_method=1, method_count=1)), 4)
        abi = form("abi class A\n slot m ()V 1\nabi class B\n")
        self.assertEqual(row(sheetvectors.but(abi, "class", 2, first_slot=0, slot_count=1)), 0)

    def test_method_flags(self):
        for flags, want in ((0x1DFF, 0), (0x0200, 4), (0x2000, 4), (0, 0)):
            self.assertEqual(row(form(f"class A\n method m ()V 1 flags {flags}\n")), want)

    def test_stored_plus_1(self):
        for size, words, want in ((1024, 4096, 0), (1025, 0, 4), (0, 4097, 4)):
            self.assertEqual(row(form(f"abi class A size {size} words {words}\n")), want)

    def test_class_names(self):
        """Names of class records need not be names by JVMS 4.2."""
        for name in ("[I", "a//b", ";"):
            self.assertEqual(row(form(f"class {name}\n")), 0)
            self.assertEqual(row(form(f"abi class {name}\n")), 0)
        self.assertEqual(row(form("class A\nclass A\n")), 4)
        self.assertEqual(row(form("abi class A\nabi class A\n")), 0)

    def test_grammar(self):
        for descriptor, want in (("L(;", 0), ("L<;", 0), ("LV;", 0), ("[V", 5), ("V", 5), ("[" * 254 + "I", 0), ("La//b;", 5)):
            self.assertEqual(row(form(f"class A\n field x {descriptor} 0\n")), want)
        for descriptor, want in (("(V)V", 5), ("(L);)V", 0), ("(" + "I" * 252 + ")V", 0), ("()", 5)):
            self.assertEqual(row(form(f"class A\n method m {descriptor} 0\n")), want)
        # 255 argument words, the receiver's among them: a method by its own flags, a slot as an instance method whatever its index.
        longs = "(" + "J" * 127 + "I)V"
        for flags, want in (("1", 5), ("9", 0), ("0x409", 0)):
            self.assertEqual(row(form(f"class A\n method m {longs} 0 flags {flags}\n")), want)
        for index in (0, 8):
            self.assertEqual(row(form(f"abi class A\n slot m {longs} {index}\n")), 5)
            self.assertEqual(row(form(f"abi class A\n slot m {longs.replace('I', '')} {index}\n")), 0)

    def test_unused_text(self):
        made = form("class A\n")
        made.text += bytes([0, 0x80, 0x20, 0xFF])
        self.assertEqual(row(made), 0)

    def test_damaged(self):
        """Whatever the bytes are, the judge answers."""
        pick = random.Random(7)
        good = [sheetvectors.CLASSES.blocks(), sheetvectors.ABI.blocks(), vectors.vectors["abi-ok-two-blocks.bin"]]
        rows = set()
        for _ in range(600):
            words = sheetlib.block_words(pick.choice(good))
            for _ in range(pick.randrange(1, 4)):
                words[pick.randrange(pick.choice((8, 40, len(words))))] = pick.choice((0, 1, 3, TOP, pick.randrange(WORD)))
            for layout in (CLASS_SHEET, ABI_SHEET):
                rows.add(judge(layout, blocks(words))[0])
        self.assertEqual(rows, {0, 3, 4, 5})


class Forms(unittest.TestCase):
    """Class sheets of 17-word class records made ones of 18 words, and back."""

    def test_old_answers(self):
        """The class vectors as they stood before the eighteenth word, and what the reading of that time answered (tools/old-answers), but for
        a method of 252 longs, which row 5 refuses since it counts argument words, and a class of kind 3, which is read since there are packaged
        classes: the old form's layout answers the same. Going forward the same row refuses, but for the clause on lent words, and what is accepted comes back."""
        lines = convertvectors.stored_answers()
        forms = {0: 0, 3: 0}
        for name, line in lines.items():
            data = convertvectors.vectors[name]
            row, words = judge(OLD_CLASS_SHEET, data, sheetvectors.lent_words(name))
            self.assertEqual(line[:2], ["refused", str(row)] if row else ["accepted", str(words)], name)
            went, made = sheetlib.widen(data)
            if row != 1 or "-lent-" not in name:
                self.assertEqual(went, row, name)
            if not went:
                self.assertEqual((judge(CLASS_SHEET, made)[0], sheetlib.narrow(made)), (0, (0, data)), name)
            if not row:
                forms[judge(CLASS_SHEET, data)[0]] += 1
        # Of these the new form refuses all by 3 but those without classes, which are the same bytes in both.
        self.assertEqual((len(lines), forms), (489, {0: 12, 3: 171}))

    def test_rows_by_name(self):
        """A name tells the row, but of an old vector that lends too few words, which no converter is lent."""
        for name, data in convertvectors.vectors.items():
            told = int((re.match(r"(?:old|new)-(?:ok|r(\d+))-", name)[1]) or 0)
            row = (sheetlib.widen if name.startswith("old") else sheetlib.narrow)(data)[0]
            if "-lent-" not in name:
                self.assertEqual(row, told, name)

    def test_round_trips(self):
        """Each class vector of reading: back and forward gives its bytes, unless a generated class has other static words than the sum."""
        rows = {}
        for name, data in vectors.vectors.items():
            if not name.startswith("class") or judge(CLASS_SHEET, data)[0]:
                continue
            row, old = sheetlib.narrow(data)
            rows[row] = rows.get(row, 0) + 1
            if not row:
                self.assertEqual(sheetlib.widen(old), (0, data), name)
                self.assertIn(len(data) - len(old), (0, 512))
        self.assertEqual(sorted(rows), [0, 23])

    def test_lines(self):
        """What the program prints: the call, the calls with fewer bytes lent, and the way back."""
        made = form("class A generated\n  statics 4\n  field x J 0 flags 8\n")
        self.assertEqual(convertvectors.answer("new-x.bin", made.blocks()),
                         f"new-x.bin not narrowed 23 {vectors.weighed([], 93 * 512)}, lent 0 not narrowed 23 0, lent 1 not narrowed 23 7")
        empty = Sheet(CLASS_SHEET).blocks()
        self.assertEqual(convertvectors.answer("old-x.bin", empty),
                         f"old-x.bin widened 1 {vectors.weighed(empty, 93 * 512)}, lent 511 not widened 18 {vectors.weighed([], 511)}, "
                         f"lent 512 widened 1 {vectors.weighed(empty)}, lent 513 widened 1 {vectors.weighed(empty, 513)}, back narrowed 1 same")

    def test_static_words(self):
        """The sum is of a generated class's own fields with 0x0008; others get 0."""
        text = "class A{}\n  field i I 0 flags 8\n  field j J 1 flags 0xffff\n  field d D 1 flags 9\n  field a [J 1 flags 8\n  field k J 0\nclass B generated\n"
        for kind, words in ((" generated", 6), ("", 0), (" array", 0), (" packaged", 0)):
            new = sheetlib.to_new_form(sheetlib.to_old_form(form(text.format(kind))))
            self.assertEqual([new.get("class", i, "static words") for i in range(2)], [words, 0])


class Vectors(unittest.TestCase):
    def test_every_clause(self):
        self.assertEqual(list(vectors.uncovered()), [])

    def test_rows_by_name(self):
        for name, data in vectors.vectors.items():
            kind, row = vectors.told(name)
            line = vectors.answer(name, data)[len(name):]
            good = {"set": " set 0", "args": " words ", "refs": " marked "}.get(kind, " accepted ")
            self.assertTrue(line.startswith((f" set {row}" if kind == "set" else f" refused {row}") if row else good), name)

    def test_answers(self):
        """The lines of the kinds of files; a path's last part tells the kind."""
        words, abi = sheetvectors.CLASSES.words(), sheetvectors.ABI.words()
        self.assertEqual(setvectors.parted(setvectors.joined(words, abi)), (words, abi))
        for path, data, want in (("x/set-1-lent-3.bin", setvectors.joined(words, abi), f"set 0 unwritten 18 42 ordered 2 {vectors.weighed(words)} {1 + 4 + 21}"),
                                 ("set-1-lent-513.bin", setvectors.joined([0] * 6, []), f"set 3 written 1 {509 + 7 * 513} ordered 0 0 {7 * 513 * 514 // 2}"),
                                 ("x/args-1", b"\x08\0\0\0(IJ)V", "words 3"), ("args-1", b"\x01\0\0\0(IJ)V", "words 4"),
                                 ("args-1", b"\0\0\0\0(V)V", "refused 5"), ("args-1", b"", "refused 5"),
                                 ("x/refs-1", b"\x08\0\0\0\4\0\0\0\xA1", f"marked 3 {4 + 21 + 28} counted 3"),
                                 ("refs-1", b"\x08\0\0\0\2\0\0\0\xA1", "refused 25 21 counted 3"),
                                 ("refs-1", b"\x09\0\0\0\1\0\0\0\xA1", "refused 24 7 refused 24"), ("refs-1", b"", "marked 0 0 counted 0")):
            self.assertEqual(vectors.answer(path, data), f"{path} {want}")

    def test_weighed_rest(self):
        """Lent memory after the words given holds 7s."""
        self.assertEqual(vectors.weighed([5], 3), vectors.weighed([5, 7, 7]))
        self.assertEqual(vectors.weighed([], 3), vectors.weighed([7, 7, 7]))
        self.assertEqual(vectors.weighed([1, 2, 3], 2), vectors.weighed([1, 2, 3]))

    def test_weighed(self):
        """The check of lent memory tells the words' order."""
        self.assertEqual(vectors.weighed([5, 0, 7]), 26)
        self.assertNotEqual(vectors.weighed([1, 2]), vectors.weighed([2, 1]))
        self.assertEqual(vectors.weighed([TOP, TOP]), WORD - 3)


class Commands(unittest.TestCase):
    def setUp(self):
        self.folder = tempfile.TemporaryDirectory()
        self.addCleanup(self.folder.cleanup)

    def file(self, name, data):
        path = os.path.join(self.folder.name, name)
        with open(path, "wb") as file:
            file.write(data if isinstance(data, bytes) else data.encode())
        return path

    def test_help(self):
        for args in (["--help"], ["make", "--help"], ["show", "--help"], ["check", "--help"], ["explain", "--help"], ["why", "--help"],
                     ["widen", "--help"], ["narrow", "--help"]):
            status, out, _ = sheet(*args)
            self.assertEqual(status, 0)
            self.assertIn("usage: sheet", out)

    def test_make_show_check(self):
        text = self.file("classes.txt", "class A\n  method m ()V 1\n")
        self.assertEqual(sheet("make", text), (0, "", ""))
        made = text[:-4] + ".bin"
        status, out, _ = sheet("show", made)
        self.assertEqual((status, out), (0, "sheet classes\n\nclass A\n  method m ()V 1\n"))
        status, out, _ = sheet("check", made)
        self.assertEqual(status, 0)
        self.assertIn("accepted by rows 1 to 5: class sheet, blocks 1, words 127; classes 1, methods 1,", out)
        self.assertEqual(sheet("make", "--check", text)[0], 0)
        self.file("classes.bin", b"")
        self.assertEqual(sheet("make", "--check", text)[0], 1)

    def test_kind_by_name(self):
        made = self.file("abi.bin", form("abi class A words 0\n").blocks())
        self.assertIn("ABI sheet", sheet("check", made)[1])
        self.assertEqual(sheet("show", made)[1], "sheet abi\n\nabi class A words 0\n")
        self.assertEqual(sheet("check", "--classes", made)[0], 1)

    def test_refused_is_not_made(self):
        text = self.file("classes.txt", "class A\n  method m (V)V 1\n")
        status, _, err = sheet("make", text)
        self.assertEqual(status, 1)
        self.assertIn("classes.txt line 2: method m (V)V of A: byte 1 of the descriptor: V (void) stands only as a method's result (row 5)", err)
        self.assertFalse(os.path.exists(text[:-4] + ".bin"))
        self.assertEqual(sheet("make", "--anyway", text)[0], 0)
        self.assertTrue(os.path.exists(text[:-4] + ".bin"))

    def test_widen_narrow(self):
        """The Card sheet in both forms; the sheet that is given is never written over."""
        examples = os.path.join(HERE, "..", "examples", "card")
        old, new = (os.path.join(examples, name) for name in ("old.bin", "classes.bin"))
        out, back = (os.path.join(self.folder.name, name) for name in ("new.bin", "back.bin"))
        self.assertEqual(sheet("widen", old, "-o", out), (0, "", ""))
        self.assertEqual(sheet("narrow", out, "-o", back), (0, "", ""))
        for made, stored in ((out, new), (back, old)):
            with open(made, "rb") as made, open(stored, "rb") as stored:
                self.assertEqual(made.read(), stored.read())
        os.symlink(out, os.path.join(self.folder.name, "link.bin"))
        for same in (out, os.path.join(self.folder.name, ".", "new.bin"), os.path.join(self.folder.name, "link.bin")):
            status, told, err = sheet("narrow", out, "-o", same)
            self.assertEqual((status, told), (2, ""))
            self.assertIn("is the sheet that is given: write to another file", err)
        none = os.path.join(self.folder.name, "none.bin")
        status, told, _ = sheet("widen", out, "-o", none)
        self.assertEqual((status, os.path.exists(none)), (1, False))
        self.assertIn("new.bin: refused 3: ", told)
        made = self.file("wrong.bin", form("class A generated\n  statics 4\n  field x J 0 flags 8\n").blocks())
        status, told, _ = sheet("narrow", made, "-o", none)
        self.assertEqual((status, os.path.exists(none)), (1, False))
        self.assertIn("refused 23: class 1 `A`: static words at byte 92 of the file (block 1) is 4, and the static fields take 2", told)
        self.assertEqual(sheet("widen", self.file("abi.bin", b""), "-o", none)[0], 2)
        status, told, err = sheet("show", "--old", old)
        self.assertEqual((status, err), (0, ""))
        self.assertIn("\nclass 0 4 0 1 0 0 2 0 0 0 0 0 0 0 0 0 0\n", told)
        self.assertEqual(sheet("show", "--old", new)[0], 1)
        for other in ("--abi", "--classes", "--raw"):
            self.assertEqual(sheet("show", "--old", other, old)[0], 2, other)

    def test_bad_lines(self):
        for text, line, told in (("class A\n  metod m ()V 1\n", 2, "'metod'"), ("class A\n method m ()V x\n", 2, "number"),
                                 ("class A\n method m ()V\n", 2, "target is missing"), ("class A extends B\n", 1, "no class is named B"),
                                 ("class A\n flags 1\n flags 2\n", 3, "twice"), ("method m ()V 1\n", 1, "before the first class"),
                                 ("class A\n method m ()V 4294967296\n", 2, "above"), ("", 1, "sheet classes"),
                                 ("class Caf\u00e9\n", 1, "0x21 to 0x7E"), ("abi class A\n method m ()V 1\n", 2, "slot"),
                                 ("sheet abi raw\nclass 1 2\n", 2, "8 words"), ("sheet classes raw\ntext \\x4\n", 2, "text")):
            status, _, err = sheet("make", self.file("classes.txt", text))
            self.assertEqual(status, 1, text)
            self.assertIn(f"line {line}: ", err)
            self.assertIn(told, err)

    def test_every_fault_by_its_line(self):
        """All faults of a text, each with its line, the class and the one clause that applies."""
        text = self.file("classes.txt", "\n".join((
            "class A flags", "  method m (V)V 1   # a comment", "  metod x", "class CardReader extends Device generated  # another",
            "  flags 70000", "  statics 5", "  field x Q 0", "class CardReader", "  implements A Gone", "class Device extends Nothing",
            "  method z ()V 1 flags 0x200", "class E extends E", "  words 65536", "  state 65536", "  field f I 0 flags 65536",
            "  compiler " + "1 " * 1025, "  statics 7", "class " + "n" * 256)) + "\n")
        status, _, err = sheet("make", text)
        self.assertEqual(status, 1)
        self.assertEqual(err.replace(text, "classes.txt").replace("n" * 256, "N"), """\
classes.txt line 1: 'flags' is not expected here
classes.txt line 2: method m (V)V of A: byte 1 of the descriptor: V (void) stands only as a method's result (row 5)
classes.txt line 3: 'metod' is none of class, method, field, flags, state, words, statics, implements, compiler
classes.txt line 4: CardReader extends Device, which comes later, line 10 (row 4)
classes.txt line 5: class CardReader: access flags 0x11170, above 65535 (row 4)
classes.txt line 7: field x Q of CardReader: byte 0 of the descriptor: no type starts with Q (row 5)
classes.txt line 8: the name CardReader is taken by class 2, line 4 (row 4)
classes.txt line 9: no class is named Gone
classes.txt line 10: no class is named Nothing
classes.txt line 11: method z ()V of Device: flags 0x200, with the bits 0x200 outside 0x1dff (row 4)
classes.txt line 12: E extends itself (row 4)
classes.txt line 13: class E: instance words 65536, above 65535 (row 4)
classes.txt line 14: class E: link state 65536, above 65535 (row 4)
classes.txt line 15: field f I of E: flags 0x10000, above 65535 (row 4)
classes.txt line 16: class E: compiler slots 1025, above 1024 (row 4)
classes.txt line 17: class E: static words 7, and only a generated class brings its own (row 3)
classes.txt line 18: class N: its name has 256 bytes, above 255 (row 4)
classes.txt: 17 faults, nothing was written
""")
        text = self.file("abi.txt", "abi class A size 1025 words 4097\n slot m ()V 1024\n field f I 4096\n field g () 0\n")
        self.assertEqual(sheet("make", text)[2].replace(text, "abi.txt"), """\
abi.txt line 1: class A: table size 1025, above 1024 (row 4)
abi.txt line 1: class A: instance words 4097, above 4096 (row 4)
abi.txt line 2: slot m ()V of A: index 1024, above 1023 (row 4)
abi.txt line 3: field f I of A: index 4096, above 4095 (row 4)
abi.txt line 4: field g () of A: byte 0 of the descriptor: no type starts with ( (row 5)
abi.txt: 5 faults, nothing was written (--anyway writes it)
""")

    def test_order(self):
        """`order` puts parents first, and names the classes of every ring; nothing is written where a row refuses."""
        late = self.file("classes.bin", form("class B extends A\n method m ()V 1\nclass A\n implements B\n").blocks())
        out = os.path.join(self.folder.name, "ordered.bin")
        self.assertEqual(sheet("order", late, "-o", out), (0, "class 1 A was 2\nclass 2 B was 1\n", ""))
        self.assertEqual(sheet("check", out)[0], 0)
        self.assertEqual(sheet("order", out, "-o", out), (0, "class 1 A was 1\nclass 2 B was 2\n", ""))
        table, other = self.table(), os.path.join(self.folder.name, "none.bin")
        ring = self.file("ring.bin", form("class A extends C\nclass B extends D\nclass C extends B\nclass D extends B\nclass E extends E\n").blocks())
        self.assertEqual(sheet("order", ring, "-o", other), (1, f"{ring}: refused 19: class 2 `B` extends class 4 `D`, which extends class 2 `B`\n"
                                                              f"  class 5 `E` is its own parent\n  To mend: {table['19']}\n", ""))
        for name, made, row, place in (("stray", with_parents((3, 1)), 4, "class 1 `A`: parent at byte 32 of the file (block 1) is 3, and the classes are 1 to 2"),
                                       ("kind", form("class B extends A\n state 65536\nclass A\n"), 4, "class 2 `B`: link state at byte"),
                                       ("void", form("class B extends A\n field f V 1\nclass A\n"), 5, "(after the classes were put in order; --anyway")):
            status, said, _ = sheet("order", self.file(name + ".bin", made.blocks()), "-o", other)
            self.assertEqual((status, said.split(": ", 1)[1][:10]), (1, f"refused {row}:"))
            self.assertIn(place, said)
            self.assertFalse(os.path.exists(other))
        self.assertEqual(sheet("order", self.file("void.bin", made.blocks()), "--anyway", "-o", other)[0], 0)
        self.assertTrue(os.path.exists(other))
        self.assertIn("refused 1: the file has 511 bytes", sheet("order", self.file("short.bin", bytes(511)), "-o", other)[1])
        self.assertEqual(sheet("order", self.file("abi.bin", bytes(512)), "-o", other)[0], 2)

    def test_make_in_any_order(self):
        """`make --order` is `make --anyway` and then `order`; without it a child before its parent is a fault, with a ring it is one, too."""
        text = self.file("classes.txt", "class B extends A\nclass A\n")
        status, _, err = sheet("make", text)
        self.assertEqual((status, err.replace(text, "classes.txt")), (
            1, "classes.txt line 1: B extends A, which comes later, line 2 (row 4)\nclasses.txt: 1 fault, nothing was written (--order puts parents first)\n"))
        made, loose, ordered = text[:-4] + ".bin", *(os.path.join(self.folder.name, name) for name in ("loose.bin", "ordered.bin"))
        self.assertEqual(sheet("make", "--order", text), (0, "", ""))
        self.assertEqual(sheet("make", "--order", "--check", text), (0, "", ""))
        self.assertEqual(sheet("make", "--anyway", text, "-o", loose), (0, "", ""))
        self.assertEqual(sheet("order", loose, "-o", ordered)[0], 0)
        with open(made, "rb") as one, open(ordered, "rb") as other:
            self.assertEqual(one.read(), other.read())
        text = self.file("classes.txt", "class B extends A\n words 65536\nclass A extends C\nclass C extends A\nclass D extends D\n")
        self.assertEqual(sheet("make", "--order", text)[2].replace(text, "classes.txt"), """\
classes.txt line 2: class B: instance words 65536, above 65535 (row 4)
classes.txt line 3: A extends C, which extends A (row 19)
classes.txt line 5: D extends itself (row 19)
classes.txt: 3 faults, nothing was written (--anyway writes it)
""")

    def test_counts_by_their_line(self):
        """A count above its limit is told at the first line past it."""
        for text, told in (("".join(f"class C{i}\n" for i in range(66)), "line 65: 66 classes, above 64 (row 3)"),
                           ("class A\n" + "".join(f" method m{i} ()V 1\n" for i in range(513)), "line 514: 513 methods, above 512 (row 3)"),
                           ("class A\n" + "".join(f" field {i:0>200} I 1\n" for i in range(50)), "line 42: 10002 text bytes, above 8192 (row 3)")):
            self.assertIn("classes.txt " + told, sheet("make", self.file("classes.txt", text))[2])
        raw = self.file("classes.txt", "sheet classes raw\ntext A\nclass 0 1 0 1 0 0 0 0 0 0 0 0 0 0 0 1 0 0\n")
        self.assertIn("classes.txt line 3: class 1 `A`: table place at byte 84 of the file (block 1) is 1, and a sheet that is read is unlinked, so 0 (row 3)",
                      sheet("make", raw)[2])
        raw = self.file("classes.txt", "sheet classes raw\ntext A\nclass 0 1 0 1 0 0 0 0 0 0 0 0 0 0 0 0 0\n")
        self.assertIn("classes.txt line 3: a class record has 18 words, and here are 17", sheet("make", raw)[2])
        raw = self.file("classes.txt", "sheet classes raw\ntext A\nclass 0 1 0 1 4 0 0 0 0 0 0 0 0 0 0 0 0 0\n")
        self.assertIn("classes.txt line 3: class 1 `A`: kind at byte 40 of the file (block 1) is 4, above 3 (row 4)", sheet("make", raw)[2])

    def test_other_files(self):
        """A sheet, a listing, another sheet's text and a folder, given to make."""
        made = self.file("classes.bin", sheetvectors.CARD.blocks())
        self.assertEqual(sheet("make", made)[::2], (2, f"sheet make: {made} is a sheet and not its text form, which `tools/sheet show {made}` prints\n"))
        status, _, err = sheet("make", self.file("listing.txt", "class 1 Card words 0 slots 2\n0 open ()V 4096\n"))
        self.assertEqual(status, 2)
        self.assertIn("listing.txt is a listing", err)
        text = self.file("classes.txt", "abi class A\n")
        status, _, err = sheet("make", text)
        self.assertEqual(status, 1)
        self.assertIn("this is the text of an ABI sheet, and by its name", err)
        with open(made, "rb") as file:
            self.assertEqual(file.read(), sheetvectors.CARD.blocks())
        self.assertEqual(sheet("make", "--abi", text), (0, "", ""))
        self.file("abi.txt", "sheet abi\n")
        self.file("classes.txt", "class A\n")
        self.assertEqual(sheet("make", self.folder.name), (0, "", ""))
        self.assertEqual(sheet("check", self.folder.name + "/abi.bin", self.folder.name + "/classes.bin")[0], 0)

    def test_warning(self):
        """A table's method of target 0: its slot stays unknown. One that is in no table is not warned of."""
        text = self.file("classes.txt", "class I\n flags 0x200\n method a ()V 0 flags 0x401\n method b ()V 0 flags 9\n"
                         " method c ()V 0 flags 2\n method <d> ()V 0\n method e ()V 4\n")
        status, _, err = sheet("make", text)
        self.assertEqual((status, err.count("warning")), (0, 1))
        self.assertIn("classes.txt line 3: warning: method a ()V of I has target 0, so its slot stays unknown", err)
        self.assertIn("no interface table is refused by 16 for want of it", err)

    def test_kinds(self):
        """The word of each kind, and its number."""
        path = self.file("classes.txt", "class A built\nclass B generated\nclass C array\nclass D extends A packaged\n")
        self.assertEqual(sheet("make", path), (0, "", ""))
        made = path[:-4] + ".bin"
        self.assertEqual(sheet("show", made)[1], "sheet classes\n\nclass A\n\nclass B generated\n\nclass C array\n\nclass D extends A packaged\n")
        self.assertIn("\nclass 3 1 1 1 3 0 0 0 0 0 0 0 0 0 0 0 0 0\n", sheet("show", "--raw", made)[1])

    def test_statics(self):
        """A generated class brings any; the plain form tells them, and the raw form of the same sheet."""
        path = self.file("classes.txt", "class A generated\n  statics 4294967295\n  field f J 0 flags 0x9\nclass B\n  statics 0\n")
        self.assertEqual(sheet("make", path), (0, "", ""))
        made = path[:-4] + ".bin"
        self.assertEqual(sheet("show", made)[1], "sheet classes\n\nclass A generated\n  statics 4294967295\n  field f J 0 flags 0x9\n\nclass B\n")
        self.assertIn("\nclass 0 1 0 1 1 0 0 0 1 0 0 0 0 0 0 0 0 4294967295\n", sheet("show", "--raw", made)[1])
        self.assertIn("slot count, static words\n", sheet("show", "--raw", made)[1])

    def test_comments_and_flags(self):
        """Comments follow on a line where no name can stand; show prints flags in hexadecimal."""
        text = ("class #A # one\n flags 0x201 # two\n\nclass B extends #A # three\n implements #A #four\n implements #A\n compiler 1 2 #5\n"
                " method #m ()V 7 flags 0x401 # six\n field f I 0#7\n")
        self.assertEqual(sheet("make", self.file("classes.txt", text))[2].split(": ", 1)[1][:30], "the word index is a number, as"[:30])
        path = self.file("classes.txt", text.replace("0#7", "0 #7"))
        self.assertEqual(sheet("make", path), (0, "", ""))
        self.assertEqual(sheet("show", path[:-4] + ".bin")[1], "sheet classes\n\nclass #A\n  flags 0x201\n\nclass B extends #A\n"
                         "  implements #A\n  implements #A\n  compiler 1 2\n  method #m ()V 7 flags 0x401\n  field f I 0\n")

    def test_version(self):
        """One version: the file VERSION, which the tools, the header and the bindings show."""
        root = os.path.join(HERE, "..")
        def read(*path):
            with open(os.path.join(root, *path), encoding="utf-8") as file:
                return file.read()
        version = read("VERSION").strip()
        self.assertRegex(version, r"^0\.\d+\.\d+$")
        self.assertEqual(sheet("--version"), (0, f"sheet {version}\n", ""))
        for script in ("list", "judge"):
            done = subprocess.run([os.path.join(root, script), "--version"], capture_output=True, text=True, check=False)
            self.assertEqual((done.returncode, done.stdout), (0, f"{script} {version}\n"))
        self.assertIn(f'#define LGT_LINKER_VERSION "{version}"\n', read("include", "lgt_linker.h"))
        self.assertEqual(re.search(r'^version = "(.*)"$', read("bindings", "rust", "Cargo.toml"), re.M)[1], version)
        self.assertEqual(re.search(r'^version = "(.*)"$', read("oracle", "Cargo.toml"), re.M)[1], version)
        self.assertIn(f"## {version}", read("CHANGELOG.md"))

    def test_unwritable(self):
        """Output that cannot be written is told, with a status of its own."""
        made = self.file("classes.bin", sheetvectors.CARD.blocks())
        for args in (("show", made), ("check", made), ("explain", "11")):
            with open("/dev/full", "w", encoding="utf-8") as full:
                done = subprocess.run([sys.executable, os.path.join(HERE, "sheet"), *args], stdout=full, stderr=subprocess.PIPE,
                                      text=True, check=False)
            self.assertEqual((done.returncode, "could not be written" in done.stderr), (4, True), args)

    def test_missing_file(self):
        status, _, err = sheet("check", os.path.join(self.folder.name, "none.bin"))
        self.assertEqual(status, 2)
        self.assertIn("No such file", err)

    def test_damaged_is_not_shown(self):
        data = bytearray(sheetvectors.CARD.blocks())
        data[20] ^= 1
        status, out, err = sheet("show", self.file("classes.bin", bytes(data)))
        self.assertEqual((status, out), (1, ""))
        self.assertIn("refused 2: block 1", err)

    def table(self):
        """The sentences of docs/REFUSALS.md by their numbers."""
        with open(os.path.join(HERE, "..", "docs", "REFUSALS.md"), encoding="utf-8") as file:
            return dict(re.findall(r"^\| (\d+) \| [^|]* \| ([^|]*) \|$", file.read(), re.M))

    def test_explain(self):
        """Every number, and the refused lines of a listing alone."""
        table = self.table()
        for number, sentence in table.items():
            self.assertEqual(sheet("explain", number), (0, f"refused {number}\n  To mend: {sentence}\n", ""))
        listing = "class 1 A words 0 slots 1\n0 refused ()V 11\nclass 2 refused 11\nabi refused 3\n"
        told = (f"class 2 refused 11\n  To mend: {table['11']}\nabi refused 3\n  To mend: {table['3']}\n"
                "Which method, field or slot each of these is about: ./why FOLDER\n")
        self.assertEqual(sheet("explain", given=listing), (0, told, ""))
        for number in ("0", str(max(map(int, table)) + 1)):
            status, out, err = sheet("explain", number)
            self.assertEqual((status, out), (2, ""))
            self.assertIn(f"no refusal has the number {number}", err)
        status, out, err = sheet("explain", given="class 1 A words 0 slots 0\n")
        self.assertEqual((status, out), (0, ""))
        self.assertIn("nothing is refused", err)
        for given in ("", "hello\n"):
            status, out, err = sheet("explain", given=given)
            self.assertEqual((status, out), (2, ""))
            self.assertIn("no line of the input is of a listing", err)

    def test_messages(self):
        """Each row of both sheets: the number, the place and the sentence of docs/REFUSALS.md."""
        table = self.table()
        self.assertEqual(sorted(map(int, table)), [*range(1, 27)])
        for name, place in (
                ("class-r1-513-bytes", "the file has 513 bytes"), ("abi-r1-no-bytes", "the file is empty"),
                ("class-r2-check-of-block-2", "block 2: the check word at byte 1020 of the file"),
                ("abi-r2-check-plus-1", "block 1: the check word at byte 508"),
                ("class-r3-65-classes", "the count of classes at byte 0 of the file (block 1) is 65, above 64"),
                ("abi-r3-first-word-after", "after the content, the word at byte"),
                ("class-r3-table-place-2-1", "class 2 `B`: table place at byte 156 of the file (block 1) is 1"),
                ("class-r3-statics-of-1", "class 1 `A`: static words at byte 92 of the file (block 1) is 1, and only a generated class brings its own"),
                ("class-r4-parent-equal", "class 2 `c01`: parent at byte 104 of the file (block 1) is 2, which is not below"),
                ("class-r4-method-flags-0x0200", "method 0 `m` `()V`: flags at byte"),
                ("abi-r4-slot-index-1024", "slot 2 `k` `()I`: index at byte"),
                ("class-r4-class-name-last-0x7f", "byte 5 of its name, byte"),
                ("class-r5-field-void", "field 2 `z` `V`: byte 0 of its descriptor, byte"),
                ("class-r5-method-127-j-i-flags-1", "the arguments take 256 words, one of them the receiver's, and a method has at most 255"),
                ("class-r5-method-128-j-flags-9", "the arguments take 256 words, and a method has at most 255"),
                ("abi-r5-slot-no-result", "slot 2 `k` `()`: byte 2 of its descriptor")):
            wanted = re.match(r"\w+-r(\d)", name).group(1)
            status, out, _ = sheet("check", self.file(name + ".bin", vectors.vectors[name + ".bin"]))
            self.assertEqual(status, 1)
            self.assertIn(f"refused {wanted}: ", out)
            self.assertIn(place, out)
            self.assertIn(table[wanted], out)

    def test_all_faults(self):
        path = self.file("class-x.bin", vectors.vectors["class-r4-before-5.bin"])
        self.assertIn("also 5: method 0", sheet("check", "--all", path)[1])
        self.assertNotIn("also", sheet("check", path)[1])


class Corpus(unittest.TestCase):
    """Rows 1 to 5 of the stored corpus (oracle/README.md has its format): each refusal by the row that is stored, with its record or place."""

    def setUp(self):
        with open(os.path.join(HERE, "..", "crates", "corpus", "data", "rust.bin"), "rb") as file:
            data = file.read()
        self.words = iter([int.from_bytes(data[i:i + 4], "little") for i in range(0, len(data), 4)])

    def take(self, count):
        return list(itertools.islice(self.words, count))

    def list(self):
        out, size = [], next(self.words)
        while len(out) < size:
            count, rising = divmod(next(self.words), 2)
            if rising:
                first, step = self.take(2)
                out += [(first + i * step) % WORD for i in range(count)]
            else:
                out += self.take(count)
        return out

    def bytes(self):
        size = next(self.words)
        return b"".join(word.to_bytes(4, "little") for word in self.list())[:size]

    def change(self, words):
        for _ in range(next(self.words)):
            at, word = self.take(2)
            words[at] = word

    def told(self, row, found):
        """The first fault is of that row, and is told."""
        self.assertEqual((found.row, bool(found.where)), (row, True))

    def case(self):
        words, abi, numbers, area, missing = (self.list() for _ in range(5))
        for _ in range(next(self.words)):
            self.list()
        refused = 0
        for _ in range(next(self.words)):
            kind, *_, row, _, _ = self.take(7)
            # Row 3 also takes a list of numbers of fewer than 1,024 words; a question for missing slots (2) lends none.
            if 3 <= row <= 5 and (kind == 2 or len(numbers) >= 1024):
                refused += 1
                found = [*sheetlib.word_faults(CLASS_SHEET, words), *sheetlib.word_faults(ABI_SHEET, abi)]
                self.told(row, min(found, key=lambda fault: fault.row))
            for changed in (words, numbers, area, missing):
                self.change(changed)
        return refused

    def test_every_refusal(self):
        _, _, _, _, cases, readings, _ = self.take(7)
        self.take(9)
        self.bytes()
        refused = sum(self.case() for _ in range(cases))
        for _ in range(readings):
            abi, lent = self.take(2)
            data = self.bytes()
            row, _ = self.take(2)
            if row:
                refused += 1
                self.told(row, next(sheetlib.faults(ABI_SHEET if abi else CLASS_SHEET, data, lent)))
        self.assertGreater(refused, 200)


if __name__ == "__main__":
    unittest.main()
