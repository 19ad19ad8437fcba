#!/usr/bin/env python3
"""Tests of ./members and of the reader of class files in Python: the example folder, files that a compiler made, random
ones, statuses. Run after the proofs: the proved program is asked too, and the model and Python are held to it."""

import os
import platform
import random
import re
import subprocess
import sys
import tempfile
import unittest

sys.dont_write_bytecode = True
HERE = os.path.dirname(os.path.realpath(__file__))
ROOT = os.path.dirname(HERE)
sys.path.insert(0, HERE)

import classfile  # noqa: E402
import filevectors  # noqa: E402
import sheetform  # noqa: E402
from sheetlib import CLASS_SHEET, judge_words  # noqa: E402
from testlib import run  # noqa: E402

SUPPLIED = os.path.join(ROOT, "examples", "supplied")
CRATE = os.path.join(ROOT, "crates", "members")
PROVED = os.path.join(ROOT, "target", "bin", "members")
MODEL = os.path.join(ROOT, "oracle", "target", "release", "folder")
MOST = 1 << 20  # the bytes of the largest file that is read


def members(*words):
    return run(os.path.join(ROOT, "members"), *words)


def contents(*path):
    with open(os.path.join(*path), "rb") as file:
        return file.read()


def expected(data, first=4096, step=16):
    """Status and standard output, by Python."""
    row, _ = classfile.judge_head(data)
    return (1, f"refused {row}\n") if row else (0, classfile.shown(classfile.read(data), first, step))


def stored_files():
    """Every class file of the tree, by its path."""
    for top in (SUPPLIED, os.path.join(HERE, "classfiles"), os.path.join(CRATE, "data")):
        for folder, _, names in sorted(os.walk(top)):
            yield from (os.path.join(folder, name) for name in sorted(names) if name.endswith(".class"))


def setUpModule():
    """The proved program, which rt ci has proved: rt is asked whether it is of these sources."""
    for how in ("--prove", "--quick"):
        status, _, said = members(how, os.path.join(SUPPLIED, "Card.class"))
        if status:
            raise RuntimeError(said)


class Reader(unittest.TestCase):
    """The two files of the specification, by hand."""

    def test_a(self):
        data = filevectors.A.bytes()
        self.assertEqual(len(data), 31)
        self.assertEqual(classfile.judge(data, [], [], [], [9, 9]), (0, [1, 0, 33, 0, 0, 1], [], [], [65, 9]))
        self.assertEqual(classfile.judge(data, [], [], [], []), (14, [0] * 6, [], [], []))
        self.assertEqual(classfile.judge(data, [1], [], [], [9]), (14, [0] * 6, [], [], [9]))
        self.assertEqual(classfile.judge_head(data), (0, [1, 0, 33, 0, 0, 1]))

    def test_ab(self):
        data = filevectors.AB.bytes()
        self.assertEqual(len(data), 73)
        row, answer, fields, methods, text = classfile.judge(data, [7], [9] * 6, [9] * 6, [9] * 3)
        self.assertEqual((row, answer), (0, [1, 1, 33, 1, 1, 9]))
        self.assertEqual((fields, methods), ([2, 1, 3, 1, 2, 0], [4, 1, 5, 4, 9, 7]))
        self.assertEqual(b"".join(word.to_bytes(4, "little") for word in text), b"ABxIf(J)V\0\0\0")

    def test_lists_are_a_sheet(self):
        """The records and the text, as the set of one class, pass rows 3 to 5."""
        for name, data, _ in filevectors.real_files():
            if name in filevectors.REFUSED:
                continue
            file = classfile.read(data)
            fields, methods, text = file.lists(range(len(file.methods)))
            class_record = [0, len(file.name), 0, file.flags, 0, 0, len(file.methods), 0, len(file.fields)]
            class_record += [0] * (CLASS_SHEET.section("class").width() - len(class_record))
            counts = [1, len(file.methods), len(file.fields), 0, 0, len(file.text())]
            words = [*counts, *class_record, *methods, *fields, *text]
            self.assertEqual(judge_words(CLASS_SHEET, words), (0, ""), name)


class Printed(unittest.TestCase):
    def test_folder(self):
        """The example's text is what is printed of its class files, and the sheet is made of it."""
        told = "".join(members(os.path.join(SUPPLIED, name + ".class"), first)[1]
                       for name, first in (("Object", "0x1000"), ("Card", "8192"), ("VipCard", "0x3000")))
        text = contents(SUPPLIED, "classes.txt").decode()
        self.assertEqual("".join(line for line in text.splitlines(True) if not line.startswith("#")), told)
        self.assertEqual(sheetform.parse(text).blocks(), contents(SUPPLIED, "classes.bin"))

    def test_quote(self):
        """README.md has what is printed of Card.class."""
        page = contents(ROOT, "README.md").decode()
        told = members(os.path.join(SUPPLIED, "Card.class"), "0x2000")[1]
        self.assertIn("\n\n" + "".join("    " + line + "\n" for line in told.splitlines()) + "\n", page)

    def test_files(self):
        """The proved program, the model and Python agree byte by byte on every class file of the tree, and on the row
        of a refused one."""
        rows = set()
        for path in stored_files():
            data = contents(path)
            proved, model = members(path, "4294967290", "3"), members("--quick", path, "0xFFFFFFFA", "0x3")
            self.assertEqual(proved[:2], expected(data, 4294967290, 3), path)
            self.assertEqual(model[:2], proved[:2], path)
            self.assertIn("members: not proved: ", model[2])
            fault = next(classfile.faults(data), None)
            self.assertEqual(proved[2], f"members: {path}: {fault.where}\n" if fault else "")
            rows.add(fault.row if fault else 0)
        self.assertEqual(rows, {0, 4, 5, 14, 20, 21, 22})

    def test_stored(self):
        """What the gate expects of the program is what Python prints of its data."""
        words, told = contents(CRATE, "args").decode().split("\n")[:-1], ""
        for name, *numbers in zip(words[0::3], words[1::3], words[2::3]):
            path = os.path.join(CRATE, "data", name)
            if os.path.exists(path) and all(re.fullmatch("[0-9]+", word) and int(word) < 2**32 for word in numbers):
                told += expected(contents(path), *map(int, numbers))[1]
        self.assertEqual(contents(CRATE, "stdout").decode(), told)

    def test_round_trip(self):
        """`tools/sheet make` takes what is printed of an accepted file, where its parent's class stands before it, and
        the sheet says the same."""
        with tempfile.TemporaryDirectory() as folder:
            text, sheet = os.path.join(folder, "classes.txt"), os.path.join(folder, "classes.bin")
            for path in stored_files():
                status, out, _ = members(path, "7", "0xFFFFFFFF")
                if status:
                    continue
                file = classfile.read(contents(path))
                with open(text, "w", encoding="ascii") as made:
                    made.write((f"class {file.parent.decode()}\n" if file.parent else "") + out)
                self.assertEqual(run(os.path.join(HERE, "sheet"), "make", text)[0], 0, path)
                with open(text, encoding="ascii") as made:
                    told = sheetform.parse(made.read())
                self.assertEqual(contents(sheet), told.blocks())
                self.assert_same(told, file, [(7 - m) % 2**32 for m in range(len(file.methods))])

    def assert_same(self, sheet, file, targets):
        """The last class of the sheet is the file's, and it alone has members."""
        number = len(sheet.records["class"]) - 1
        flags = sheet.records["class"][number][3]
        self.assertEqual((sheet.part("class", number, "name"), flags), (file.name, file.flags))
        indices = [0] * len(file.fields)
        for kind, members_of, lasts in (("method", file.methods, targets), ("field", file.fields, indices)):
            told = [(sheet.part(kind, i, "name"), sheet.part(kind, i, "descriptor"), *record[4:])
                    for i, record in enumerate(sheet.records[kind])]
            want = [(one.name, one.descriptor, one.flags, last) for one, last in zip(members_of, lasts, strict=True)]
            self.assertEqual(told, want)

    def test_longest(self):
        """512 methods and 512 fields of 8,192 text bytes, targets of ten digits: the text fits the bytes that the
        program sets aside."""
        names = [filevectors.utf8(b"%05d" % i) for i in range(512)]
        classes, utf8 = filevectors.classes, filevectors.utf8
        pool = [classes(2), utf8(b"A" * 255), classes(4), utf8(b"B" * 255), *names,
                utf8(b"()V"), utf8(b"I"), utf8(b"x" * 6)]
        file = filevectors.File(pool, parent=3,
                                methods=[filevectors.Member(0x1DFF, 5 + i, 517) for i in range(512)],
                                fields=[filevectors.Member(65535, 5 + i, 518) for i in range(512)]).bytes()
        with tempfile.TemporaryDirectory() as folder:
            path = os.path.join(folder, "a.class")
            with open(path, "wb") as out:
                out.write(file)
            proved, model = members(path, "4000000000", "1"), members("--quick", path, "4000000000", "1")
        self.assertEqual(classfile.judge_head(file)[1][3:], [512, 512, 7678])
        self.assertGreater(len(proved[1]), 36_000)
        self.assertEqual(proved, (*expected(file, 4000000000, 1), ""))
        self.assertEqual(model[:2], proved[:2])

    def test_random_files(self):
        """The proved program and the model print what Python prints, or refuse by the same row: files with bytes
        changed, cut or added."""
        pick, rows, words, told = random.Random(5), set(), [], ""
        good = [data for name, data, _ in filevectors.real_files() if name not in filevectors.REFUSED]
        good.append(filevectors.SAMPLE.bytes())
        with tempfile.TemporaryDirectory() as folder:
            for number in range(600):
                data = bytearray(pick.choice(good))
                for _ in range(pick.randrange(3)):
                    place = pick.randrange(pick.choice((12, len(data))))
                    data[place] = pick.choice((0, 1, 5, 7, 9, *b" V()", 255, pick.randrange(256)))
                if pick.random() < 0.1:
                    data = data[:pick.randrange(len(data))]
                data = bytes(data) + bytes(pick.random() < 0.05)
                path = os.path.join(folder, f"{number}.class")
                with open(path, "wb") as file:
                    file.write(data)
                want = expected(data, number, 99)
                self.assertEqual(run(MODEL, "members", path, str(number), "99")[:2], want)
                rows.add(classfile.judge_head(data)[0])
                words += [path, str(number), "99"]
                told += want[1]
            if platform.machine() == "x86_64":
                self.assertEqual(run(PROVED, *words), (0, told, ""))
        self.assertLessEqual({0, 4, 5, 20, 21, 22}, rows)


class Statuses(unittest.TestCase):
    def test_wrong_commands(self):
        card = os.path.join(SUPPLIED, "Card.class")
        for words in ((), ("--what", card), ("--prove", "--quick", card), (card, "x"), (card, "09"), (card, "0x"),
                      (card, "4294967296"), (card, "0x100000000"), (card, "1", "-"), (card, "1", "2", "3")):
            status, out, err = members(*words)
            self.assertEqual((status, out), (2, ""), words)
            self.assertTrue(err.startswith(("members: ", "usage: ")), err)
        for path in ("nothing.class", SUPPLIED):
            self.assertEqual(members(path)[:2], (3, ""))
        self.assertEqual(members("--version")[:2], (0, "members " + contents(ROOT, "VERSION").decode()))
        self.assertIn("usage: ./members", members("--help")[1])

    def test_largest_file(self):
        """1,048,576 bytes are read, and one more is told of, by both programs."""
        attribute = filevectors.Attribute(0, bytes(MOST - len(filevectors.A.bytes()) - 6))
        with tempfile.TemporaryDirectory() as folder:
            path = os.path.join(folder, "a.class")
            whole = filevectors.A.but(attributes=[attribute]).bytes()
            for data, told in ((whole, (0, "class A\n  flags 33\n")), (bytes(MOST + 1), (3, ""))):
                with open(path, "wb") as file:
                    file.write(data)
                for how in ("--prove", "--quick"):
                    status, out, err = members(how, path)
                    self.assertEqual((status, out), told)
                    self.assertEqual(f"{path}: more than 1048576 bytes\n" in err, status == 3)

    def test_not_written(self):
        """What cannot be written is told, by both programs."""
        card = os.path.join(SUPPLIED, "Card.class")
        for how in ("--prove", "--quick"):
            with open("/dev/full", "wb") as full:
                command = [os.path.join(ROOT, "members"), how, card]
                done = subprocess.run(command, stdout=full, stderr=subprocess.PIPE, check=False)
            self.assertEqual(done.returncode, 4)


if __name__ == "__main__":
    unittest.main()
