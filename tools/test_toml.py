#!/usr/bin/env python3
"""Tests of `sheet abi-from-toml`: round trips from sheets through the emulator's TOML, and what is told of a wrong file."""

import glob
import json
import os
import random
import re
import subprocess
import sys
import tempfile
import unittest

sys.dont_write_bytecode = True
HERE = os.path.dirname(os.path.realpath(__file__))
ROOT = os.path.dirname(HERE)
sys.path.insert(0, HERE)

import abitoml  # noqa: E402
import sheetform  # noqa: E402


def run(*args):
    done = subprocess.run([sys.executable, os.path.join(HERE, "sheet"), "abi-from-toml", *args], capture_output=True, text=True, check=False)
    return done.returncode, done.stdout, done.stderr


def toml_of(sheet, style):
    """An ABI sheet in TOML; its rows as tables of their own or within the class's, as a random choice has it."""
    out = []
    for i, (_, _, size, words, slot, slots, field, fields) in enumerate(sheet.records["class"]):
        out += ["[[class]]", f"name = {json.dumps(sheet.part('class', i, 'name').decode())}"]
        out += [f"vtable_size = {size - 1}"] * bool(size) + [f"instance_field_word_count = {words - 1:#x}"] * bool(words)
        later = []
        for section, key, first, count in (("slot", "vtable", slot, slots), ("field", "field", field, fields)):
            pairs = [[f"name = {json.dumps(name)}", f"descriptor = {json.dumps(descriptor)}", f"index = {index}"]
                     for name, descriptor, index in sheetform.rows(sheet, section, first, count)]
            if style.random() < 0.5:
                out.append(f"{key} = [" + ", ".join("{ " + ", ".join(one) + " }" for one in pairs) + "]")
            else:
                later += [line for one in pairs for line in (f"[[class.{key}]]", *one)]
        out += later
    return "\n".join(out) + "\n"


def text_form(dice):
    """A random ABI sheet's text form: names of any characters, classes of one name, sizes and indices up to their limits."""
    name = lambda: "".join(dice.choice("ab/<$\"'\\~!{}[]=") for _ in range(dice.randrange(1, 5)))  # noqa: E731
    out = ["sheet abi"]
    for _ in range(dice.randrange(5)):
        size = f" size {dice.choice([0, 3, 1024])}" if dice.random() < 0.5 else ""
        words = f" words {dice.choice([0, 2, 4096])}" if dice.random() < 0.5 else ""
        out.append(f"abi class {name()}{size}{words}")
        out += [f"slot {name()} {dice.choice(['()V', '(IJ)I', '([La/b;)D'])} {dice.choice([0, 1, 1023])}" for _ in range(dice.randrange(4))]
        out += [f"field {name()} {dice.choice(['I', 'J', '[La/b;'])} {dice.choice([0, 7, 4095])}" for _ in range(dice.randrange(3))]
    return "\n".join(out) + "\n"


class Toml(unittest.TestCase):
    def setUp(self):
        self.folder = tempfile.TemporaryDirectory()
        self.addCleanup(self.folder.cleanup)

    def file(self, text, name="abi.toml"):
        path = os.path.join(self.folder.name, name)
        with open(path, "w", encoding="utf-8") as file:
            file.write(text)
        return path

    def test_examples(self):
        """Every example's ABI sheet comes back from TOML byte for byte; so does the stored abi.toml."""
        dice = random.Random(1)
        texts = sorted(glob.glob(os.path.join(ROOT, "examples", "*", "abi.txt")))
        self.assertGreaterEqual(len(texts), 8)
        for path in texts:
            with open(path, encoding="utf-8") as file:
                sheet = sheetform.parse(file.read())
            toml = self.file(toml_of(sheet, dice))
            with open(path[:-4] + ".bin", "rb") as file:
                stored = file.read()
            self.assertEqual(run(toml), (0, "", ""), path)
            with open(toml[:-5] + ".bin", "rb") as file:
                self.assertEqual(file.read(), stored, path)
        desk = os.path.join(ROOT, "examples", "desk", "abi.toml")
        self.assertEqual(run("--check", desk), (0, "", ""))

    def test_random(self):
        dice = random.Random(2)
        for _ in range(300):
            sheet = sheetform.parse(text_form(dice))
            form, found, ignored = abitoml.read_toml(toml_of(sheet, dice))
            self.assertEqual((found, ignored), ([], []))
            self.assertEqual(form.sheet.blocks(), sheet.blocks())

    def test_page(self):
        """tools/README.md says one ABI sheet in both forms."""
        with open(os.path.join(HERE, "README.md"), encoding="utf-8") as file:
            page = file.read()
        form, found, _ = abitoml.read_toml(re.search(r"```toml\n(.*?)```", page, re.S)[1])
        text = re.search(r"```\n(abi class .*?)```", page, re.S)[1]
        self.assertEqual((found, form.sheet.blocks()), ([], sheetform.parse(text).blocks()))

    def test_empty(self):
        """A file without classes is an ABI sheet without classes, as the emulator reads it."""
        form, found, _ = abitoml.read_toml("# nothing\n")
        self.assertEqual((found, form.sheet.counts()), ([], [0, 0, 0, 0]))

    def test_faults(self):
        """All faults, by class and member; nothing is written."""
        for text, *told in (
                ("class = 3", "class is an array, and not 3"),
                ("[[class]\n", "this is no TOML: Expected"),
                ("[[class]]\nvtable_size = 1\n[[class]]\nname = 4", "class 1 has no name", "class 2: name is a string, and not 4"),
                ("[[class]]\nname = 'A'\nvtable_size = true", "class A: vtable_size is a whole number, and not True"),
                ("[[class]]\nname = 'A'\nvtable_size = -1", "class A: vtable_size -1, which is not from 0 to 4294967294"),
                ("[[class]]\nname = 'A'\nvtable = [{name = 'x', index = 1}]", "class A, vtable row 0 has no descriptor"),
                ("[[class]]\nname = 'A'\nvtable = [3]", "class A, vtable row 0 is a table, and not 3"),
                ("[[class]]\nname = 'A'\nvtable = [{name = 'x', descriptor = '()V', index = 1024}]",
                 "slot x ()V of A: index 1024, above 1023 (row 4)"),
                ("[[class]]\nname = 'A'\nfield = [{name = 'x', descriptor = 'V', index = 0}]", "field x V of A: ", "(row 5)"),
                ("[[class]]\nname = 'Ä'\n", "class \\xc3\\x84: its name", "(row 4)"),
                ("[[class]]\nname = 'A'\ninstance_field_word_count = 4097", "class A: instance words 4097, above 4096 (row 4)")):
            path = self.file(text)
            status, out, err = run(path)
            self.assertEqual((status, out), (1, ""), text)
            for one in told:
                self.assertIn(one, err)
            self.assertIn("nothing was written", err)
            self.assertFalse(os.path.exists(path[:-5] + ".bin"))

    def test_ignored(self):
        """Keys that the emulator does not know are warned of."""
        path = self.file("version = 1\n[[class]]\nname = 'A'\nnote = 'x'\nfield = [{name = 'f', descriptor = 'I', index = 0, was = 1}]\n", "x.toml")
        out = os.path.join(self.folder.name, "made.bin")
        status, _, err = run(path, "-o", out)
        self.assertEqual((status, err.count("is ignored, as the emulator does")), (0, 3))
        self.assertEqual(run("--check", path, "-o", out)[0], 0)
        self.assertEqual(run("--check", path)[0], 1)
        self.assertEqual(run(os.path.join(self.folder.name, "none.toml"))[0], 2)


if __name__ == "__main__":
    unittest.main()
