#!/usr/bin/env python3
"""Tests of the library as others meet it: the header's numbers and sentences; an installed library, used outside the tree; the Rust crate's
build, its documentation and its emulator example. Run after the proofs, or with LGT_LINKER_FOLDER."""

import contextlib
import io
import os
import random
import re
import shlex
import shutil
import subprocess
import sys
import tempfile
import unittest
from importlib import machinery, util
from unittest import mock

sys.dont_write_bytecode = True
HERE = os.path.dirname(os.path.realpath(__file__))
ROOT = os.path.dirname(HERE)
sys.path.insert(0, HERE)

import sheetform  # noqa: E402
from sheetlib import ABI_SHEET, BLOCK_BYTES, BLOCK_WORDS, CLASS_SHEET  # noqa: E402
from testlib import run  # noqa: E402

STRING = r'"((?:[^"\\]|\\.)*)"'


def contents(*path):
    with open(os.path.join(ROOT, *path), encoding="utf-8") as file:
        return file.read()


class Header(unittest.TestCase):
    def setUp(self):
        self.text = contents("include", "lgt_linker.h")
        rows = re.findall(r"^#define (LGT_\w+) (0x[0-9A-Fa-f]+|[0-9]+)u?(?: /\*.*\*/)?$", self.text, re.M)
        self.numbers = {name: int(value, 0) for name, value in rows}

    def test_sentences(self):
        """Each refusal has a name and the sentence of docs/REFUSALS.md."""
        cases = re.findall(rf"    case (LGT_REFUSED_\w+):\n        return ((?:\s*{STRING})+);", self.text)
        told = {self.numbers[name]: "".join(re.findall(STRING, strings)) for name, strings, _ in cases}
        table = re.findall(r"^\| (\d+) \| [^|]* \| ([^|]*) \|$", contents("docs", "REFUSALS.md"), re.M)
        self.assertEqual(told, {int(number): sentence for number, sentence in table})
        named = [value for name, value in self.numbers.items() if name.startswith("LGT_REFUSED_")]
        self.assertEqual(sorted(named), sorted(told))

    # The sections of each layout: the prefix of their record's words in C, and their name among the counts and limits.
    SECTIONS = (
        (CLASS_SHEET, "", "CLASS", (("CLASS", "CLASSES"), ("METHOD", "METHODS"), ("FIELD", "FIELDS"),
                                    (None, "INTERFACE_WORDS"), (None, "COMPILER_WORDS"))),
        (ABI_SHEET, "ABI_", "ABI", (("ABI_CLASS", "CLASSES"), ("ABI_ROW", "SLOTS"), ("ABI_ROW", "FIELDS"))))
    SHORTER = {"access flags": "flags", "first interface word": "first interface"}

    def test_layout(self):
        """Each count, each section's limit and each word of each record is sheetlib's."""
        numbers = self.numbers
        for layout, abi, kind, names in self.SECTIONS:
            for i, (section, (prefix, plural)) in enumerate(zip(layout.sections, names, strict=True)):
                self.assertEqual((numbers[f"LGT_{abi}SET_{plural}"], numbers[f"LGT_MOST_{abi}{plural}"]), (i, section.limit))
                if prefix:
                    self.record(prefix, section)
            self.assertEqual(numbers[f"LGT_{abi}SET_TEXT_BYTES"], len(layout.sections))
            self.assertEqual(numbers[f"LGT_{abi}SET_COUNTS"], len(layout.sections) + 1)
            self.assertEqual(numbers[f"LGT_MOST_{kind}_BLOCKS"], layout.most_blocks)
            self.assertEqual(numbers[f"LGT_{kind}_WORDS"], layout.most_words())
            if layout is CLASS_SHEET:
                self.assertEqual(numbers["LGT_CLASS_BYTES"], layout.most_blocks * BLOCK_BYTES)
            self.assertEqual(numbers["LGT_MOST_TEXT_BYTES"], layout.text_limit)

    def record(self, prefix, section):
        words = [self.SHORTER.get(word, word).upper().replace(" ", "_") for word in section.words]
        expected = {f"LGT_{prefix}_{word}": at for at, word in enumerate(words)} | {f"LGT_{prefix}_RECORD": len(words)}
        found = {name: value for name, value in self.numbers.items() if re.match(rf"LGT_{prefix}_(?!(WORDS|BYTES)$)", name)}
        self.assertEqual(found, expected)

    def test_limits(self):
        def most(layout, section, word):
            return dict(layout.section(section).most)[word]
        for name, value in (
                ("BLOCK_BYTES", BLOCK_BYTES), ("BLOCK_WORDS", BLOCK_WORDS), ("MOST_SLOTS", most(CLASS_SHEET, "class", "compiler slots")),
                ("MOST_INSTANCE_WORDS", most(CLASS_SHEET, "class", "instance words")),
                ("MOST_ABI_INDEX", most(ABI_SHEET, "slot", "index")), ("MOST_ABI_FIELD_INDEX", most(ABI_SHEET, "field", "index")),
                ("MOST_ABI_INSTANCE_WORDS", most(ABI_SHEET, "class", "instance words plus 1") - 1),
                ("MISSING_CLASS_WORDS", 1 + most(CLASS_SHEET, "class", "compiler slots") // 32),
                ("MISSING_WORDS", self.numbers["LGT_MISSING_CLASS_WORDS"] * CLASS_SHEET.section("class").limit),
                ("NUMBERS", CLASS_SHEET.section("method").limit + ABI_SHEET.section("slot").limit)):
            self.assertEqual(self.numbers["LGT_" + name], value, name)

    def test_kinds(self):
        """Each kind has the name of the text form and its number, and the last is row 4's limit."""
        kinds = {name.removeprefix("LGT_KIND_").lower(): value for name, value in self.numbers.items() if name.startswith("LGT_KIND_")}
        self.assertEqual(kinds, {kind: number for number, kind in enumerate(sheetform.KINDS)})
        self.assertEqual(max(kinds.values()), dict(CLASS_SHEET.section("class").most)["kind"])

    def test_order(self):
        """The refusals stand in the order in which they are judged: 26 between 7 and 8, 16 between 13 and 14."""
        named = [value for name, value in self.numbers.items() if name.startswith("LGT_REFUSED_")]
        self.assertEqual(named[:16], [1, 2, 3, 4, 5, 6, 7, 26, 8, 9, 10, 11, 12, 13, 16, 14])

    def test_stack(self):
        """The stack that is said to be measured is the most of docs/PERFORMANCE.md's table, and the gate holds each call to the header's number."""
        table = re.search(r"^### Bytes of stack\n\n(.*?)\n\n", contents("docs", "PERFORMANCE.md"), re.M | re.S)[1]
        most = max(int(cell.replace(",", "")) for cell in re.findall(r"(?<=\| )[\d,]+(?= \|)", table))
        for page in ("include/lgt_linker.h", "docs/INTEGRATION.md", "bindings/rust/README.md", "bindings/rust/src/lib.rs"):
            self.assertEqual(re.findall(r"(\d+,\d{3})(?:\n \*)? bytes(?: were| as) measured", contents(page)), [f"{most:,}"], page)
        limit = self.numbers["LGT_STACK_BYTES"]
        self.assertGreater(limit, most)
        self.assertIn(f"bench/program stack 1 20000 {limit}\n", contents(".ci", "run"))


PROGRAM = r"""
#include <inttypes.h>
#include <stdio.h>
#include <string.h>
#include <lgt_linker.h>

int main(void)
{
    const char *descriptor = "(IJ)V";
    uint64_t words[1];
    uint32_t refusal = lgt_argument_words((const uint8_t *)descriptor, strlen(descriptor), LGT_FLAG_STATIC, words);

    printf("%s %" PRIu32 " %" PRIu64 "\n", LGT_LINKER_VERSION, refusal, words[0]);
    refusal = lgt_link(NULL, 0, NULL, 0, NULL, 0, 1, NULL, 0, NULL, 0, NULL, 0, (uint32_t[2]){0});
    printf("%s\n", lgt_refusal_text(refusal));
    return refusal != LGT_REFUSED_SHEET_COUNTS;
}
"""


class Install(unittest.TestCase):
    def setUp(self):
        self.folder = tempfile.TemporaryDirectory()
        self.addCleanup(self.folder.cleanup)
        self.prefix = os.path.join(self.folder.name, "usr")

    def flags(self, *options):
        """What pkg-config says of lgt_linker; where it is not installed, what the file says."""
        folder = os.path.join(self.prefix, "lib", "pkgconfig")
        if shutil.which("pkg-config"):
            environment = dict(os.environ, PKG_CONFIG_PATH=folder)
            status, out, err = run("pkg-config", *options, "lgt_linker", env=environment)
            self.assertEqual(status, 0, err)
            return out.strip()
        print("test_library: no pkg-config here, so lgt_linker.pc is read by the test itself", file=sys.stderr)
        with open(os.path.join(folder, "lgt_linker.pc"), encoding="utf-8") as file:
            text = file.read()
        variables, fields = dict(re.findall(r"^(\w+)=(.*)$", text, re.M)), dict(re.findall(r"^(\w+): (.*)$", text, re.M))
        keys = {"--cflags": "Cflags", "--libs": "Libs", "--modversion": "Version"}
        said = " ".join(fields[keys[option]] for option in options)
        while "${" in said:
            said = re.sub(r"\$\{(\w+)\}", lambda name: variables[name[1]], said)
        return said

    def test_program(self):
        """A C program that knows only pkg-config, in a folder of its own."""
        status, _, err = run("make", "-s", "-C", ROOT, "install", "PREFIX=" + self.prefix)
        self.assertEqual(status, 0, err)
        self.assertIn(f"installed lgt_linker {contents('VERSION').strip()} under {self.prefix}\n", err)
        self.assertEqual(self.flags("--modversion"), contents("VERSION").strip())
        with open(os.path.join(self.folder.name, "program.c"), "w", encoding="utf-8") as file:
            file.write(PROGRAM)
        command = ["cc", "-std=c99", "-Wall", "-Wextra", "-Werror", "-o", "program", "program.c", *shlex.split(self.flags("--cflags", "--libs"))]
        self.assertEqual(run(*command, cwd=self.folder.name), (0, "", ""))
        status, out, _ = run("./program", cwd=self.folder.name)
        sentence = re.search(r"^\| 3 \| [^|]* \| ([^|]*) \|$", contents("docs", "REFUSALS.md"), re.M)[1]
        self.assertEqual((status, out), (0, f"{contents('VERSION').strip()} 0 3\n{sentence}\n"))

    def test_stage(self):
        """DESTDIR comes before PREFIX in the places and not in the file."""
        status, _, err = run(os.path.join(HERE, "install"), "/opt/x", env=dict(os.environ, DESTDIR=self.prefix))
        self.assertEqual(status, 0, err)
        found = sorted(os.path.relpath(os.path.join(top, name), self.prefix) for top, _, names in os.walk(self.prefix) for name in names)
        self.assertEqual(found, ["opt/x/include/lgt_linker.h", "opt/x/lib/liblgt_linker.a", "opt/x/lib/pkgconfig/lgt_linker.pc"])
        with open(os.path.join(self.prefix, found[-1]), encoding="utf-8") as file:
            self.assertEqual(file.readline(), "prefix=/opt/x\n")

    def test_commands(self):
        """Wrong words: a sentence and status 2."""
        file = os.path.join(self.folder.name, "file")
        with open(file, "w", encoding="utf-8"):
            pass
        for words, said in (((), "usage: "), (("here",), "absolute path"), (("/a b",), "has a blank"), (("/a", "/b"), "one PREFIX"),
                            (("--no",), "no option --no"), ((file + "/usr",), "cannot be written")):
            status, out, err = run(os.path.join(HERE, "install"), *words)
            self.assertEqual((status, out), (2, ""), words)
            self.assertIn(said, err)
        self.assertEqual(run(os.path.join(HERE, "install"), "--version"), (0, f"tools/install {contents('VERSION')}", ""))
        status, _, err = run(os.path.join(HERE, "install"), self.prefix, env=dict(os.environ, LGT_LINKER_FOLDER=self.folder.name))
        self.assertEqual((status, "has no liblgt_linker.a" in err), (2, True))


CRATE = os.path.join(ROOT, "bindings", "rust")


def archive():
    """The proved library."""
    folder = os.environ.get("LGT_LINKER_FOLDER")
    if not folder:
        subprocess.run([os.path.join(HERE, "library")], check=True)
        folder = os.path.join(ROOT, "target", "staticlib")
    return os.path.join(folder, "liblgt_linker.a")


def tool():
    """The command tools/sheet as a function of its words: status, standard output and standard error, without a process of its own."""
    loader = machinery.SourceFileLoader("sheet", os.path.join(HERE, "sheet"))
    module = util.module_from_spec(util.spec_from_loader("sheet", loader))
    loader.exec_module(module)

    def call(*words):
        out, err = io.StringIO(), io.StringIO()
        with mock.patch.object(sys, "argv", ["sheet", *words]), contextlib.redirect_stdout(out), contextlib.redirect_stderr(err):
            status = module.main()
        return status, out.getvalue(), err.getvalue()
    return call


class Ordered(unittest.TestCase):
    def sheet(self, pick):
        """A class sheet of up to eight classes, each under any other, none or itself, now and then with a word changed."""
        names = "ABCDEFGH"[:pick.randrange(9)]
        lines = ["sheet classes"]
        for i, name in enumerate(names):
            parents = names[:i] if pick.random() < 0.8 else names
            lines.append(f"class {name}" + (f" extends {pick.choice(parents)}" if parents and pick.random() < 0.7 else ""))
            lines += [f"implements {pick.choice(names)}"] * pick.randrange(2) + [f"method m{name} ()V {i}"] * pick.randrange(2)
        sheet = sheetform.parse("\n".join(lines))
        pick.shuffle(numbers := list(range(1, len(names) + 1)))
        for record in sheet.records["class"]:
            record[2] = numbers[record[2] - 1] if record[2] else 0
        sheet.records["class"] = [sheet.records["class"][numbers.index(i + 1)] for i in range(len(names))]
        words = [(section, record) for section in ("class", "method", "interface word") for record in sheet.records[section]]
        if words and pick.random() < 0.3:
            section, record = pick.choice(words)
            record[pick.randrange(len(record))] = pick.choice((0, 1, len(names), len(names) + 1, 70000))
        return sheet.blocks()

    def test_tool(self):
        """`tools/sheet order`, by rules of its own, does what the library does: the same bytes and old numbers, or the same refusal."""
        pick, rows, sheet = random.Random(1905), {}, tool()
        with tempfile.TemporaryDirectory() as folder:
            program, given, made, other = (os.path.join(folder, name) for name in ("order", "given.bin", "made.bin", "other.bin"))
            command = ["cc", "-std=c99", "-I" + os.path.join(ROOT, "include"), "-o", program, os.path.join(ROOT, "examples", "c", "order.c"), archive()]
            self.assertEqual(run(*command), (0, "", ""))
            for _ in range(300):
                for path in (made, other):
                    with open(path, "wb"):
                        pass
                with open(given, "wb") as file:
                    file.write(self.sheet(pick))
                by_tool, by_library = sheet("order", given, "-o", made), run(program, given, other)
                if by_library[0] == 0:
                    self.assertEqual(by_tool, by_library)
                found = [re.search(r"refused (\d+)", out) for _, out, _ in (by_tool, by_library)]
                row, also = (int(one[1]) if one else 0 for one in found)
                self.assertEqual((by_tool[0], row), (by_library[0], also))
                with open(made, "rb") as one, open(other, "rb") as two:
                    self.assertEqual(one.read(), two.read())
                rows[row] = rows.get(row, 0) + 1
        self.assertEqual(sorted(rows), [0, 3, 4, 5, 19])
        self.assertGreater(rows[0], 100)


@unittest.skipUnless(shutil.which("cargo"), "no cargo here")
class Bindings(unittest.TestCase):
    @classmethod
    def setUpClass(cls):
        cls.archive = archive()

    def cargo(self, *words, archive=None, **more):
        environment = dict(os.environ, LGT_LINKER_ARCHIVE=archive or self.archive, **more)
        return run("cargo", *words, cwd=CRATE, env=environment)

    def test_functions(self):
        """The archive has the functions that the header declares, the crate declares the same, and each has a safe function of its name."""
        declared = sorted(re.findall(r"^uint32_t (lgt_\w+)\(", contents("include", "lgt_linker.h"), re.M))
        self.assertGreaterEqual(len(declared), 8)
        self.assertEqual(sorted(re.findall(r"pub fn (lgt_\w+)\(", contents(CRATE, "src", "sys.rs"))), declared)
        safe = re.findall(r"^pub fn (\w+)\(", contents(CRATE, "src", "calls.rs"), re.M)
        self.assertEqual(sorted("lgt_" + name for name in safe), declared)
        if shutil.which("nm"):
            status, out, err = run("nm", "-g", "--defined-only", self.archive)
            self.assertEqual(status, 0, err)
            self.assertEqual(sorted(re.findall(r" T (lgt_\w+)$", out, re.M)), declared)

    def test_emulator(self):
        """The emulator example, whose own assertions hold each call to the method that it must run, prints what is stored."""
        stored = contents(CRATE, "examples", "emulator.expected")
        self.assertEqual(self.cargo("run", "--offline", "--quiet", "--example", "emulator"), (0, stored, ""))
        quoted = re.search(r"prints, among the rest,\n\n((?:    .*\n)+)", contents("docs", "INTEGRATION.md"))[1]
        self.assertIn(re.sub(r"^    ", "", quoted, flags=re.M), stored)

    def test_references(self):
        """The example names reference words as the original does, and says what to mend after a refusal."""
        named = ("run", "--offline", "--quiet", "--example", "references", "--")
        self.assertEqual(self.cargo(*named, "8", "A1"), (0, "".join(f"<reference-word-{word}>\n" for word in (0, 2, 7)), ""))
        self.assertEqual(self.cargo(*named, "7", "a1ff"), (0, "<reference-word-0>\n<reference-word-2>\n", ""))
        self.assertEqual(self.cargo(*named, "0", ""), (0, "", ""))
        self.assertIn('format!("<reference-word-{}>", self.word_index)', contents(
            "oracle", "original", "wie-lgt", "src", "runtime", "java", "jvm_support", "field.rs"))
        status, out, err = self.cargo(*named, "9", "A1")
        self.assertEqual((status, out), (1, ""))
        self.assertIn("refusal 24", err)
        for words in ((), ("8",), ("8", "A"), ("8", "G1"), ("-1", "A1"), ("8", "A1", "A1")):
            self.assertEqual(self.cargo(*named, *words)[:2], (2, ""))

    def test_archive(self):
        """LGT_LINKER_ARCHIVE links the very file that it names; without one documentation is made, and a build says what to do."""
        with tempfile.TemporaryDirectory() as folder:
            renamed = os.path.join(folder, "other name.o-archive")
            shutil.copy(self.archive, renamed)
            built = ("build", "--offline", "--quiet", "--example", "linked")
            self.assertEqual(self.cargo(*built, archive=renamed, CARGO_TARGET_DIR=os.path.join(folder, "one")), (0, "", ""))
            gone, target = os.path.join(folder, "gone.a"), os.path.join(folder, "two")
            status, _, err = self.cargo("doc", "--offline", "--no-deps", archive=gone, CARGO_TARGET_DIR=target, RUSTDOCFLAGS="-D warnings")
            self.assertEqual(status, 0, err)
            self.assertTrue(os.path.exists(os.path.join(target, "doc", "lgt_linker", "index.html")))
            status, _, err = self.cargo("build", "--offline", archive=gone, CARGO_TARGET_DIR=target)
            self.assertNotEqual(status, 0)
            self.assertIn(f"no archive at {gone}", err)
            self.assertIn("LGT_LINKER_ARCHIVE=/path/to/liblgt_linker.a", err)

    def test_targets(self):
        """The build script says in a sentence that there is no archive for another target."""
        with tempfile.TemporaryDirectory() as folder:
            script = os.path.join(folder, "script")
            environment = dict(os.environ, CARGO_MANIFEST_DIR=CRATE, OUT_DIR=folder, LGT_LINKER_ARCHIVE=self.archive)
            self.assertEqual(run("rustc", "--edition", "2024", "-o", script, "build.rs", cwd=CRATE, env=environment)[0], 0)
            for arch, system, expected in (("x86_64", "linux", 0), ("aarch64", "linux", 1), ("x86_64", "windows", 1), ("arm", "none", 1)):
                status, out, err = run(script, env=environment | {"CARGO_CFG_TARGET_ARCH": arch, "CARGO_CFG_TARGET_OS": system})
                self.assertEqual((status, "rustc-link-lib=static=lgt_linker" in out), (expected, not expected))
                self.assertEqual(f"compiled for x86-64 Linux, and this target is {arch} {system}" in err, bool(expected))

    def test_documented(self):
        """Every public function has an example, and one that answers a Result says its errors."""
        functions = 0
        for name in sorted(os.listdir(os.path.join(CRATE, "src"))):
            lines = contents(CRATE, "src", name).splitlines()
            for i, line in enumerate(lines):
                if not re.match(r"\s*pub (const )?fn ", line) or name == "sys.rs":
                    continue
                comment = []
                for above in reversed(lines[:i]):
                    if not re.match(r"\s*(///|#\[)", above):
                        break
                    comment.append(above)
                signature = re.match(r"[^{]*", "\n".join(lines[i:]))[0]
                functions += 1
                self.assertGreaterEqual(sum("```" in one for one in comment), 2, f"{name}: {line}")
                self.assertEqual("-> Result<" in signature, any("# Errors" in one for one in comment), f"{name}: {line}")
        self.assertGreater(functions, 60)


if __name__ == "__main__":
    unittest.main()
