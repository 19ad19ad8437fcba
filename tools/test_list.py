#!/usr/bin/env python3
"""Tests of ./list, ./judge, ./linked and ./why. Run after the proofs: the proved programs are asked too, and the model is held to them."""

import os
import platform
import random
import re
import shutil
import stat
import subprocess
import sys
import tempfile
import unittest

sys.dont_write_bytecode = True
HERE = os.path.dirname(os.path.realpath(__file__))
ROOT = os.path.dirname(HERE)
sys.path.insert(0, HERE)

import sheetform  # noqa: E402
import sheetorder  # noqa: E402
from sheetlib import ABI_SHEET, CLASS_SHEET, Sheet  # noqa: E402
from testlib import run  # noqa: E402

EXAMPLES = os.path.join(ROOT, "examples")
DATA = os.path.join(ROOT, "crates", "list", "data")
PROVED = os.path.join(ROOT, "target", "bin", "list")
MODEL = os.path.join(ROOT, "oracle", "target", "release", "folder")


def script(name, *words, root=ROOT, **options):
    return run(os.path.join(root, name), *words, **options)


def contents(*path):
    with open(os.path.join(*path), encoding="utf-8") as file:
        return file.read()


def folders():
    """Every stored folder that has both sheets."""
    for top in (EXAMPLES, DATA):
        for name in sorted(os.listdir(top)):
            if all(os.path.exists(os.path.join(top, name, sheet)) for sheet in ("abi.bin", "classes.bin")):
                yield os.path.join(top, name)


def write(folder, classes, abi):
    for name, sheet in (("classes.bin", classes), ("abi.bin", abi)):
        with open(os.path.join(folder, name), "wb") as out:
            out.write(sheet.blocks())


def setUpModule():
    """The proved programs, which rt ci has proved: rt is asked whether they are of these sources."""
    card = os.path.join(EXAMPLES, "card")
    for command in (("list", "--prove", card), ("judge", "--prove", card), ("list", "--quick", card)):
        status, _, said = script(*command)
        if status:
            raise RuntimeError(said)


# ---- the longest kind of listing: every slot's name and descriptor has 255 bytes

METHODS = 512
CLASSES = 7  # tables of 514 words each: as many as the area holds
LONGEST = 255
STEP = 13  # from one name's start to the next
DESCRIPTOR = b"(" + b"I" * (LONGEST - 3) + b")V"
NAMES = b"".join(b"%012d_" % i for i in range(METHODS)) + b"x" * LONGEST


def class_sheet():
    """Class 1 declares all methods, and each other class is the child of the one before it, without methods of its own."""
    sheet = Sheet(CLASS_SHEET, text=DESCRIPTOR + NAMES + bytes(range(0x41, 0x41 + CLASSES)))
    for c in range(CLASSES):
        first = len(DESCRIPTOR) + len(NAMES) + c
        sheet.records["class"].append([first, 1, c, 1, 0, 0, METHODS if c == 0 else 0] + [0] * 11)
    for i in range(METHODS):
        sheet.records["method"].append([len(DESCRIPTOR) + i * STEP, LONGEST, 0, LONGEST, 1, 4096 + i])
    return sheet


def listing():
    slots = b"".join(b"%d %s %s %d 1\n" % (i, NAMES[i * STEP:i * STEP + LONGEST], DESCRIPTOR, 4096 + i) for i in range(METHODS))
    return b"".join(b"class %d %c words 0 slots %d\n" % (c + 1, 0x41 + c, METHODS) + slots for c in range(CLASSES)).decode()


class Listings(unittest.TestCase):
    def test_examples(self):
        """By the proved program and by the model: the stored listing, and status 1 where it refuses."""
        for folder in folders():
            proved = script("list", folder)
            model = script("list", "--quick", folder)
            self.assertEqual(proved[2], "", folder)
            self.assertIn("list: not proved: ", model[2])
            self.assertEqual(proved[:2], model[:2], folder)
            self.assertEqual(proved[0], int(" refused " in proved[1]), folder)
            if folder.startswith(EXAMPLES):
                self.assertEqual(proved[1], contents(folder, "listing.txt"), folder)

    def test_longest(self):
        with tempfile.TemporaryDirectory() as folder:
            write(folder, class_sheet(), Sheet(ABI_SHEET))
            proved, model = script("list", folder), script("list", "--quick", folder)
        self.assertGreater(len(listing()), 1_800_000)
        self.assertEqual((proved[0], proved[2], model[0]), (0, "", 0))
        self.assertTrue(proved[1] == listing() == model[1], "another text")

    @unittest.skipUnless(platform.machine() == "x86_64", "programs are for x86-64")
    def test_random_folders(self):
        """The model prints what the proved program prints, byte by byte."""
        pick = random.Random(20261)
        rows = set()
        with tempfile.TemporaryDirectory() as folder:
            for _ in range(300):
                write(folder, *random_sheets(pick))
                proved = run(PROVED, cwd=folder)
                self.assertEqual(run(MODEL, "list", folder)[1:], proved[1:])
                rows |= {line.split()[-1] for line in proved[1].splitlines() if " refused " in line}
        self.assertTrue({"6", "9", "11", "12"} <= rows, rows)

    @unittest.skipUnless(platform.machine() == "x86_64", "programs are for x86-64")
    def test_original(self):
        """Both print what the original Rust reads from its tables, declaring classes included, byte by byte; every bucket of the run is reached."""
        with tempfile.TemporaryDirectory() as top:
            status, said, err = script("oracle/listings", "1", "300", top)
            self.assertEqual(status, 0, said + err)
            self.assertEqual(len(os.listdir(top)), 300)
            for name in sorted(os.listdir(top)):
                folder = os.path.join(top, name)
                listed = contents(folder, "listing.txt")
                self.assertEqual(run(PROVED, cwd=folder)[1:], (listed, ""), name)
                self.assertEqual(run(MODEL, "list", folder), (int(" refused " in listed), listed, ""), name)


class Orders(unittest.TestCase):
    """Classes in any order."""

    def test_alphabetical(self):
        """As they are unpacked row 4 refuses them; `tools/sheet order` puts parents first, and they are listed."""
        example = os.path.join(EXAMPLES, "alphabetical")
        with tempfile.TemporaryDirectory() as folder:
            shutil.copy(os.path.join(example, "abi.bin"), folder)
            classes = shutil.copy(os.path.join(example, "unordered.bin"), os.path.join(folder, "classes.bin"))
            self.assertEqual(script("list", folder)[:2], (1, "classes refused 4\n"))
            self.assertEqual(run(os.path.join(HERE, "sheet"), "order", classes, "-o", classes)[0], 0)
            self.assertEqual(script("list", folder)[:2], (0, contents(example, "listing.txt")))

    def test_shuffled(self):
        """Shuffled and put in order, each class is listed with the words and slots, or refused by the row, of the set as it was."""
        pick = random.Random(64)
        moved, rows = 0, set()
        with tempfile.TemporaryDirectory() as folder:
            for _ in range(150):
                classes, abi = random_sheets(pick)
                numbers = list(range(1, len(classes.records["class"]) + 1))
                pick.shuffle(numbers)
                shuffled = sheetorder.renumbered(classes, numbers)
                ordered = sheetorder.in_order(shuffled)
                listed = []
                for one in (classes, ordered):
                    write(folder, one, abi)
                    listed.append(by_name(one, run(MODEL, "list", folder)[1]))
                self.assertEqual(*listed)
                moved += ordered.words() != classes.words()
                rows |= {lines[0] for lines in listed[0].values() if lines[0].startswith("refused")}
        self.assertGreater(moved, 50)
        self.assertGreater(len(rows), 2)


def by_name(sheet, listing):
    """What a listing says of each class, by the class's name; a slot's declaring class by its name, too."""
    def named(number):
        return sheet.part("class", int(number) - 1, "name").decode() if int(number) else "-"

    out = {}
    for line in listing.splitlines():
        *words, last = line.split()
        if line.startswith("class "):
            name = named(words[1])
            out[name] = [" ".join([*words[2:], last])]
        else:
            out[name].append(" ".join([*words, named(last)]))
    return out


def random_sheets(pick):
    """A class sheet and an ABI sheet over few names, so that slots meet."""
    names, methods, fields = "ABCDE", ["a ()V", "b ()V", "c (I)V"], ["x I", "y J"]
    abi, classes = ["sheet abi"], ["sheet classes"]
    for name in names:
        if pick.random() < 0.5:
            abi.append(f"abi class {name}" + pick.choice(("", " size 3")) + pick.choice(("", " words 2")))
            abi += [f"slot {method} {pick.randrange(4)}" for method in methods if pick.random() < 0.4]
            abi += [f"field {field} {pick.randrange(3)}" for field in fields if pick.random() < 0.3]
    for i, name in enumerate(names):
        kind = pick.choice(("", "", "", " generated", " array"))
        classes.append(f"class {name}" + (f" extends {pick.choice(names[:i])}" if i and pick.random() < 0.8 else "") + kind)
        classes.append(f"state {pick.choice((0, 3))}")
        if kind == " generated" and pick.random() < 0.6:
            classes.append("compiler " + " ".join(str(pick.choice((0, 4096, 9000 + k))) for k in range(pick.randrange(5))))
        if kind == " array":
            continue
        classes.append(f"words {pick.choice((0, 3, 3, 5))}")
        classes += [f"method {method} {pick.choice((4096, 4112, 8192, 0, 9001))} flags {pick.choice((1, 1, 1, 9))}"
                    for method in methods if pick.random() < 0.5]
        classes += [f"field {field} {k}" for k, field in enumerate(fields) if pick.random() < 0.5]
    return tuple(sheetform.parse("\n".join(lines)) for lines in (classes, abi))


# ---- what the scripts do around the programs, in a checkout of their own with a kit that proves nothing

KIT = """#!/bin/sh
case $1 in run) ;; *) exit 2 ;; esac
crate=$(basename "$PWD")
echo "fn words::one: proved"
echo "rt: words proved (1 s)"
echo "$crate" >>../../asked
[ ! -e ../../broken ] || { echo "the fact that fails" >&2; echo "rt: $crate NOT PROVED"; exit 1; }
mkdir -p out
cp ../../program "out/$crate"
"""
PROGRAM = """#!/bin/sh
cat "$PWD/listed"
"""


class Scripts(unittest.TestCase):
    def setUp(self):
        made = tempfile.TemporaryDirectory()
        self.addCleanup(made.cleanup)
        self.top = os.path.realpath(made.name)
        self.root = os.path.join(self.top, "checkout")
        self.folder = os.path.join(self.top, "my sheets")
        self.bin = os.path.join(self.top, "bin")
        for folder in (self.root, self.bin, *(os.path.join(self.root, *path) for path in (("crates", "list"), ("crates", "judge"), ("tools",)))):
            os.makedirs(folder)
        for name in ("list", "judge", "why", "VERSION", "tools/program.sh", "tools/folder", "tools/sheet", "tools/abitoml.py", "tools/sheetlib.py",
                     "tools/sheetform.py", "tools/sheetorder.py"):
            shutil.copy(os.path.join(ROOT, name), os.path.join(self.root, name))
        for name in ("oracle", "docs"):
            os.symlink(os.path.join(ROOT, name), os.path.join(self.root, name))
        shutil.copytree(os.path.join(EXAMPLES, "card"), self.folder)
        self.put("checkout/crates.txt", "words:\n")
        self.put("checkout/crates/lib.rt", "fn one() {}\n")
        self.put("checkout/program", PROGRAM, runs=True)
        self.put("my sheets/listed", contents(EXAMPLES, "card", "listing.txt"))
        self.put("bin/rt", KIT, runs=True)
        self.environment = {**os.environ, "PATH": self.bin + ":" + os.environ["PATH"]}

    def put(self, name, text, runs=False):
        path = os.path.join(self.top, name)
        with open(path, "w", encoding="utf-8") as file:
            file.write(text)
        if runs:
            os.chmod(path, os.stat(path).st_mode | stat.S_IXUSR | stat.S_IXGRP | stat.S_IXOTH)

    def without(self, *names):
        """A path that has the usual tools but not these."""
        bare = os.path.join(self.top, "bare")
        os.makedirs(bare)
        for name in ("sh", "readlink", "dirname", "cat", "find", "sort", "xargs", "sha256sum", "cut", "uname", "grep", "sed", "mkdir", "env",
                     "python3", "cargo", "rustc", "cc", "ld", "rt"):
            found = shutil.which(name, path=self.environment["PATH"])
            if found and name not in names:
                os.symlink(found, os.path.join(bare, name))
        return {**self.environment, "PATH": bare}

    def list(self, *words, **options):
        options = {"env": self.environment, "cwd": self.top, **options}
        return script("list", *words, root=self.root, **options)

    def asked(self):
        """How often rt was asked."""
        path = os.path.join(self.root, "asked")
        return len(contents(path).split()) if os.path.exists(path) else 0

    def test_fresh(self):
        """Nothing proved: the model's listing and a line that says so; rt is not asked."""
        status, out, err = self.list("my sheets")
        self.assertEqual((status, out), (0, contents(EXAMPLES, "card", "listing.txt")))
        self.assertRegex(err, r"^list: not proved: this listing is by the model .*; \./list --prove my sheets .*\(10 to 20 minutes, once\)\n$")
        self.assertEqual(self.asked(), 0)

    def test_proved_once(self):
        """--prove says how long and shows rt's lines; after it the program is run at once, and nothing is said."""
        status, out, err = self.list("--prove", "my sheets")
        self.assertEqual((status, out), (0, contents(EXAMPLES, "card", "listing.txt")))
        first, second = err.splitlines()
        self.assertRegex(first, "minutes on two cores, once")
        self.assertEqual(second, "rt: words proved (1 s)")
        self.put("my sheets/listed", "class 1 A words 0 slots 0\n")  # the program prints this, the model does not
        for words in (["my sheets"], ["--prove", "my sheets"]):
            self.assertEqual(self.list(*words), (0, "class 1 A words 0 slots 0\n", ""))
        self.assertEqual(self.asked(), 1)

    def test_never_an_older_program(self):
        """Sources that changed, or another file in the program's place: it is not run before rt is asked again."""
        self.list("--prove", "my sheets")
        self.put("my sheets/listed", "class 1 A words 0 slots 0\n")
        self.put("checkout/crates/lib.rt", "fn two() {}\n")
        os.utime(os.path.join(self.root, "crates", "lib.rt"), (0, 0))  # older than the program by its date
        status, out, err = self.list("my sheets")
        self.assertEqual((status, out), (0, contents(EXAMPLES, "card", "listing.txt")))
        self.assertIn("the sources have changed since they were proved", err)
        self.assertEqual(self.list("--prove", "my sheets")[:2], (0, "class 1 A words 0 slots 0\n"))
        self.assertEqual(self.asked(), 2)
        self.put("checkout/target/bin/list", "#!/bin/sh\necho forged\n", runs=True)
        self.assertNotIn("forged", self.list("my sheets")[1])

    def test_not_proved(self):
        self.put("checkout/broken", "")
        status, out, err = self.list("--prove", "my sheets")
        self.assertEqual((status, out), (2, ""))
        for told in ("rt: list NOT PROVED\n", "the fact that fails\n", "list: list is not proved, so it is not run; target/proved/list.log has all"):
            self.assertEqual(err.count(told), 1, told)

    def test_missing(self):
        """A folder or a sheet that is missing is named before anything is proved."""
        for sheet, told in (("abi", "my sheets has no abi.bin (tools/sheet make my sheets/abi.txt makes it)"), ("classes", "my sheets has no classes.bin")):
            path = os.path.join(self.folder, sheet + ".bin")
            os.rename(path, path + "_")
            for words in (["--prove"], ["--quick"], []):
                status, out, err = self.list(*words, "my sheets")
                self.assertEqual((status, out), (3, ""))
                self.assertIn("list: " + told, err)
            os.mkdir(path)
            self.assertEqual(self.list("my sheets")[::2], (3, f"list: my sheets/{sheet}.bin cannot be read\n"))
            os.rmdir(path)
            os.rename(path + "_", path)
        self.assertEqual(self.list("--prove", "gone")[::2], (3, "list: gone: there is no such folder\n"))
        self.assertEqual(self.asked(), 0)

    def test_refused(self):
        """A refusal has status 1, by either program; a class that is named so has not."""
        refused = os.path.join(EXAMPLES, "refused")
        self.assertEqual(self.list(refused)[0], 1)
        for told, status in (("class 3 refused 11\n", 1), ("abi refused 3\n", 1), ("classes refused 4\n", 1),
                             ("class 1 refused words 0 slots 1\n0 refused ()V 11\n", 0)):
            self.put("my sheets/listed", told)
            self.assertEqual(self.list("--prove", "my sheets")[:2], (status, told))

    def test_unwritable(self):
        self.list("--prove", "my sheets")
        for words in (["my sheets"], ["--quick", "my sheets"]):
            with open("/dev/full", "w", encoding="utf-8") as full:
                done = subprocess.run([os.path.join(self.root, "list"), *words], stdout=full, stderr=subprocess.PIPE, env=self.environment,
                                      cwd=self.top, text=True, check=False)
            self.assertEqual(done.returncode, 4)
            self.assertIn("could not be written", done.stderr)

    def test_words(self):
        """--help, --version, and words that mean nothing."""
        self.assertEqual(script("why", "--version"), (0, f"why {contents(ROOT, 'VERSION')}", ""))
        self.assertEqual(script("linked", "--version"), (0, f"linked {contents(ROOT, 'VERSION')}", ""))
        for name in ("list", "judge"):
            status, out, err = script(name, "--help", root=self.root)
            self.assertEqual((status, err), (0, ""))
            self.assertTrue(out.startswith(f"usage: ./{name} "))
            self.assertEqual(script(name, "--version", root=self.root), (0, f"{name} {contents(ROOT, 'VERSION')}", ""))
            for words in ([], [""], ["a", "b"], ["--fast", "a"], ["--prove", "--quick", "a"]):
                status, out, err = script(name, *words, root=self.root)
                self.assertEqual((status, out), (2, ""), words)
                self.assertTrue(err.startswith((f"{name}: ", "usage: ")), words)

    def test_elsewhere(self):
        """A link to the script, an exported CDPATH, another working folder."""
        link = os.path.join(self.bin, "cards")
        os.symlink(os.path.join(self.root, "list"), link)
        os.makedirs(os.path.join(self.bin, "my sheets"))
        for environment in (self.environment, {**self.environment, "CDPATH": self.bin}):
            for words in (["--quick"], ["--prove"], []):
                self.assertEqual(run("cards", *words, "my sheets", env=environment, cwd=self.top)[:2], (0, contents(EXAMPLES, "card", "listing.txt")))

    def test_without_a_tool(self):
        """No rt, or no cargo, on the path: a sentence says what to do; what the other can do is done."""
        bare = self.without("rt", "cargo")
        self.assertRegex(self.list("--prove", "my sheets", env=bare)[2], r"^list: no rt on the path: .*PATH.*\n$")
        self.assertRegex(self.list("my sheets", env=bare)[2], r"^list: no cargo on the path: .*\n$")
        self.assertEqual((self.list("--prove", "my sheets", env=bare)[0], self.list("my sheets", env=bare)[0]), (2, 2))
        self.list("--prove", "my sheets")
        self.assertEqual(self.list("my sheets", env=bare)[::2], (0, ""))

    def test_read_only(self):
        """Where target/ cannot be made, the model is built in the user's cache, and --prove says to copy the checkout."""
        self.put("checkout/target", "")  # a file: neither root nor anybody else makes a folder of it
        os.remove(os.path.join(self.root, "oracle"))
        shutil.copytree(os.path.join(ROOT, "oracle"), os.path.join(self.root, "oracle"), ignore=shutil.ignore_patterns("target"))
        self.put("checkout/oracle/target", "")
        environment = {**self.environment, "XDG_CACHE_HOME": os.path.join(self.top, "cache")}
        self.assertEqual(self.list("my sheets", env=environment)[:2], (0, contents(EXAMPLES, "card", "listing.txt")))
        self.assertTrue(os.path.exists(os.path.join(self.top, "cache", "dautzeki", "release", "folder")))
        status, _, err = self.list("--prove", "my sheets", env=environment)
        self.assertEqual((status, err.splitlines()[-1].split(":")[-1]), (2, " copy the checkout (cp -r) and prove the copy"))

    def judge(self, *words):
        return script("judge", *words, root=self.root, env=self.environment, cwd=self.top)

    def test_judge(self):
        """The program's third number is left out; a refused sheet is told by its record; the last line points to ./why."""
        self.put("checkout/program", """#!/bin/sh
case $1 in */abi.bin) echo "$1 accepted 127 896" ;; *) cat "$(dirname "$1")/told" ;; esac
""", runs=True)
        self.put("my sheets/told", "my sheets/classes.bin accepted 254 17\n")
        status, out, err = self.judge("--prove", "my sheets")
        self.assertEqual((status, out), (0, "my sheets/abi.bin: accepted, 127 words\nmy sheets/classes.bin: accepted, 254 words\n"))
        self.assertTrue(err.endswith("judge: both can be read; whether the classes link: ./why my sheets\n"))
        shutil.copy(os.path.join(EXAMPLES, "refused_sheet", "classes.bin"), self.folder)
        self.put("my sheets/told", "my sheets/classes.bin refused 4 17\n")
        status, out, err = self.judge("my sheets")
        self.assertEqual((status, err), (1, ""))
        self.assertIn("my sheets/classes.bin: refused 4\n  my sheets/classes.bin: refused 4: class 2 `Card`: class 1 has the same name", out)
        status, out, err = self.judge("--quick", "my sheets")
        self.assertEqual(status, 1)
        self.assertIn("not proved", err)
        self.assertIn("refused 4: class 2 `Card`", out)


class Judged(unittest.TestCase):
    def test_examples(self):
        """The proved reader on every example: as tools/sheet has it."""
        for folder in folders():
            status, out, _ = script("judge", folder)
            bad = any(script("list", "--quick", folder)[1].startswith(word) for word in ("abi refused", "classes refused"))
            self.assertEqual((status, " refused " in out), (int(bad), bad), folder)


class Linked(unittest.TestCase):
    def test_examples(self):
        """./linked, by the library, prints what is stored; its class lines are the listing's."""
        for folder in folders():
            if not folder.startswith(EXAMPLES):
                continue
            status, out, err = script("linked", folder)
            self.assertEqual((out, status), (contents(folder, "linked.txt"), int(" refused " in out)), folder + err)
            heads = [line.split(" place ")[0] for line in out.splitlines() if not line.startswith(" ")]
            self.assertEqual(heads, [line for line in contents(folder, "listing.txt").splitlines() if not line[0].isdigit()], folder)
        self.assertEqual(script("linked", "gone")[::2], (3, "linked: gone: there is no such folder\n"))
        self.assertEqual((script("linked")[0], script("linked", "a", "b")[0], script("linked", "--fast")[0]), (2, 2, 2))
        self.assertEqual(script("linked", "--help")[::2], (0, ""))


class Why(unittest.TestCase):
    def test_rows(self):
        """Each refusal of each stored listing is explained, by its own row."""
        for folder in folders():
            status, out, err = script("why", folder)
            listed = [line for line in script("list", folder)[1].splitlines() if " refused " in line]
            lines = out.splitlines()
            reasons = [(line, lines[i + 1]) for i, line in enumerate(lines) if " refused " in line and not line.startswith(" ") and " interface " not in line]
            self.assertEqual([line for line, _ in reasons], listed, folder)
            self.assertTrue(all(reason.startswith("  ") and ": " in reason for _, reason in reasons), folder)
            self.assertEqual((status, err), (int(" refused " in out), ""), folder)

    def test_sentences(self):
        """The desk's sentences, with the names."""
        out = script("why", os.path.join(EXAMPLES, "refused"))[1]
        self.assertIn("class 3 refused 11\n  class 3 Child: `foo()V` is fixed at 3 by ABI class Base; it is inherited at slot 5, from class 2 Made\n", out)
        self.assertIn("class 4 refused 6\n  class 4 Grandchild: its parent class 3 Child is not linked, as it is refused by 11\n", out)
        with tempfile.TemporaryDirectory() as folder:
            write(folder, sheetform.parse("class P\n method a ()V 1\nclass Q extends P\n method c ()V 2\n"
                                          "class I\n flags 0x200\n method run ()V 7 flags 0x401\nclass D\n implements I\n"),
                  sheetform.parse("abi class P\n slot a ()V 0\nabi class Q\n slot c ()V 0\n"))
            status, out, _ = script("why", folder)
        self.assertEqual(status, 1)
        self.assertIn("class 2 refused 12\n  class 2 Q: `c()V` is fixed at 0 by ABI class Q; slot 0 holds `a()V` of class 1 P\n  To mend: ", out)
        self.assertIn("class 4 interface 3 refused 16\n  class 4 D: neither it nor an ancestor implements `run()V` of class 3 I\n  To mend: ", out)
        self.assertTrue(out.endswith("\n3 of 4 classes link, 0 of 1 interface tables are built\n"))

    def test_missing(self):
        """Of each class its slots, how many are missing, and their names: by the method that took the slot, by the parent's slot, by the ABI."""
        for folder in folders():
            status, out, err = script("why", "--missing", folder)
            listed = script("list", "--quick", folder)[1]
            if not listed.startswith(("abi refused", "classes refused")):
                heads = [re.sub(r" words \d+ (slots \d+)$", r" \1", line) for line in listed.splitlines() if not line[0].isdigit()]
                self.assertEqual([line.split(" missing ")[0] for line in out.splitlines() if not line.startswith(" ")], heads, folder)
            counts = [int(line.split()[-1]) for line in out.splitlines() if " missing " in line]
            self.assertEqual(sum(counts), sum(line.startswith("  ") and line[2].isdigit() for line in out.splitlines()), folder)
            self.assertEqual((status, err), (int(" refused " in out), ""), folder)
            if folder.startswith(EXAMPLES):
                linked = contents(folder, "linked.txt")
                self.assertEqual([count for count in counts if count], [int(number) for number in re.findall(r"^  missing (\d+) of", linked, re.M)], folder)
        with tempfile.TemporaryDirectory() as folder:
            write(folder, sheetform.parse("class P\n method open ()V 0\n method close ()V 5\nclass Q extends P\n method mark ()V 0\n"),
                  sheetform.parse("abi class P\n slot lock ()V 3\n"))
            self.assertEqual(script("why", "--missing", folder),
                             (0, "class 1 P slots 6 missing 5\n  0 - -\n  1 - -\n  2 - -\n  3 lock ()V\n  4 open ()V\n"
                                 "class 2 Q slots 7 missing 6\n  0 - -\n  1 - -\n  2 - -\n  3 lock ()V\n  4 open ()V\n  6 mark ()V\n", ""))

    def test_statuses(self):
        self.assertEqual(script("why", "gone")[::2], (3, "why: gone: there is no such folder\n"))
        self.assertEqual(script("why", HERE)[::2], (3, f"why: {HERE} has no abi.bin and no classes.bin\n"))
        self.assertEqual(script("why")[0], 2)


if __name__ == "__main__":
    unittest.main()
