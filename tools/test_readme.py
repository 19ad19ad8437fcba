#!/usr/bin/env python3
"""Every command of every README runs; links lead somewhere; what the pages quote is what is printed. Run after the proofs."""

import glob
import os
import re
import subprocess
import sys
import tempfile
import unittest

sys.dont_write_bytecode = True
ROOT = os.path.dirname(os.path.dirname(os.path.realpath(__file__)))

# Pages whose commands are run: code blocks and the cells of tables.
PAGES = ["README.md", "CONTRIBUTING.md", "docs/TRUST.md", "docs/INTEGRATION.md",
         *sorted(os.path.relpath(path, ROOT) for path in glob.glob(os.path.join(ROOT, "*", "**", "README.md"), recursive=True)
                 if "/target/" not in path)]
COMMAND = r"(?:\./|tools/|oracle/|bench/|examples/|bash |rt |cargo |make |python3 )"

# The gate has these on a line of its own, which begins so.
IN_THE_GATE = {
    "oracle/run SEED COUNT": "oracle/run 1 ", "oracle/run 1 1000000": "oracle/run 1 ", "oracle/run --model SEED COUNT": "oracle/run --model 1 ",
    "oracle/run --before SEED COUNT": "oracle/run --before 1 ", "oracle/run --kept SEED COUNT": "oracle/run --kept 1 ",
    "oracle/faults SEED COUNT": "oracle/faults 1 ", "oracle/corpus SEED N FILE": "oracle/corpus 1 280 ",
    "oracle/corpus packages SEED N FILE": "oracle/corpus packages 1 100 ",
    "oracle/corpus telling FILE": "oracle/corpus telling ", "oracle/corpus answers SEED N FILE": "oracle/corpus answers 1 50 ",
    "cargo test --offline": "(cd oracle && cargo test --offline", "examples/c/run": "examples/c/run",
    "python3 tools/test_sheet.py": "python3 tools/test_sheet.py",
}
# Shorter or with a file in the place of a word that stands for one.
INSTEAD = {
    "oracle/corpus replay FILE": "oracle/corpus replay crates/corpus/data/rust.bin && oracle/corpus replay crates/answers/data/rust.bin",
    "oracle/corpus spoiled SEED FILE": "oracle/corpus spoiled 1 {folder}/spoiled.bin && cmp {folder}/spoiled.bin crates/corpus/data/spoiled.bin",
    "oracle/corpus answers-spoiled SEED FILE":
        "oracle/corpus answers-spoiled 1 {folder}/answers.bin && cmp {folder}/answers.bin crates/answers/data/spoiled.bin",
    "oracle/premises SEED": "oracle/premises 1",
    "oracle/listings SEED COUNT FOLDER": "oracle/listings 1 300 {folder}",
}
# Why they are not run here.
NOT_HERE = {
    "bash .ci/run": "it is the gate, which runs this",
    "oracle/library-mutants [SEED [CRATE...]]": "takes an hour or two",
    "oracle/model-mutants [SEED [COUNT]]": "takes 10 minutes",
}


def contents(path):
    with open(os.path.join(ROOT, path), encoding="utf-8") as file:
        return file.read()


def commands(page):
    """The commands of a page: lines of shell blocks and of indented ones, and table cells that are one."""
    text = contents(page)
    blocks = re.findall(r"^```(?:sh|bash|shell|console)\n(.*?)^```", text, re.M | re.S)
    lines = [line for block in blocks for line in block.splitlines()]
    plain = re.sub(r"^```.*?^```", "", text, flags=re.M | re.S)
    lines += re.findall(rf"^    ({COMMAND}.*)$", plain, re.M)
    lines += [cell for row in re.findall(r"^\|(.*)\|$", plain, re.M)
              for cell in re.findall(rf"(?:^|\|) `({COMMAND}[^`]*)`(?: \(here\))? (?=\||$)", row + " ")]
    return [re.sub(r"\s+#.*$", "", line).strip() for line in lines if line.strip()]


def told(page):
    return sorted(set(commands(page)))


class Commands(unittest.TestCase):
    def test_each_runs(self):
        gate = [line.strip() for line in (contents(".ci/run") + contents(".ci/oracle")).splitlines()]
        ran = 0
        for page in PAGES:
            for command in told(page):
                with self.subTest(page=page, command=command):
                    ran += self.one(command, gate)
        self.assertGreater(ran, 15)

    def one(self, command, gate):
        """Sees to a command; answers whether it was run here."""
        if command in NOT_HERE:
            return 0
        if command in IN_THE_GATE:
            self.assertTrue(any(line.startswith(IN_THE_GATE[command]) for line in gate), "the gate has no such line")
            return 0
        with tempfile.TemporaryDirectory() as folder:
            line = INSTEAD.get(command, command).format(folder=folder)
            done = subprocess.run(["bash", "-c", "set -o pipefail; " + line], cwd=ROOT, capture_output=True, text=True, check=False)
        # What refuses says so, with status 1.
        refused = 1 if " refused " in done.stdout else 0
        self.assertIn(done.returncode, (0, refused), done.stdout[-2000:] + done.stderr[-2000:])
        return 1

    def test_there_are_some(self):
        for page, least in (("README.md", 9), ("tools/README.md", 8), ("oracle/README.md", 9), ("docs/TRUST.md", 5)):
            self.assertGreaterEqual(len(told(page)), least, page)


def pages():
    """The documents."""
    return [*PAGES, "CHANGELOG.md", *sorted(os.path.relpath(path, ROOT) for path in glob.glob(os.path.join(ROOT, "docs", "*.md")))]


class Pages(unittest.TestCase):
    def test_merged(self):
        """No document has the marks of two versions that were to be made one."""
        for page in pages():
            self.assertIsNone(re.search("^(<{7}|={7}|>{7})( |$)", contents(page), re.M), page)

    def test_links(self):
        """Every link to a file of the repository leads to one."""
        for page in pages():
            for target in re.findall(r"\]\(([^)#:]+)(?:#[^)]*)?\)", contents(page)):
                self.assertTrue(os.path.exists(os.path.join(ROOT, os.path.dirname(page), target)), f"{page}: {target}")

    def test_edits(self):
        """docs/EDITS.md names each must-fail edit, and no other."""
        page = contents("docs/EDITS.md")
        named = set()
        for cell in re.findall(r"`[a-z0-9_]+/[a-z0-9_]+`(?:, `[a-z0-9_]+`)*", page):
            crate, *labels = re.findall(r"[a-z0-9_]+", cell)
            named.update(f"{crate}/{label}" for label in labels)
        kept = {f"{path.split('/')[-3]}/{os.path.basename(path)[:-5]}" for path in glob.glob(os.path.join(ROOT, "crates", "*", "must-fail", "*.edit"))}
        self.assertEqual(kept - named, set())
        self.assertEqual({name for name in named - kept if not os.path.exists(os.path.join(ROOT, "crates", name.split("/")[0], name.split("/")[1]))}, set())

    def test_crates(self):
        """docs/ARCHITECTURE.md has a row for each crate."""
        rows = set(re.findall(r"^\| `([a-z0-9_]+)` \|", contents("docs/ARCHITECTURE.md"), re.M))
        self.assertEqual(rows, set(re.findall(r"^([a-z0-9_]+)(?: staticlib)?:", contents("crates.txt"), re.M)))

    def test_definitions(self):
        """Every definition that docs/SENTENCES.md names stands in a file of specs/."""
        defined = set()
        for path in glob.glob(os.path.join(ROOT, "crates", "*", "specs", "*.antt")):
            defined |= set(re.findall(r"(?:pub|record|data) +(?:record +|data +)?([^ :]+)", contents(os.path.relpath(path, ROOT))))
        cells = re.findall(r"^\|.*\| ([^|]*)\|$", contents("docs/SENTENCES.md"), re.M)
        names = {name for cell in cells for name in re.findall(r"`([a-z][A-Za-z0-9_]*)`", cell)}
        self.assertGreater(len(names), 80)
        self.assertEqual(names - defined, set())

    def test_figures(self):
        """The figures of docs/TRUST.md are those of the pages that it cites."""
        cited = "".join(contents(f"docs/{page}.md") for page in ("DIFFERENCES", "PERFORMANCE"))
        figures = re.findall(r"\d+(?:,\d{3})+|\b0\.\d+|\b368\b|\b143\b|\b141\b", contents("docs/TRUST.md"))
        self.assertGreaterEqual(len(figures), 9)
        for figure in figures:
            self.assertIn(figure, cited)

    def test_quotes(self):
        """What README.md says that `./list` and `./why` print."""
        page = contents("README.md")
        self.assertIn("\n\n" + "".join("    " + line + "\n" for line in contents("examples/card/listing.txt").splitlines()) + "\n", page)
        quote = "".join(line[4:] + "\n" for line in re.findall(r"^    (?:class 3 refused|  class 3 Child).*$", page, re.M))
        done = subprocess.run(["./why", "examples/refused"], cwd=ROOT, capture_output=True, text=True, check=False)
        self.assertEqual(quote.count("\n"), 2)
        self.assertIn(quote, done.stdout)

    def test_picture(self):
        """The tables in the picture are those of the example's listing."""
        picture = contents("docs/trust/card.svg")
        for slot, name in ((0, "open, Card's"), (1, "close, its own"), (2, "mark, new")):
            self.assertRegex(picture, rf'slot {slot}</text><text x="412" y="\d+">{name}<')
            self.assertRegex(contents("examples/card/listing.txt").split("class 2")[1], rf"(?m)^{slot} {name.split(',')[0]} ")


if __name__ == "__main__":
    unittest.main()
