#!/usr/bin/env python3
"""Makes the vectors of the program `convert_judge` and the answers that it must print.

A file whose name starts with `old` is of 17-word class records and is made one of 18, one whose name starts with `new` the other way. Each is
converted with 93 blocks lent, then with a byte fewer than its blocks take, as many and one more (none and one where it is refused); what is
accepted is converted back. A name tells the row that refuses, or `ok`; but of an old one with `-lent-` the row of a reading that was lent too few
words, which no converter is. The converters of sheetlib.py, written from docs/SPECIFICATION.md,
give the answers.

The `old-` files that `answers` lists are the class vectors as they stood before there were static words, with what the reading of that time
answered (but for a method of 252 longs, refused by 5 since row 5 counts argument words, and a class of kind 3, read since there are packaged
classes): they are stored and never made. The others are made here.
"""

import argparse
import os
import re
import sys

sys.dont_write_bytecode = True
sys.path.insert(0, os.path.dirname(os.path.realpath(__file__)))

import sheetform  # noqa: E402
import sheetvectors  # noqa: E402
from sheetlib import (  # noqa: E402
    BLOCK_BYTES, CLASS_SHEET, OLD_CLASS_SHEET, STATICS, Sheet, block_words, blocks, narrow, narrowing_faults, sheet_of,
    static_sum, to_old_form, widen, widening_faults)
from sheetvectors import ARRAY, BUILT, GENERATED, PACKAGED, TOP, but, renamed, text_only, with_word  # noqa: E402
from vectors import differences, store, told_faults, weighed  # noqa: E402

HERE = os.path.dirname(os.path.realpath(__file__))
CRATE = os.path.join(HERE, "..", "crates", "convert_judge")
ANSWERS = os.path.join(HERE, "old-answers")
ROOM = 93 * BLOCK_BYTES

SUM = (23, "static words: the sum")

vectors = {}  # file name -> bytes


# ---- recording a vector

def record(form, row, name, data):
    """Records the sheet under its full name; answers the name and the clauses that the converter finds broken."""
    name = f"{form}-{f'r{row}' if row else 'ok'}-{name}.bin"
    if name in vectors or name in stored_answers():
        raise SystemExit(f"{name}: made twice")
    vectors[name] = data if isinstance(data, bytes) else data.blocks()
    return name, {(f.row, f.clause) for f in (widening_faults if form == "old" else narrowing_faults)(vectors[name], ROOM)}


def refused(form, row, name, clause, data, also=()):
    """A sheet that one clause keeps from being converted, and `also` clauses (row, clause) that are broken too."""
    name, found = record(form, row, name, data)
    if found != {(row, clause), *also}:
        raise SystemExit(f"{name}: meant to break {(row, clause), *also}, and breaks {sorted(found)}")


def accepted(form, name, data):
    """A sheet that is converted."""
    name, found = record(form, 0, name, data)
    if found:
        raise SystemExit(f"{name}: meant to be converted, and breaks {sorted(found)}")


text, old = sheetform.parse, to_old_form


# ---- static words

STATICS_OF_3 = """
class A generated
  field i I 0 flags 9
  field j J 1 flags 9
  field k J 0
"""


def kinds():
    """Going forward a generated class gets the sum, every other class 0; going back only a generated class is asked for it."""
    for kind, field in (("generated", "I"), ("generated", "J"), ("generated", "D"), ("generated", "[J"), ("generated", "LJ;"),
                        ("built", "J"), ("array", "J"), ("packaged", "J")):
        shown = {"[J": "array-of-J", "LJ;": "class-J"}.get(field, field)
        made = text(f"class A {kind}\n  field x {field} 0 flags 8\n")
        accepted("old", f"{kind}-static-{shown}", old(made))
    three = text(STATICS_OF_3)
    accepted("old", "generated-statics-3", old(three))
    accepted("old", "built-statics-3", old(but(three, "class", 1, kind=BUILT)))
    accepted("old", "array-statics-3", old(but(three, "class", 1, kind=ARRAY)))
    accepted("old", "packaged-statics-3", old(but(three, "class", 1, kind=PACKAGED)))
    refused("old", 4, "kind-4", "class kind: at most 3", old(but(three, "class", 1, kind=4)))
    accepted("old", "generated-no-fields", old(text("class A generated\n")))
    accepted("old", "generated-instance-fields", old(text("class A generated\n  words 3\n  field x I 0\n  field y J 1\n")))
    accepted("old", "three-generated", old(text("class A generated\n  field x J 0 flags 8\nclass B\n  field x J 0 flags 8\n"
                                                 "class C generated\n  field x I 0 flags 0xfff7\n  field y I 1 flags 0xffff\n")))
    many = text("class A generated\n" + "".join(f"  field f{i} J 0 flags 8\n" for i in range(512)))
    accepted("old", "512-static-J", old(many))
    accepted("new", "512-static-J", but(many, "class", 1, static_words=1024))
    refused("new", 23, "512-static-J-1023", SUM[1], but(many, "class", 1, static_words=1023))


def sums():
    """Words that are not the sum of a generated class's static fields, and the sum."""
    three = text(STATICS_OF_3)
    assert static_sum(three, 0) == 3
    for words in (0, 2, 4, TOP):
        refused("new", 23, f"generated-statics-{words}-of-3", SUM[1], but(three, "class", 1, static_words=words))
    accepted("new", "generated-statics-3-of-3", but(three, "class", 1, static_words=3))
    none = text("class A generated\n")
    accepted("new", "generated-statics-0-of-0", none)
    for words in (1, TOP):
        refused("new", 23, f"generated-statics-{words}-of-0", SUM[1], but(none, "class", 1, static_words=words))
    two = text("class A generated\n  statics 2\n  field x J 0 flags 8\nclass B generated\n  statics 1\n  field x I 0 flags 8\n")
    accepted("new", "two-generated", two)
    refused("new", 23, "two-generated-the-second-wrong", SUM[1], but(two, "class", 2, static_words=2))
    refused("new", 23, "two-generated-exchanged", SUM[1], but(but(two, "class", 1, static_words=1), "class", 2, static_words=2))
    for kind, name in ((BUILT, "built"), (ARRAY, "array"), (PACKAGED, "packaged")):
        accepted("new", f"{name}-static-fields", but(three, "class", 1, kind=kind))
        for words in (1, 3):
            refused("new", 3, f"{name}-statics-{words}-of-3", STATICS, but(three, "class", 1, kind=kind, static_words=words))


# ---- the order of rows

def orders():
    """1 to 5 of the input's form, then 23; 18 is after them, as the program lends no bytes to a call that is refused."""
    three = but(text(STATICS_OF_3), "class", 1, static_words=4)
    refused("new", 2, "check-and-23", "check word", with_word(three.blocks(), 127, 0), also=[SUM])
    refused("new", 3, "two-blocks-and-23", "blocks: none too many", blocks(three.words(), 2), also=[SUM])
    refused("new", 4, "same-name-and-23", "class names: all different", text("class A\nclass A generated\n  statics 1\n"), also=[SUM])
    broken = renamed(three, "field", 2, "descriptor", b"V")
    refused("new", 5, "descriptor-and-23", "field descriptor: VoidDescriptor", broken, also=[SUM])
    refused("old", 5, "descriptor", "field descriptor: VoidDescriptor", old(broken))
    children_first = but(text("class A\nclass B\n"), "class", 1, parent=2)
    refused("old", 4, "parents-2-0", "class parent: below the class", old(children_first))
    refused("new", 4, "parents-2-0", "class parent: below the class", children_first)
    refused("new", 1, "empty", "no bytes", b"")
    refused("new", 1, "511-bytes", "whole blocks", Sheet(CLASS_SHEET).blocks()[:511])
    refused("new", 1, "93-blocks", "most blocks", blocks([], 93), also=[(3, "blocks: none too many")])


def ends():
    """The end of the content is that of the input's form: seven classes are 127 words in the old one and 134 in the new."""
    seven = text("".join(f"class {c}\n" for c in "ABCDEFG"))
    assert (len(old(seven).words()), len(seven.words())) == (127, 134)
    accepted("old", "seven-classes", old(seven))
    accepted("new", "seven-classes", seven)
    refused("old", 3, "seven-classes-two-blocks", "blocks: none too many", blocks(old(seven).words(), 2))
    words = old(text("class A\n")).words()
    for after in (1, 2):
        refused("old", 3, f"word-{after}-after", "words after the content: zero", blocks(words + [0] * (after - 1) + [1]))
    refused("old", 3, "of-the-new-form", "words after the content: zero", text("class A\n"), also=[(4, "class name: bytes from 0x21")])
    for word in ("table place", "slot count"):
        made = but(old(text("class A generated\n")), "class", 1, **{word.replace(" ", "_"): 1})
        refused("old", 3, f"generated-{word.replace(' ', '-')}", f"{word}: zero", made)


# ---- sheets that both forms accept

def both_forms():
    """One class, 12 text bytes: in the old form class BBBB. Forward puts a 0 before AAAA, and these bytes are again a sheet of the old form, of
    class AAAA: the form cannot be seen, and a second conversion is accepted and says something else."""
    first = blocks([1, 0, 0, 0, 0, 12] + [4, 4, 0, 1, 0, 0, 0, 0, 0, 0, 0, 0, 0, 0, 0, 0, 0] + [0x41414141, 0x42424242, 0])
    second = widen(first)[1]
    third = widen(second)[1]
    names = [sheet_of(OLD_CLASS_SHEET, block_words(data)).part("class", 0, "name") for data in (first, second)]
    assert names == [b"BBBB", b"AAAA"] and sheet_of(CLASS_SHEET, block_words(third)).part("class", 0, "name") == b"AAAA"
    accepted("old", "forward-once", first)
    accepted("old", "forward-twice", second)
    accepted("new", "forward-once", second)
    accepted("new", "forward-twice", third)
    accepted("new", "no-classes", Sheet(CLASS_SHEET))
    accepted("new", "text-alone", text_only(CLASS_SHEET, 13))


# ---- size

def crowds():
    """More classes: the two forms take the same blocks, or the new one a block more."""
    for classes in (13, 14, 64):
        new = text("".join(f"class C{i}\n" for i in range(classes)))
        accepted("old", f"{classes}-crowded", old(new))
        accepted("new", f"{classes}-crowded", new)


def largest():
    """All counts at their limits: 92 blocks both ways. Of the fields every fifth is not static, so the sums differ."""
    new, counts = sheetvectors.LARGEST[CLASS_SHEET].copy(), (64, 512, 512, 256, 2048, 8192)
    for f in range(0, 512, 5):
        new.put("field", f, "flags", 0xFFF7)
    for i in range(64):
        new.put("class", i, "static words", static_sum(new, i) if new.get("class", i, "kind") == GENERATED else 0)
    assert tuple(new.counts()) == counts and len(new.blocks()) == len(old(new).blocks()) == 92 * BLOCK_BYTES
    accepted("old", "largest-both-ways", old(new))
    accepted("new", "largest-both-ways", new)


def make():
    for part in (kinds, sums, orders, ends, both_forms, crowds, largest):
        part()
    for name in stored_answers():
        with open(os.path.join(CRATE, "data", name), "rb") as file:
            vectors[name] = file.read()


def stored_answers():
    """What the reading of 17-word records answered to each stored vector of that time, by its name."""
    with open(ANSWERS, encoding="utf-8") as file:
        return {line.split()[0]: line.split()[1:] for line in file.read().splitlines()}


# ---- what the program prints

def answer(path, data):
    """The line that the program prints for a file."""
    ways = (widen, "widened"), (narrow, "narrowed")
    there, back = ways if path.startswith("old") else ways[::-1]
    row, made = there[0](data)
    rooms = [0, 1] if row else [len(made) - 1, len(made), len(made) + 1]
    parts = [f"{path} {said(there, data, ROOM)}"] + [f"lent {room} {said(there, data, room)}" for room in rooms]
    return ", ".join(parts if row else parts + [f"back {way_back(back, made, data)}"])


def said(way, data, room):
    """What a converter answers with bytes lent, and the check of these."""
    row, made = way[0](data, room)
    return f"not {way[1]} {row} {weighed([], room)}" if row else f"{way[1]} {len(made) // BLOCK_BYTES} {weighed(made, room)}"


def way_back(way, made, data):
    """What is said of the blocks made, converted back: whether all bytes come back."""
    row, again = way[0](made)
    return f"not {way[1]} {row} other" if row else f"{way[1]} {len(again) // BLOCK_BYTES} {'same' if again == data else 'other'}"


def files():
    """Every file that the crate stores, by its path there."""
    names = sorted(vectors)
    out = {f"data/{name}": vectors[name] for name in names}
    out["args"] = "".join(name + "\n" for name in names).encode()
    out["stdout"] = "".join(answer(name, vectors[name]) + "\n" for name in names).encode()
    return out


# ---- the stored files

def summary():
    rows = {}
    for name in vectors:
        form, row = re.match(r"(old|new)-(?:ok|r(\d+))-", name).groups()
        rows[form, int(row or 0)] = rows.get((form, int(row or 0)), 0) + 1
    for form in ("old", "new"):
        print(f"{form}: " + ", ".join(f"row {row} {n}" if row else f"accepted {n}" for (f, row), n in sorted(rows.items()) if f == form))


def main():
    parser = argparse.ArgumentParser(description="Makes crates/convert_judge/data, args and stdout.")
    parser.add_argument("--check", action="store_true", help="write nothing: exit 1 where a stored file differs, and say which")
    options = parser.parse_args()
    make()
    made, faulty = files(), []
    if options.check:
        faulty = differences(CRATE, made)
    else:
        store(CRATE, made)
    summary()
    return told_faults("convertvectors", len(vectors), faulty)


if __name__ == "__main__":
    sys.exit(main())
