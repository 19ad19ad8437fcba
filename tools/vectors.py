#!/usr/bin/env python3
"""Makes the vectors of the programs `judge` and `file_judge`, and the answers that they must print.

Those of `judge` are of sheetvectors.py (sheets to read), setvectors.py (words already
read, and descriptors whose argument words are counted), writevectors.py (sets to write),
ordervectors.py (sets to renumber) and refvectors.py (reference bitmaps).
The judge of sheetlib.py, written from docs/SPECIFICATION.md, gives the answers; of a bitmap
refvectors.py does. Those of `file_judge` are of filevectors.py (class files), which has the answers
of classfile.py.
"""

import argparse
import os
import re
import sys

sys.dont_write_bytecode = True
sys.path.insert(0, os.path.dirname(os.path.realpath(__file__)))

import filevectors  # noqa: E402
import ordervectors  # noqa: E402
import refvectors  # noqa: E402
import setvectors  # noqa: E402
import sheetvectors  # noqa: E402
import writevectors  # noqa: E402
from sheetlib import (  # noqa: E402
    ABI_SHEET, BLOCK_BYTES, CLASS_SHEET, argument_words, block_words, blocks, clauses, content_words, judge, judge_loosely, judge_order,
    judge_set, judge_writing, layout_of, link_clauses, order_clauses, renumbered, writing_clauses)
from sheetvectors import weighed  # noqa: E402

CRATES = os.path.join(os.path.dirname(os.path.realpath(__file__)), "..", "crates")

vectors = {}  # file name -> bytes


def make_all():
    sheetvectors.make()
    setvectors.make()
    writevectors.make()
    ordervectors.make()
    refvectors.make()
    filevectors.make()
    for module in (sheetvectors, setvectors, refvectors):
        vectors.update(module.vectors)


# ---- what the program prints

def answer(path, data):
    """The line that the program prints for a file."""
    name = path.split("/")[-1]
    if name.startswith("set"):
        words, abi = setvectors.parted(data)
        return f"{path} set {judge_set(words, abi)} {writing(words, writevectors.lent_bytes(name, data))} {order(words, ordervectors.lent_list(name))}"
    if name.startswith("args"):
        row, words = argument_words(data[4:], int.from_bytes(data[:4], "little"))
        return f"{path} refused {row}" if row else f"{path} words {words}"
    if name.startswith("refs"):
        return f"{path} {references(data)}"
    lent = sheetvectors.lent_words(name)
    row, words = judge(layout_of(name), data, lent)
    line = f"{path} {read(row, words, data, lent)}"
    if layout_of(name) is ABI_SHEET:
        return line
    return " ".join([line] + ([] if row else [back(data)]) + ["loosely", read(*judge_loosely(data, lent), data, lent)])


def read(row, words, data, lent):
    """What a reading answers, and its check of the lent words."""
    return f"refused {row} {weighed([], lent)}" if row else f"accepted {words} {weighed(block_words(data), lent)}"


def order(words, lent):
    """What the step that renumbers classes answers with list words lent, and its check of the class words and of these."""
    row, numbers = judge_order(words, lent)
    if row:
        return f"unordered {row} {weighed(words)} {weighed([], lent)}"
    return f"ordered {len(numbers)} {weighed(renumbered(words, numbers))} {weighed(numbers, lent)}"


def writing(words, lent):
    """What the writer answers to class words with bytes lent, and its check of these."""
    row, count = judge_writing(words, lent)
    if row:
        return f"unwritten {row} {weighed([], lent)}"
    return f"written {count} {weighed(blocks(content_words(CLASS_SHEET, words)), lent)}"


def back(data):
    """What the program says of an accepted class sheet that it writes back: the blocks, and whether they are the same."""
    made = blocks(content_words(CLASS_SHEET, block_words(data)))
    return f"written {len(made) // BLOCK_BYTES} {'same' if made == data else 'other'}"


def references(data):
    """Both answers about a bitmap: the list's with its words after the call, and the count's."""
    words, room, bitmap = refvectors.parted(data)
    (row, marked), (no_count, count) = refvectors.judge_list(bitmap, words, room), refvectors.judge_count(bitmap, words)
    answers = f"refused {row}" if row else f"marked {len(marked)}", f"refused {no_count}" if no_count else f"counted {count}"
    return f"{answers[0]} {weighed(marked, room)} {answers[1]}"


# ---- the stored files

def files():
    """Every file that each of the two crates stores, by its path there."""
    names = sorted(vectors)
    out = {f"data/{name}": vectors[name] for name in names}
    out["args"] = "".join(name + "\n" for name in names).encode()
    out["stdout"] = "".join(answer(name, vectors[name]) + "\n" for name in names).encode()
    return {os.path.join(CRATES, "judge"): out, os.path.join(CRATES, "file_judge"): filevectors.files()}


def stored(crate):
    """The paths that are stored now."""
    names = os.listdir(os.path.join(crate, "data")) if os.path.isdir(os.path.join(crate, "data")) else []
    return {f"data/{name}" for name in names} | {f for f in ("args", "stdout") if os.path.exists(os.path.join(crate, f))}


def differences(crate, made):
    out = [f"{path}: stored, and not made here" for path in sorted(stored(crate) - set(made))]
    for path, data in sorted(made.items()):
        full = os.path.join(crate, path)
        if not os.path.exists(full):
            out.append(f"{path}: not stored")
        else:
            with open(full, "rb") as file:
                if file.read() != data:
                    out.append(f"{path}: differs from what is made here")
    return out


def store(crate, made):
    os.makedirs(os.path.join(crate, "data"), exist_ok=True)
    for path in stored(crate) - set(made):
        os.remove(os.path.join(crate, path))
    for path, data in made.items():
        with open(os.path.join(crate, path), "wb") as file:
            file.write(data)


# ---- which vectors show each clause

def covered():
    """Each clause, of a reading, of a link, of the writer, of the order and of class files, with its refused vectors and
    their accepted neighbours."""
    for title, listed, cover in (("reading", clauses, sheetvectors.cover), ("link", link_clauses, setvectors.cover)):
        for layout in (CLASS_SHEET, ABI_SHEET):
            for row, clause in listed(layout):
                bad, good = cover.get((layout.name, row, clause), ([], []))
                yield f"{title}, {layout.name} row {row}: {clause}", bad, good
    for row, clause in writing_clauses():
        yield f"writing, row {row}: {clause}", *writevectors.cover.get(("class", row, clause), ([], []))
    for row, clause in order_clauses():
        yield f"order, row {row}: {clause}", *ordervectors.cover.get(("class", row, clause), ([], []))
    yield from filevectors.covered()


def table():
    for title, bad, good in covered():
        print(title)
        for word, names in (("refused", bad), ("accepted", good)):
            print(f"    {word:9}{' '.join(name.removesuffix('.bin') for name in names)}")


def uncovered():
    for title, bad, good in covered():
        for word, names in (("refused vector", bad), ("accepted neighbour", good)):
            if not names:
                yield f"{title}: no {word}"


def told(name):
    """What a file's name tells: its kind, and the row that refuses it or 0."""
    kind, row = re.match(r"(abi|class|set|args|refs)-(?:ok|r(\d+))-", name).groups()
    return kind, int(row or 0)


def summary():
    rows = {}
    for name in vectors:
        rows[told(name)] = rows.get(told(name), 0) + 1
    for kind in ("class", "abi", "set", "args", "refs"):
        print(f"{kind}: " + ", ".join(f"row {row} {n}" if row else f"accepted {n}" for (k, row), n in sorted(rows.items()) if k == kind))
    groups = sorted(filevectors.groups.items())
    print(f"class files: {', '.join(f'{name[:-4]} {len(cases)}' for name, cases in groups)}")


def told_faults(program, counts, faulty):
    """Tells each fault and how many there are; the program's status."""
    for line in faulty:
        print(f"{program}: {line}", file=sys.stderr)
    print(f"{program}: {counts}, faults {len(faulty)}")
    return 1 if faulty else 0


def main():
    parser = argparse.ArgumentParser(
        description="Makes data, args and stdout of crates/judge and crates/file_judge, and prints which vectors show each clause.")
    parser.add_argument("--check", action="store_true", help="write nothing: exit 1 where a stored file differs, and say which")
    options = parser.parse_args()
    make_all()
    faulty = list(uncovered())
    made = files()
    if options.check:
        faulty += [line for crate, stored_there in made.items() for line in differences(crate, stored_there)]
    else:
        for crate, stored_there in made.items():
            store(crate, stored_there)
        table()
    summary()
    count = len(vectors) + sum(map(len, filevectors.groups.values()))
    return told_faults("vectors", f"{count}, clauses {len(list(covered()))}", faulty)


if __name__ == "__main__":
    sys.exit(main())
