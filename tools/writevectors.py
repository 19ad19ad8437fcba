"""The vectors of the writer: sets that its own rows, 17 and 18, refuse or accept.

The files are `set-` files of setvectors.py: rows 3 to 5 of both sheets are judged of them too, and then the class words are
written. A name tells the row of a link, then `write` and the row of the writer or `ok`, and, after `-lent-`, how many bytes are
lent where it is not 1,024 more than the file has, 93 blocks at the most.
"""

from sheetlib import BLOCK_BYTES, BLOCK_WORDS, CLASS_SHEET, STATICS, WORD, Sheet, judge_set, writing_faults
from setvectors import joined, record, shown, words_of
from sheetvectors import ABI, CLASSES, but, lent_number, padded, renamed, text_only, with_statics
import sheetform

TOP = WORD - 1
MOST_BYTES = 93 * BLOCK_BYTES

cover = {}  # (layout name, row, clause) -> ([refused], [accepted])


def lent_bytes(name, data):
    """How many bytes the program lends to the writer for a file of this name."""
    return lent_number(name, min(len(data) + 1024, MOST_BYTES))


# ---- recording a set

def vector(row, name, made, lent):
    """Records the set under its full name; answers the name and the clauses that the writer finds broken."""
    words, told = words_of(made), "" if lent is None else f"-lent-{lent}"
    link = judge_set(words, ABI.words())
    name = f"set-{f'r{link}' if link else 'ok'}-write-{row or 'ok'}-{name}{told}.bin"
    data = joined(words, ABI.words())
    record(name, data)
    return name, {(f.row, f.clause) for f in writing_faults(words, lent_bytes(name, data))}


def refused(row, name, clause, made, lent=None, also=()):
    """A set that one clause keeps from being written, and `also` clauses (row, clause) that are broken too."""
    name, found = vector(row, name, made, lent)
    if found != {(row, clause), *also}:
        raise SystemExit(f"{name}: meant to break {(row, clause), *also}, and breaks {sorted(found)}")
    cover.setdefault(("class", row, clause), ([], []))[0].append(name)


def accepted(name, about, made, lent=None):
    """A set that is written, the neighbour of refused ones for each clause (row, clause) of `about`."""
    name, found = vector(0, name, made, lent)
    if found:
        raise SystemExit(f"{name}: meant to be written, and breaks {sorted(found)}")
    for row, clause in about:
        cover.setdefault(("class", row, clause), ([], []))[1].append(name)


# ---- row 17

PLACE, SLOTS, AFTER = (17, "table place: zero"), (17, "slot count: zero"), (17, "bytes after the text: zero")
UNCOUNTED = (17, STATICS)
ROOM = (18, "lent bytes: enough")

A = sheetform.parse("class A\n")


def linked():
    accepted("unlinked", [PLACE, SLOTS], CLASSES)
    for number in (1, 2):
        for value in (1, TOP):
            refused(17, f"place-{shown(value)}-of-{number}", PLACE[1], but(CLASSES, "class", number, table_place=value))
            refused(17, f"slot-count-{shown(value)}-of-{number}", SLOTS[1], but(CLASSES, "class", number, slot_count=value))
        refused(17, f"place-and-slot-count-of-{number}", PLACE[1], but(CLASSES, "class", number, table_place=1, slot_count=2), also=[SLOTS])


def statics():
    """A built or array class has none before it is linked; a generated class's are written."""
    bad = "method descriptor: VoidDescriptor"
    for kind, value in ((0, 1), (0, TOP), (2, 1), (2, TOP), (3, 1), (3, TOP)):
        refused(17, f"kind-{kind}-statics-{shown(value)}", STATICS, with_statics(kind, value))
    refused(17, "statics-of-1", STATICS, but(CLASSES, "class", 1, static_words=1))
    for value in (1, TOP):
        accepted(f"generated-statics-{shown(value)}", [UNCOUNTED], with_statics(1, value))
    refused(4, "kind-4-statics", "class kind: at most 3", with_statics(4, 1))
    refused(5, "statics-and-descriptor", bad, renamed(with_statics(0, 1), "method", 0, "descriptor", b"(V)V"), also=[UNCOUNTED])
    refused(17, "statics-and-place", PLACE[1], but(CLASSES, "class", 1, table_place=1, static_words=1), also=[UNCOUNTED])
    refused(17, "statics-no-bytes", STATICS, with_statics(0, 1), 0, also=[ROOM])


def after_the_text():
    """Each byte of the word that holds the text's last one, and no other."""
    for size in (1, 2, 3):
        words = padded(CLASSES, size).words()
        accepted(f"text-of-4k-and-{size}", [AFTER], words)
        for byte in range(size, 4):
            for value in (1, 0x80):
                refused(17, f"text-of-4k-and-{size}-byte-{byte}-is-{value}", AFTER[1], words[:-1] + [words[-1] | value << 8 * byte])
    accepted("text-of-4k-word-after", [AFTER], padded(CLASSES, 0).words() + [255])
    accepted("text-abcd-word-after", [AFTER], renamed(A, "class", 1, "name", b"ABC").words() + [255])
    accepted("a", [AFTER], A)
    accepted("a-words-after", [AFTER], A.words() + [7, 7])
    refused(17, "a-0x0141", AFTER[1], A.words()[:-1] + [0x0141])
    accepted("no-text-word-after", [AFTER], Sheet(CLASS_SHEET).words() + [255])


def orders():
    """3 to 5 as for a link, then 17, then 18."""
    refused(4, "linked-kind-4", "class kind: at most 3", but(CLASSES, "class", 1, table_place=1, kind=4), also=[PLACE])
    refused(17, "linked-kind-3", PLACE[1], but(CLASSES, "class", 1, table_place=1, kind=3))
    refused(4, "linked-1025-slots", "class linked slot count: at most 1024", but(CLASSES, "class", 1, table_place=1, slot_count=1025), also=[PLACE, SLOTS])
    refused(5, "linked-descriptor", "method descriptor: VoidDescriptor",
            renamed(but(CLASSES, "class", 1, table_place=1), "method", 0, "descriptor", b"(V)V"), also=[PLACE])
    refused(3, "5-words", "counts: all there", [0] * 5, 0)
    refused(4, "kind-4-no-bytes", "class kind: at most 3", but(A, "class", 1, kind=4), 0, also=[ROOM])
    refused(17, "linked-no-bytes", PLACE[1], but(A, "class", 1, table_place=1), 0, also=[ROOM])
    refused(17, "byte-after-511-bytes", AFTER[1], A.words()[:-1] + [0x0141], 511, also=[ROOM])


# ---- row 18

def room():
    sizes = {"no-classes": (Sheet(CLASS_SHEET), 1), "a": (A, 1)}
    for count in (127, 128, 254, 255):
        sizes[f"{count}-words"] = text_only(CLASS_SHEET, 4 * (count - 6)), -(-count // BLOCK_WORDS)
    for name, (sheet, blocks) in sizes.items():
        for lent in (0, BLOCK_BYTES * blocks - 1):
            refused(18, name, ROOM[1], sheet, lent)
        for more in (0, 1, 512):
            accepted(name, [ROOM], sheet, BLOCK_BYTES * blocks + more)
    refused(18, "128-words", ROOM[1], text_only(CLASS_SHEET, 4 * 122), 512)


def make():
    """Makes them, among the vectors of setvectors."""
    linked()
    statics()
    after_the_text()
    orders()
    room()
