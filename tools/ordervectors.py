"""The vectors of the step that renumbers classes: sets whose classes come in any order.

The files are `set-` files of setvectors.py: a link's rows are judged of them too, and the writer's. A name tells the row of a
link, then `order` and the row of the step or `ok`, and, after `-lent-`, how many list words are lent (and how many bytes to
the writer) where it is not 66, two more than there can be classes.
"""

from sheetlib import CLASS_SHEET, STATICS, WORD, judge_order, judge_set, order_faults, renumbered as moved, sheet_of
from setvectors import joined, record, shown, words_of
from sheetvectors import ABI, CLASSES, but, crowd, lent_number, padded, with_statics
import sheetform

TOP = WORD - 1
MOST_LISTED = 66

cover = {}  # (layout name, row, clause) -> ([refused], [accepted])

PLACE, SLOTS, UNCOUNTED = (3, "table place: zero"), (3, "slot count: zero"), (3, STATICS)
PARENT, RING, ROOM = (4, "class parent: at most the class count"), (19, "parents: none returns"), (15, "list words: enough")
ZERO, ABOVE = (4, "interface word: not 0"), (4, "interface word: at most the class count")


def lent_list(name):
    """How many list words the program lends for a file of this name."""
    return lent_number(name, MOST_LISTED)


# ---- recording a set

def vector(row, name, made, lent):
    """Records the set under its full name; answers the name, the words, and the clauses that the step finds broken."""
    words, told = words_of(made), "" if lent is None else f"-lent-{lent}"
    link = judge_set(words, ABI.words())
    name = f"set-{f'r{link}' if link else 'ok'}-order-{row or 'ok'}-{name}{told}.bin"
    record(name, joined(words, ABI.words()))
    return name, words, {(f.row, f.clause) for f in order_faults(words, lent_list(name))}


def refused(clause, name, made, lent=None, also=()):
    """A set that the step refuses by this clause (row, clause), and `also` clauses that are broken too."""
    name, _, found = vector(clause[0], name, made, lent)
    if found != {clause, *also}:
        raise SystemExit(f"{name}: meant to break {clause, *also}, and breaks {sorted(found)}")
    cover.setdefault(("class", *clause), ([], []))[0].append(name)


def accepted(name, order, about, made, lent=None):
    """A set that comes into this order, the neighbour of refused ones for each clause of `about`."""
    name, words, found = vector(0, name, made, lent)
    if found or judge_order(words, lent_list(name)) != (0, order):
        raise SystemExit(f"{name}: meant to come into the order {order}, and comes to {judge_order(words, lent_list(name))}")
    for clause in about:
        cover.setdefault(("class", *clause), ([], []))[1].append(name)


def parents(*numbers):
    """Classes without members, under these parents."""
    sheet = crowd(CLASS_SHEET, "class", len(numbers))
    for number, parent in enumerate(numbers, 1):
        sheet = but(sheet, "class", number, parent=parent)
    return sheet


def named(numbers):
    return "-".join(str(number) for number in numbers)


# ---- the order

ORDERS = {(): [], (0,): [1], (3, 0, 0): [2, 3, 1], (2, 0, 0): [2, 1, 3], (2, 3, 0): [3, 2, 1], (0, 1, 2): [1, 2, 3], (0, 0, 1): [1, 2, 3],
          (3, 3, 0, 2): [3, 1, 2, 4], (0, 6, 1, 6, 4, 3): [1, 3, 6, 2, 4, 5], (5, 0, 5, 0, 0): [2, 4, 5, 1, 3]}


def orders():
    for numbers, order in ORDERS.items():
        accepted(f"parents-{named(numbers)}", order, [PARENT, RING], parents(*numbers))
    chain = [*range(2, 65), 0]
    accepted("falling-chain-of-64", list(range(64, 0, -1)), [RING], parents(*chain))
    accepted("rising-chain-of-64", list(range(1, 65)), [RING], parents(*range(64)))
    accepted("64-under-the-last", [64, *range(1, 64)], [PARENT], parents(*[64] * 63, 0))


def rings():
    for numbers in ((1,), (2, 1), (0, 3, 4, 3), (2, 2), (0, 0, 3), (3, 1, 2), (0, 1, 4, 5, 3)):
        refused(RING, f"parents-{named(numbers)}", parents(*numbers))
    refused(RING, "ring-of-64", parents(*range(2, 65), 1))
    refused(RING, "tail-of-62-into-a-ring", parents(*range(2, 65), 63))


# ---- what moves: records whole, parents, interface words where they are

SIGNS = sheetform.parse("""
class Sign
  implements Board
  method show ()V 20
  field lit Z 0
class Board
  implements Sign Wall
  compiler 30 31
  method hang (I)V 21
class Wall generated
  words 7
  statics 4000000000
  field wide J 0
""")


def moving():
    # Classes A (under 2, interface words 1 and 2) and B; word 0 is in no list.
    sheet = sheetform.parse("class A\nclass B\n")
    sheet.records["interface word"] = [[2], [1], [2]]
    sheet = but(sheet, "class", 1, parent=2, first_interface_word=1, interface_count=2)
    accepted("a-under-b", [2, 1], [ZERO, ABOVE], sheet)
    after = sheet_of(CLASS_SHEET, moved(sheet.words(), [2, 1]))
    if [after.part("class", i, "name") for i in (0, 1)] != [b"B", b"A"] or after.get("class", 1, "parent") != 1 or \
            after.get("class", 1, "first interface word") != 1 or after.records["interface word"] != [[1], [2], [1]]:
        raise SystemExit("a-under-b: meant to leave B, A under 1, and the interface words 1, 2, 1")
    for name, under in (("sign-last", (3, 1, 0)), ("board-last", (0, 3, 1)), ("wall-first", (2, 3, 0)), ("as-it-is", (0, 1, 2))):
        made = SIGNS
        for number, parent in enumerate(under, 1):
            made = but(made, "class", number, parent=parent)
        order = {"sign-last": [3, 1, 2], "board-last": [1, 3, 2], "wall-first": [3, 2, 1], "as-it-is": [1, 2, 3]}[name]
        accepted(name, order, [ZERO, ABOVE], made)
        accepted(f"{name}-words-after", order, [ABOVE], padded(made, 0).words() + [7, TOP])
        words = padded(made, 1).words()
        accepted(f"{name}-bytes-after-text", order, [ABOVE], words[:-1] + [words[-1] | 0x41424300])


# ---- rows 3 and 4: what is judged, and what is not

def form():
    base = but(CLASSES, "class", 1, parent=2)
    base = but(base, "class", 2, parent=0)
    accepted("base", [2, 1], [PLACE, SLOTS, PARENT, ZERO, ABOVE], base)
    for number in (1, 2):
        refused(PLACE, f"place-of-{number}", but(base, "class", number, table_place=1))
        refused(SLOTS, f"slot-count-of-{number}", but(base, "class", number, slot_count=TOP))
    for parent in (3, TOP):
        refused(PARENT, f"parent-{parent}", but(base, "class", 1, parent=parent))
        refused(PARENT, f"parent-{parent}-of-2", but(base, "class", 2, parent=parent))
    loose = but(base, "class", 2, interface_count=0)
    for name, sheet in (("listed", base), ("unlisted", loose)):
        refused(ZERO, f"interface-word-0-{name}", but(sheet, "interface word", 0, class_number=0))
        refused(ABOVE, f"interface-word-3-{name}", but(sheet, "interface word", 0, class_number=3))
        refused(ABOVE, f"interface-word-top-{name}", but(sheet, "interface word", 0, class_number=TOP))
        accepted(f"interface-word-2-{name}", [2, 1], [ZERO, ABOVE], but(sheet, "interface word", 0, class_number=2))
    refused(ABOVE, "no-classes-interface-word-1", [0, 0, 0, 1, 0, 0, 1])
    refused(ZERO, "no-classes-interface-word-0", [0, 0, 0, 1, 0, 0, 0])
    # Nothing else of rows 4 and 5 is judged: it is moved as it is.
    for word, value in (("kind", 9), ("access flags", TOP), ("name start", TOP), ("name length", 0), ("first method", TOP), ("interface count", TOP),
                        ("first interface word", 300), ("link state", TOP), ("instance words", TOP), ("compiler table", TOP), ("compiler slots", TOP)):
        accepted(f"{word.replace(' ', '-')}-{value}", [2, 1], [PARENT], but(base, "class", 1, **{word.replace(" ", "_"): value}))
    accepted("same-name-twice", [2, 1], [PARENT], but(base, "class", 2, name_start=base.get("class", 0, "name start"), name_length=1))
    accepted("no-descriptors", [2, 1], [PARENT], but(base, "method", 0, descriptor_length=0))


def statics():
    """Row 3 of a built or array class; another kind, 4 too, moves with its word."""
    base = but(but(CLASSES, "class", 1, parent=2), "class", 2, parent=0)
    for kind, value in ((0, 1), (0, TOP), (2, 1), (2, TOP), (3, 1), (3, TOP)):
        refused(UNCOUNTED, f"kind-{kind}-statics-{shown(value)}", with_statics(kind, value, base))
    refused(UNCOUNTED, "statics-of-1", but(base, "class", 1, static_words=1))
    for kind, value in ((1, 1), (1, TOP), (4, 1), (TOP, TOP)):
        accepted(f"kind-{shown(kind)}-statics-{shown(value)}", [2, 1], [UNCOUNTED], with_statics(kind, value, base))
    refused(UNCOUNTED, "statics-and-parent-9", but(parents(0), "class", 1, static_words=1, parent=9), also=[PARENT])


def rows_in_order():
    """3, 4, 19, 15."""
    refused(PARENT, "parents-1-3", parents(1, 3), also=[RING])
    refused(RING, "parents-1", parents(1), 0, also=[ROOM])
    refused(PARENT, "parents-5", parents(5), 0, also=[ROOM])
    refused(SLOTS, "slot-count-and-parent-9", but(parents(0), "class", 1, slot_count=1, parent=9), also=[PARENT])
    for numbers in ((0,), (3, 0, 0), tuple([*range(2, 65), 0])):
        n, name = len(numbers), "64-classes" if len(numbers) == 64 else f"parents-{named(numbers)}"
        order = judge_order(parents(*numbers).words(), n)[1]
        refused(ROOM, name, parents(*numbers), n - 1)
        for lent in (n, n + 1):
            accepted(name, order, [ROOM], parents(*numbers), lent)
    accepted("no-classes", [], [ROOM], parents(), 0)
    accepted("no-classes", [], [ROOM], parents(), 1)


def make():
    """Makes them, among the vectors of setvectors."""
    orders()
    rings()
    moving()
    form()
    statics()
    rows_in_order()
