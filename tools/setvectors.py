"""The vectors of words already read, and of argument words.

`set-` files: rows 3 to 5 as a link or an ask applies them to the words of both sheets. A file's
words are the number of class words, the class words, then the ABI words. Each vector is two
good word lists with one change in the one that its name tells (`class` or `abi`), or with a
change in both. word_faults of sheetlib.py must find just the clauses that are named.

`args-` files: a word of flags, then the bytes of a method descriptor.

After that a name tells the row that refuses, or `ok`.
"""

from sheetlib import (
    ABI_SHEET, CLASS_SHEET, WORD, Sheet, argument_words, block_words, content_size, count_clauses, faults, judge_set,
    record_clauses, word_faults)
import sheetvectors
from sheetvectors import ABI, BASE, CLASSES, LARGEST, but, padded, renamed, with_statics

TOP = WORD - 1

vectors = {}  # file name -> bytes
good_names = {}  # bytes of an accepted set -> its file name
cover = {}  # (layout name, row, clause) -> ([refused], [accepted])


# ---- the two forms of files

def joined(words, abi):
    return b"".join(word.to_bytes(4, "little") for word in [len(words), *words, *abi])


def parted(data):
    """The class words and the ABI words of a file, as many of them as are there."""
    words = [int.from_bytes(data[i:i + 4], "little") for i in range(0, len(data) // 4 * 4, 4)]
    n = words[0] if words else 0
    return words[1:1 + n], words[1 + n:]


def record(name, data):
    if name in vectors:
        raise SystemExit(f"{name}: made twice")
    vectors[name] = data


# ---- recording a set

def both(layout, words):
    """The two word lists: `words` for the layout, and good words for the other one."""
    return (words, ABI.words()) if layout is CLASS_SHEET else (CLASSES.words(), words)


def words_of(made):
    return made.words() if isinstance(made, Sheet) else list(made)


def refused(layout, row, name, clause, made, also=()):
    """A set one of whose sheets breaks one clause, and `also` clauses (row, clause) that the fault brings along."""
    words, name = words_of(made), f"set-r{row}-{layout.name}-{name}.bin"
    found, want = {(f.row, f.clause) for f in word_faults(layout, words)}, {(row, clause), *also}
    if found != want:
        raise SystemExit(f"{name}: meant to break {sorted(want)}, and breaks {sorted(found)}")
    record(name, joined(*both(layout, words)))
    cover.setdefault((layout.name, row, clause), ([], []))[0].append(name)


def accepted(layout, name, about, made):
    """A good set, the neighbour of refused ones for each clause (row, clause) of `about`. The same bytes are kept once."""
    words, name = words_of(made), f"set-ok-{layout.name}-{name}.bin"
    data = joined(*both(layout, words))
    if data not in good_names:
        good_names[data] = name
        record(name, data)
        for fault in word_faults(layout, words):
            raise SystemExit(f"{name}: meant to be good, and {fault}")
    for row, clause in about:
        cover.setdefault((layout.name, row, clause), ([], []))[1].append(good_names[data])


# ---- clauses that a reading has too: the words of its vectors

def shared(layout):
    """For each clause the first two sheets that a reading refuses by it, and the first and the last accepted neighbour; of argument words all."""
    for row, clause in count_clauses(layout) + record_clauses(layout):
        bad, good = sheetvectors.cover[layout.name, row, clause]
        if not clause.endswith("argument words"):
            bad, good = bad[:2], [good[0], good[-1]]
        for name in bad:
            found = {(f.row, f.clause) for f in faults(layout, sheetvectors.vectors[name], sheetvectors.lent_words(name))}
            if (3, "blocks: enough") not in found:  # a count that no block holds is under counts_and_fit
                refused(layout, row, stem(name), clause, content(layout, name), also=found)
        for name in good:
            accepted(layout, stem(name), [(row, clause)], content(layout, name))


def stem(name):
    """`class-r4-parent-top.bin` is `parent-top`."""
    return name.split("-", 2)[2][:-4]


def content(layout, name):
    words = block_words(sheetvectors.vectors[name])
    return words[:content_size(layout, words[:len(layout.sections) + 1])]


# ---- row 3: "only the count limits and the content's fit in the lent slice apply"

def counts_and_fit(layout):
    there, fits = (3, "counts: all there"), (3, "content: fits the words")
    n = len(layout.sections) + 1
    for size in (0, 1, n - 1):
        refused(layout, 3, f"{size}-words", there[1], [0] * size)
    accepted(layout, f"{n}-words", [there], [0] * n)
    base = BASE[layout].words()
    accepted(layout, "exact", [fits], base)
    refused(layout, 3, "one-word-short", fits[1], base[:-1])
    refused(layout, 3, "counts-alone", fits[1], base[:n])
    for size, words in ((1, 1), (4, 1), (5, 2)):
        text = [0] * (n - 1) + [size] + [0x41414141] * words
        accepted(layout, f"text-of-{size}-exact", [fits], text)
        refused(layout, 3, f"text-of-{size}-one-word-short", fits[1], text[:-1])
    for section, (row, clause) in enumerate(count_clauses(layout)):
        # The section would wrap at 2^32 words.
        counts = [0] * n
        counts[section] = TOP
        refused(layout, row, f"count-{section}-top", clause, counts + [0] * 100, also=[fits])
    accepted(layout, "largest", [fits], LARGEST[layout])


def after_the_content(layout):
    """Nothing is said of what follows the content, and it is no content."""
    about = [(3, "content: fits the words")]
    base = BASE[layout].words()
    for name, after in (("zero-word", [0]), ("word", [1]), ("words", [TOP] * 100)):
        accepted(layout, f"{name}-after", about, base + after)
    accepted(layout, "20000-words", about, base + [TOP] * (20000 - len(base)))
    refused(layout, 4, "20000-words", "class parent: below the class" if layout is CLASS_SHEET else "class slot list: inside its section",
            but(BASE[layout], "class", 1, **{"parent" if layout is CLASS_SHEET else "first_slot": 3}).words() + [0] * 19900)
    for residue in (1, 2, 3):
        words = padded(BASE[layout], residue).words()
        words[-1] |= 0x41414141 << 8 * residue & TOP
        accepted(layout, f"bytes-after-text-{residue}", about, words)
    # A name may not reach into the bytes after the text, which would be good ones.
    inside = (4, "class name: inside the text")
    for length in (4, 3):
        sheet = renamed(padded(BASE[layout], 0), "class", 1, "name", b"pppp")
        sheet.text = sheet.text[:len(sheet.text) - 4 + length]
        words = sheet.words()
        words[-1] = 0x70707070
        if length == 4:
            accepted(layout, "name-to-text-end", [inside], words)
        else:
            refused(layout, 4, "name-into-bytes-after", inside[1], words)


# ---- row 4: "linked slot count .. at most 1,024"

def linked():
    clause = "class linked slot count: at most 1024"
    for number in (1, 2):
        for place, slots in ((1, 0), (1, 1024), (TOP, 1024), (0, 1), (0, 1025), (0, TOP)):
            accepted(CLASS_SHEET, f"{number}-place-{shown(place)}-slots-{shown(slots)}", [(4, clause)],
                     but(CLASSES, "class", number, table_place=place, slot_count=slots))
        for place, slots in ((1, 1025), (1, TOP), (TOP, 1025)):
            refused(CLASS_SHEET, 4, f"{number}-place-{shown(place)}-slots-{shown(slots)}", clause,
                    but(CLASSES, "class", number, table_place=place, slot_count=slots))


def statics():
    """Static words are no row's at a link or an ask: any, of any kind but for row 4's own rule of kinds."""
    for kind in (0, 1, 2, 3):
        for value in (1, TOP):
            accepted(CLASS_SHEET, f"kind-{kind}-statics-{shown(value)}", [(4, "class kind: at most 3")], with_statics(kind, value))
    refused(CLASS_SHEET, 4, "kind-4-statics", "class kind: at most 3", with_statics(4, 1))


def shown(value):
    return "top" if value == TOP else str(value)


# ---- both sheets: row by row, so the lower row of the two is answered

def orders():
    member = {CLASS_SHEET: "method", ABI_SHEET: "slot"}

    def broken(layout, row):
        if row == 3:
            return BASE[layout].words()[:-1]
        if row == 4:
            return but(BASE[layout], "class", 1, name_length=0).words()
        return renamed(BASE[layout], member[layout], 0, "descriptor", b"(V)V").words()

    for row in (3, 4, 5):
        for abi_row in (3, 4, 5):
            words, abi, least = broken(CLASS_SHEET, row), broken(ABI_SHEET, abi_row), min(row, abi_row)
            if judge_set(words, abi) != least:
                raise SystemExit(f"class words of row {row} and ABI words of row {abi_row} are judged {judge_set(words, abi)}")
            record(f"set-r{least}-class-{row}-and-abi-{abi_row}.bin", joined(words, abi))
    record("set-r3-no-words.bin", joined([], []))
    record("set-ok-largest-both.bin", joined(LARGEST[CLASS_SHEET].words(), LARGEST[ABI_SHEET].words()))


# ---- argument words: name, flags, descriptor, words (- is refused)

ARGUMENTS = """
ij                  0           (IJ)V                4
ij-static           8           (IJ)V                3
ij-public           1           (IJ)V                4
ij-public-static    9           (IJ)V                3
ij-every-other-flag 0x1DF7      (IJ)V                4
text-and-longs      0           (Ljava/lang/String;[J)D 3
text-longs-static   8           (Ljava/lang/String;[J)D 2
none                0           ()V                  1
none-static         8           ()V                  0
flags-all-but-8     0xFFFFFFF7  ()V                  1
flags-all           0xFFFFFFFF  ()V                  0
flags-4             4           ()V                  1
flags-16            16          ()V                  1
flags-top-bit       0x80000000  (I)V                 2
flags-top-bit-8     0x80000008  (I)V                 1
every-base-type     8           (BCDFIJSZ)V          10
arrays-of-two-words 8           ([J[[D)V             2
array-then-long     8           ([JJ)V               3
class-named-j       8           (LJ;LD;)V            2
class-in-package-j  8           (LJ/D;J)V            3
class-of-brackets   8           (L);L(;)V            2
class-array         8           ([[La/b;D)V          3
result-long         0           ()J                  1
result-double       8           (D)D                 2
result-array        8           ()[[J                0
result-class        8           (F)La/b;             1
void                0           (V)V                 -
void-static         8           (V)V                 -
second-void         8           (IV)V                -
field-form          8           I                    -
no-open             8           I)V                  -
no-close            8           (I                   -
open-alone          8           (                    -
no-result           8           (I)                  -
void-array-result   8           ()[V                 -
array-of-nothing    8           ([)V                 -
class-no-end        8           (La)V                -
class-empty         8           (L;)V                -
class-part-empty    8           (La//b;)V            -
class-dot           8           (La.b;)V             -
class-bracket       8           (La[b;)V             -
letter              8           (X)V                 -
lower-case          8           (i)V                 -
after-end           8           (I)VV                -
two-descriptors     8           ()V()V               -
"""


def arguments():
    for name, flags, descriptor, words in (line.split() for line in ARGUMENTS.split("\n") if line):
        counted(name, int(flags, 0), descriptor.encode(), None if words == "-" else int(words))
    counted("empty", 0, b"", None)
    counted("empty-static", 8, b"", None)
    # Only the grammar counts: any byte but . ; [ / may stand in a name, and none elsewhere.
    counted("name-high-bytes", 8, b"(L\x7F\x80\xFF;)V", 1)
    counted("name-low-bytes", 8, b"(L\0 \n;J)V", 3)
    counted("every-name-byte", 8, b"(L" + bytes(b for b in range(256) if b not in b".;[/") + b";)V", 1)
    counted("high-byte", 8, b"(\x80)V", None)
    counted("zero-byte-after", 8, b"()V\0", None)
    counted("blank-before", 8, b" ()V", None)
    # At most 255 words (JVMS 4.3.3), the receiver's among them; no limit of 255 bytes (a sheet's part).
    for letter, each in (("I", 1), ("J", 2)):
        for count in (127, 128, 254, 255, 256, 300):
            for static in (0, 1):
                words = 1 - static + each * count
                counted(f"{count}-{letter.lower()}{'-static' * static}", 8 * static, f"({letter * count})V".encode(), words if words <= 255 else None)
    for name, flags, words in (("", 0, None), ("-static", 8, 255), ("-all-flags", 0xFFFFFFFF, 255), ("-all-but-8", 0xFFFFFFF7, None)):
        counted(f"127-j-i{name}", flags, b"(" + b"J" * 127 + b"I)V", words)
        counted(f"i-127-d{name}", flags, b"(I" + b"D" * 127 + b")V", words)
    counted("127-arrays", 0, b"(" + b"[J" * 127 + b")V", 128)
    counted("255-classes", 8, b"(" + b"La/J;" * 255 + b")D", 255)
    counted("255-classes-instance", 0, b"(" + b"La/J;" * 255 + b")D", None)
    counted("300-classes", 8, b"(" + b"La/J;" * 300 + b")D", None)
    counted("300-i-and-void", 8, b"(" + b"I" * 300 + b"V)V", None)
    for static in (0, 1):
        counted(f"20000-j{'-static' * static}", 8 * static, b"(" + b"J" * 20000 + b")V", None)
        counted(f"20000-j-no-close{'-static' * static}", 8 * static, b"(" + b"J" * 20000, None)
    counted("3000-dimensions", 8, b"(" + b"[" * 3000 + b"J)V", 1)
    counted("10000-byte-name", 8, b"(L" + b"J" * 10000 + b";)V", 1)


def counted(name, flags, descriptor, words):
    """A vector whose words are counted by hand, and None where it is refused."""
    want = (5, 0) if words is None else (0, words)
    if argument_words(descriptor, flags) != want:
        raise SystemExit(f"args {name}: meant to answer {want}, and answers {argument_words(descriptor, flags)}")
    record(f"args-{'r5' if words is None else 'ok'}-{name}.bin", flags.to_bytes(4, "little") + descriptor)


# ---- all of them

def make():
    """Makes them, after those of sheetvectors."""
    for layout in (CLASS_SHEET, ABI_SHEET):
        shared(layout)
        counts_and_fit(layout)
        after_the_content(layout)
    linked()
    statics()
    orders()
    arguments()
