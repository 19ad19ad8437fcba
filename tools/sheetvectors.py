"""The vectors of reading: sheets that rows 1 to 5 refuse or accept.

Each vector is a good sheet, or a good sheet with one change that breaks one clause of rows 1
to 5; `refused` and `accepted` below say which clause it is about. The judge of sheetlib.py,
written from docs/SPECIFICATION.md, must find in each refused vector just the clause that is named (and
what is said under `also`, where one fault brings another).

A file's name tells the sheet (`abi-` or `class-`), the row or `ok`, and, after `-lent-`, how
many words the program lends where it is not the most that a sheet takes.
"""

import re

import sheetform
from sheetlib import (
    ABI_SHEET, BLOCK_BYTES, BLOCK_WORDS, CLASS_SHEET, STATICS, WORD, Sheet, block_words, blocks, faults, layout_of)

TOP = WORD - 1
BUILT, GENERATED, ARRAY, PACKAGED = range(4)
AAAA, BBBB = 0x41414141, 0x42424242  # four bytes of text
FILL = 7  # what every lent word or byte holds before the call

vectors = {}  # file name -> bytes
good_names = {}  # (sheet, lent words, bytes) of an accepted vector -> its file name
cover = {}  # (layout name, row, clause) -> ([refused], [accepted])


def weighed(words, lent=0):
    """A program's check of lent memory: each word times its place from 1, summed modulo 2^32. After the words 7s, up to those lent."""
    n, more = len(words), max(len(words), lent)
    return (sum(place * word for place, word in enumerate(words, 1)) + FILL * (more * (more + 1) - n * (n + 1)) // 2) % WORD


# ---- recording a vector

def lent_words(name):
    """How many words the program lends for a file of this name."""
    return lent_number(name, layout_of(name).most_words())


def lent_number(name, otherwise):
    """The number after `-lent-` in a file's name."""
    told = re.search(r"-lent-(\d+)\.bin$", name)
    return int(told.group(1)) if told else otherwise


def record(name, data):
    if name in vectors:
        raise SystemExit(f"{name}: made twice")
    vectors[name] = data if isinstance(data, bytes) else data.blocks()
    return list(faults(layout_of(name), vectors[name], lent_words(name)))


def refused(layout, row, name, clause, data, also=()):
    """A vector that breaks one clause of a row, and `also` clauses (row, clause) that the fault brings along."""
    name = f"{layout.name}-r{row}-{name}.bin"
    found = {(f.row, f.clause) for f in record(name, data)}
    want = {(row, clause), *also}
    if found != want:
        raise SystemExit(f"{name}: meant to break {sorted(want)}, and breaks {sorted(found)}")
    cover.setdefault((layout.name, row, clause), ([], []))[0].append(name)


def accepted(layout, name, about, data):
    """A good vector, the neighbour of refused ones for each clause (row, clause) of `about`. The same bytes are kept once."""
    name, data = f"{layout.name}-ok-{name}.bin", data if isinstance(data, bytes) else data.blocks()
    same = (layout.name, lent_words(name), data)
    if same not in good_names:
        good_names[same] = name
        found = record(name, data)
        if found:
            raise SystemExit(f"{name}: meant to be good, and {found[0]}")
    name = good_names[same]
    for row, clause in about:
        cover.setdefault((layout.name, row, clause), ([], []))[1].append(name)


# ---- good sheets, and changes of them

def but(sheet, section, number, **words):
    """The sheet with words of one record changed; classes are counted from 1, other records from 0."""
    sheet = sheet.copy()
    for word, value in words.items():
        sheet.put(section, number - (section == "class"), word.replace("_", " "), value)
    return sheet


def renamed(sheet, section, number, part, value):
    """The sheet with a record's name or descriptor replaced by bytes that are appended to the text."""
    start, sheet = len(sheet.text), sheet.copy()
    sheet.text += value
    return but(sheet, section, number, **{part + "_start": start, part + "_length": len(value)})


def padded(sheet, residue):
    """The sheet with unused zero bytes after its text, until its length is residue modulo 4."""
    sheet = sheet.copy()
    sheet.text += bytes((residue - len(sheet.text)) % 4)
    return sheet


def with_word(data, at, value):
    """Bytes with the word at index `at` of the file replaced (checks are words 127, 255, ...)."""
    return data[:4 * at] + (value % WORD).to_bytes(4, "little") + data[4 * at + 4:]


def word_of(data, at):
    return int.from_bytes(data[4 * at:4 * at + 4], "little")


CARD = sheetform.parse("""
class Card
  method open ()V 4096
  method close ()V 4112
class VipCard extends Card
  method close ()V 8192
  method mark ()V 8208
""")

CLASSES = sheetform.parse("""
class A
  method m ()V 10
  method n (I)V 11
  field x I 0
  field y J 1
class B extends A generated
  state 3
  words 4
  implements A
  compiler 12 0 13
  method m ()V 12
  field z [I 3
""")

ABI = sheetform.parse("""
abi class A size 4 words 3
  slot m ()V 3
  slot n (I)V 2
  field x I 1
abi class B
  slot k ()I 0
  field y J 2
""")

ONE_CLASS = sheetform.parse("""
class A
  implements A A
  method m ()V 10
  method n ()V 11
  field x I 0
  field y I 1
""")

ONE_ABI_CLASS = sheetform.parse("""
abi class A
  slot m ()V 0
  slot n ()V 1
  field x I 0
  field y I 1
""")

BASE = {CLASS_SHEET: CLASSES, ABI_SHEET: ABI}
ONE = {CLASS_SHEET: ONE_CLASS, ABI_SHEET: ONE_ABI_CLASS}


def text_only(layout, count, byte=0xFF):
    """No records; the text is unused bytes."""
    return Sheet(layout, text=bytes([byte]) * count)


def crowd(layout, section, count):
    """A sheet with `count` records of one section, the others few."""
    sheet = ONE[layout].copy()
    if section == "class":
        sheet = Sheet(layout)
        for i in range(count):
            sheet.text += b"c%02d" % i
            sheet.records["class"].append([3 * i, 3] + [0] * (layout.section("class").width() - 2))
        return sheet
    first = {"interface word": [1], "compiler word": [TOP]}.get(section) or sheet.records[section][0]
    sheet.records[section] += [first[:] for _ in range(count - len(sheet.records[section]))]
    for of, first_word, count_word in layout.section("class").lists:
        if of == section:
            sheet.put("class", 0, count_word, count)
    return sheet


def largest_classes():
    """All counts at their limits, and the words of the records at theirs."""
    out = []
    for n in range(1, 65):
        parent = f" extends p/C{n - 1:02}" if n % 8 != 1 else ""
        out += [f"class p/C{n:02}{parent} {sheetform.KINDS[n % 3]}", "  flags 65535", "  state 65535", "  words 65535",
                f"  implements p/C01 p/C{n:02} p/C64 p/C{65 - n:02}",
                "  compiler " + " ".join(str(TOP - 32 * n - k) for k in range(32))]
        out += [f"  statics {TOP - n}"] if sheetform.KINDS[n % 3] == "generated" else []
        for k in range(8):
            out.append(f"  method m{n}_{k} ([Lp/C{k:02};J{'I' * k})[[D {TOP - 8 * n - k} flags 0x1DFF")
            out.append(f"  field f{n}_{k} {'[' * k}Lp/C{k:02}; {8 * n + k} flags 65535")
    return filled(sheetform.parse("\n".join(out)))


def largest_abi():
    out = []
    for n in range(1, 65):
        out.append(f"abi class p/C{n:02} size 1024 words 4096")
        out += [f"  slot m{n}_{k} ([Lp/C{n:02};J)V {1023 - k}" for k in range(8)]
        out += [f"  field f{n}_{k} [D {4095 - k}" for k in range(4)]
    return filled(sheetform.parse("\n".join(out)))


def filled(sheet):
    """The text filled to its limit with bytes of every value, which are in no part."""
    assert len(sheet.text) < sheet.layout.text_limit
    sheet.text += bytes(i % 256 for i in range(sheet.layout.text_limit - len(sheet.text)))
    return sheet


LARGEST = {CLASS_SHEET: largest_classes(), ABI_SHEET: largest_abi()}


# ---- row 1: the bytes and the lent words

def row_1(layout):
    smallest, largest = Sheet(layout).blocks(), LARGEST[layout].blocks()
    two = text_only(layout, 600).blocks()
    most = layout.most_blocks
    accepted(layout, "smallest", [(1, "no bytes"), (1, "whole blocks")], smallest)
    accepted(layout, "largest", [(1, "most blocks"), (1, "lent words")], largest)
    refused(layout, 1, "no-bytes", "no bytes", b"")
    for cut in (1, 511):
        refused(layout, 1, f"{cut}-bytes", "whole blocks", smallest[:cut])
    refused(layout, 1, "513-bytes", "whole blocks", smallest + b"\0")
    refused(layout, 1, "1023-bytes", "whole blocks", two[:1023])
    refused(layout, 1, f"{most}-blocks-and-a-byte", "whole blocks", largest + b"\0")
    for count in (most + 1, most + 2):
        refused(layout, 1, f"{count}-blocks-lent-{count * BLOCK_WORDS}", "most blocks",
                blocks(Sheet(layout).words(), count), also=[(3, "blocks: none too many")])
    refused(layout, 1, f"{most + 1}-blocks", "most blocks", blocks(largest_words(layout), most + 1),
            also=[(1, "lent words"), (3, "blocks: none too many")])
    for name, data, words in (("smallest", smallest, 127), ("two-blocks", two, 254), ("largest", largest, most * BLOCK_WORDS)):
        refused(layout, 1, f"{name}-lent-{words - 1}", "lent words", data)
        accepted(layout, f"{name}-lent-{words}", [(1, "lent words")], data)
    refused(layout, 1, "smallest-lent-0", "lent words", smallest)
    refused(layout, 1, "two-blocks-lent-127", "lent words", two)
    accepted(layout, "smallest-lent-128", [(1, "lent words")], smallest)
    accepted(layout, "largest-lent-11938", [(1, "lent words")], largest)


def largest_words(layout):
    return LARGEST[layout].words()


# ---- row 2: the check words

def row_2(layout):
    about = [(2, "check word")]
    sheet = BASE[layout]
    good = sheet.blocks()
    check = word_of(good, 127)
    accepted(layout, "base", about, sheet)
    for name, value in (("plus-1", check + 1), ("without-number", check - 1), ("top-bit", check ^ 0x80000000), ("zero", 0)):
        refused(layout, 2, f"check-{name}", "check word", with_word(good, 127, value))
    refused(layout, 2, "all-zero-bytes", "check word", bytes(BLOCK_BYTES))
    # An unused text byte: the content stays good, and only the check no longer fits.
    loose = padded(sheet, 0).copy()
    loose.text += b"\x10\x20\x30\x40"
    at = len(loose.words()) - 1
    refused(layout, 2, "word-changed", "check word", with_word(loose.blocks(), at, word_of(loose.blocks(), at) ^ 1))
    accepted(layout, "word-and-check-changed", about, changed_words(loose, at, 1))
    three = text_only(layout, 1200)
    three.text = bytes(i // 512 + 1 for i in range(1200))
    data = three.blocks()
    accepted(layout, "three-blocks", about, three)
    for block in (1, 2, 3):
        at = 128 * block - 1
        refused(layout, 2, f"check-of-block-{block}", "check word", with_word(data, at, word_of(data, at) + 1))
    refused(layout, 2, "block-2-numbered-1", "check word", with_word(data, 255, word_of(data, 255) - 1))
    # Blocks 2 and 3 hold unused text bytes alone, so they may change places if their checks follow.
    full = text_only(layout, 4 * (3 * BLOCK_WORDS - len(layout.sections) - 1))
    full.text = bytes(i // 500 for i in range(len(full.text)))
    data = full.blocks()
    swapped = data[:512] + data[1024:1536] + data[512:1024]
    refused(layout, 2, "blocks-swapped", "check word", swapped)
    accepted(layout, "blocks-swapped-checks-right", about, blocks(block_words(swapped)))
    # The sum passes 2^32.
    wraps = text_only(layout, 16)
    accepted(layout, "check-wraps", about, wraps)
    data = wraps.blocks()
    refused(layout, 2, "check-wraps-plus-1", "check word", with_word(data, 127, word_of(data, 127) + 1))


def changed_words(sheet, at, bits):
    words = sheet.words()
    words[at] ^= bits
    return blocks(words)


# ---- row 3: counts, blocks, zeros, unlinked

def row_3(layout):
    limits = [(s.name, s.plural, s.limit) for s in layout.sections]
    for name, plural, limit in limits:
        clause, file = f"{plural}: at most {limit}", plural.replace(" ", "-")
        accepted(layout, f"{limit}-{file}", [(3, clause)], crowd(layout, name, limit))
        refused(layout, 3, f"{limit + 1}-{file}", clause, crowd(layout, name, limit + 1))
    text = f"text bytes: at most {layout.text_limit}"
    accepted(layout, f"{layout.text_limit}-text-bytes", [(3, text)], text_only(layout, layout.text_limit))
    refused(layout, 3, f"{layout.text_limit + 1}-text-bytes", text, text_only(layout, layout.text_limit + 1))
    # Counts whose sections would wrap at 2^32 words.
    for i, (plural, limit) in enumerate([(p, m) for _, p, m in limits] + [("text bytes", layout.text_limit)]):
        words = Sheet(layout).words()
        words[i] = TOP
        refused(layout, 3, f"count-{plural.replace(' ', '-')}-top", f"{plural}: at most {limit}", blocks(words, 1),
                also=[(3, "blocks: enough")])
    row_3_blocks(layout)
    row_3_zeros(layout)
    if layout is CLASS_SHEET:
        row_3_unlinked()
        row_3_statics()
        row_3_old_form()


def row_3_blocks(layout):
    fit = 4 * (BLOCK_WORDS - len(layout.sections) - 1)  # text bytes that fill one block
    fits, over = text_only(layout, fit), text_only(layout, fit + 1)
    accepted(layout, "127-words", [(3, "blocks: enough"), (3, "blocks: none too many")], fits)
    accepted(layout, "128-words", [(3, "blocks: enough"), (3, "blocks: none too many")], over)
    refused(layout, 3, "128-words-in-one-block", "blocks: enough", blocks(over.words()[:127], 1))
    refused(layout, 3, "127-words-in-two-blocks", "blocks: none too many", blocks(fits.words(), 2))
    refused(layout, 3, "smallest-in-two-blocks", "blocks: none too many", blocks(Sheet(layout).words(), 2))
    most = layout.most_blocks
    refused(layout, 3, f"largest-in-{most - 1}-blocks", "blocks: enough",
            blocks(largest_words(layout)[:(most - 1) * BLOCK_WORDS], most - 1))
    less = text_only(layout, fit + 1)
    refused(layout, 3, f"two-blocks-in-{most}", "blocks: none too many", blocks(less.words(), most))


def row_3_zeros(layout):
    after, bytes_after = "words after the content: zero", "bytes after the text: zero"
    sheet = BASE[layout]
    words = sheet.words()
    accepted(layout, "zero-words-after", [(3, after)], sheet)
    for name, at in (("first", len(words)), ("last", BLOCK_WORDS - 1)):
        full = words + [0] * (BLOCK_WORDS - len(words))
        full[at] = 1
        refused(layout, 3, f"{name}-word-after", after, blocks(full))
    big = largest_words(layout)
    full = big + [0] * (layout.most_blocks * BLOCK_WORDS - len(big))
    full[-1] = 0x80000000
    refused(layout, 3, "largest-last-word-after", after, blocks(full))
    for residue, at in ((1, 1), (1, 2), (1, 3), (2, 2), (2, 3), (3, 3)):
        words = padded(sheet, residue).words()
        words[-1] |= 0x80 << 8 * at
        refused(layout, 3, f"text-{residue}-byte-{at}-after", bytes_after, blocks(words))
    for residue in (0, 1, 2, 3):
        # The same byte as the text's last is good.
        loose = padded(sheet, (residue - 1) % 4)
        loose.text += b"\x80"
        accepted(layout, f"text-{residue}-last-byte", [(3, bytes_after)], loose)


def row_3_unlinked():
    for word in ("table place", "slot count"):
        clause, file = f"{word}: zero", word.replace(" ", "-")
        accepted(CLASS_SHEET, f"{file}-zero", [(3, clause)], CLASSES)
        for number in (1, 2):
            for value in (1, TOP):
                refused(CLASS_SHEET, 3, f"{file}-{number}-{'top' if value == TOP else value}", clause,
                        but(CLASSES, "class", number, **{word.replace(" ", "_"): value}))
    refused(CLASS_SHEET, 3, "linked-class", "table place: zero", but(CLASSES, "class", 1, table_place=1, slot_count=2),
            also=[(3, "slot count: zero")])


def with_statics(kind, value, sheet=CLASSES):
    """The sheet whose class 2 is of this kind and has these static words."""
    return but(sheet, "class", 2, kind=kind, static_words=value)


def row_3_statics():
    """A built or array class has none before it is linked; a generated class brings any."""
    for kind in (BUILT, ARRAY, PACKAGED):
        name = f"statics-{sheetform.KINDS[kind]}"
        accepted(CLASS_SHEET, f"{name}-0", [(3, STATICS)], with_statics(kind, 0))
        for value, file in ((1, name), (0x01000000, f"{name}-byte-3"), (TOP, f"{name}-top")):
            refused(CLASS_SHEET, 3, file, STATICS, with_statics(kind, value))
    refused(CLASS_SHEET, 3, "statics-of-1", STATICS, but(CLASSES, "class", 1, static_words=1))
    for value, file in ((1, "1"), (4000000000, "4000000000"), (TOP, "max")):
        accepted(CLASS_SHEET, f"statics-generated-{file}", [(3, STATICS)], with_statics(GENERATED, value))
    refused(CLASS_SHEET, 3, "statics-before-5", STATICS, renamed(with_statics(BUILT, 1), "method", 0, "descriptor", b"(V)V"),
            also=[(5, "method descriptor: VoidDescriptor")])


def row_3_old_form():
    """Sheets of 17-word records: bytes do not tell the form. Two that are good in both forms, and name another class in each; in the old
    form class AAAA, here BBBB. And content that takes a block more than it did: 7 classes of one-byte names, 127 words and now 134."""
    for name, words in (("generated", [1, 0, 0, 0, 0, 8, 0, 4, 0, 1, GENERATED] + [0] * 12 + [AAAA, BBBB]),
                        ("built", [1, 0, 0, 0, 0, 12, 4, 4, 0, 1, BUILT] + [0] * 12 + [0, AAAA, BBBB])):
        accepted(CLASS_SHEET, f"both-forms-{name}", [(3, STATICS)], blocks(words))
    refused(CLASS_SHEET, 3, "old-form-built", STATICS, blocks([1, 0, 0, 0, 0, 8, 0, 4, 0, 1, BUILT] + [0] * 12 + [AAAA, BBBB]))
    seven = sheetform.parse("".join(f"class {c}\n" for c in "ABCDEFG"))
    enough = [(3, "blocks: enough")]
    accepted(CLASS_SHEET, "7-classes-in-two-blocks", enough, seven)
    refused(CLASS_SHEET, 3, "7-classes-in-one-block", enough[0][1], blocks(seven.words()[:127], 1))


# ---- row 4: every record's rules

def row_4(layout):
    for section in layout.sections:
        for part in section.parts:
            row_4_part(layout, section, part)
        for of, first, count in section.lists:
            row_4_list(layout, of, first, count)
        for word, most in section.most:
            if word != "compiler slots":
                row_4_most(layout, section, word, most)
        for word, mask in section.mask:
            row_4_mask(layout, section, word, mask)
    if layout is CLASS_SHEET:
        row_4_parents()
        row_4_interfaces()
        row_4_compiler_tables()
        row_4_names()
        row_4_statics()
        row_4_overlaps("method")
        row_4_overlaps("field")
        row_4_class_names()
    else:
        row_4_abi_shared()
    row_4_unowned(layout)


def last_number(layout, section):
    return len(BASE[layout].records[section]) - (section != "class")


def row_4_part(layout, section, part):
    """A name or a descriptor of the last record: its place, its length, its bytes."""
    who, file, number = f"{section.name} {part}", f"{section.name}-{part}", last_number(layout, section.name)
    base = BASE[layout]
    grammar = section.grammar if part == "descriptor" else ""

    def spelt(size, byte=b"p", last=False):
        """A good value of `size` bytes that holds `byte`, near its end or at its start."""
        if grammar == "method":
            return b"(L" + (size - 6) * b"p" + byte + b";)V"
        if grammar == "field":
            return b"L" + (size - 3) * b"p" + byte + b";"
        return (size - 1) * b"p" + byte if last else byte + (size - 1) * b"p"

    inside = [(4, f"{who}: inside the text")]
    at_end = renamed(padded(base, 3), section.name, number, part, spelt(6))  # the text ends at 1 modulo 4
    accepted(layout, f"{file}-to-text-end", inside, at_end)
    refused(layout, 4, f"{file}-past-text", inside[0][1],
            but(at_end, section.name, number, **{part + "_length": 7}))
    refused(layout, 4, f"{file}-after-text", inside[0][1],
            but(at_end, section.name, number, **{part + "_start": len(at_end.text), part + "_length": 1}))
    refused(layout, 4, f"{file}-start-top", inside[0][1],
            but(base, section.name, number, **{part + "_start": TOP, part + "_length": 1}))
    refused(layout, 4, f"{file}-length-top", inside[0][1],
            but(base, section.name, number, **{part + "_start": 1, part + "_length": TOP}),
            also=[(4, f"{who}: at most 255 bytes")])

    lengths = [(4, f"{who}: at least 1 byte"), (4, f"{who}: at most 255 bytes")]
    grammar_too = {"": [], "field": [(5, f"{section.name} descriptor: FieldType")],
                   "method": [(5, f"{section.name} descriptor: opening parenthesis")]}[grammar]
    refused(layout, 4, f"{file}-0-bytes", lengths[0][1],
            but(base, section.name, number, **{part + "_length": 0}), also=grammar_too)
    least = {"": b"p", "field": b"I", "method": b"()V"}[grammar]
    accepted(layout, f"{file}-{len(least)}-byte", lengths[:1], renamed(base, section.name, number, part, least))
    accepted(layout, f"{file}-255-bytes", lengths[1:], renamed(base, section.name, number, part, spelt(255)))
    refused(layout, 4, f"{file}-256-bytes", lengths[1][1], renamed(base, section.name, number, part, spelt(256)))

    low, high = (4, f"{who}: bytes from 0x21"), (4, f"{who}: bytes to 0x7E")
    for end in ("first", "last") if not grammar else ("",):
        for byte, clause in ((0x00, low), (0x20, low), (0x21, None), (0x7E, None), (0x7F, high), (0x80, high), (0xFF, high)):
            name = f"{file}-{end}-0x{byte:02x}" if end else f"{file}-0x{byte:02x}"
            sheet = renamed(base, section.name, number, part, spelt(6, bytes([byte]), end == "last"))
            if clause:
                refused(layout, 4, name, clause[1], sheet)
            else:
                accepted(layout, name, [low if byte == 0x21 else high], sheet)


def row_4_list(layout, of, first, count):
    """A list of the only class, whose section has two records."""
    clause, file = f"class {of} list: inside its section", f"{of.replace(' ', '-')}-list"
    about = [(4, clause)]

    def listed(start, size):
        return but(ONE[layout], "class", 1, **{first.replace(" ", "_"): start, count.replace(" ", "_"): size})

    for name, start, size in (("whole", 0, 2), ("at-end", 1, 1), ("empty", 0, 0), ("empty-at-end", 2, 0)):
        accepted(layout, f"{file}-{name}", about, listed(start, size))
    for name, start, size in (("one-past", 0, 3), ("shifted", 1, 2), ("after-end", 2, 1), ("empty-past-end", 3, 0),
                              ("first-top", TOP, 1), ("first-top-empty", TOP, 0), ("count-top", 1, TOP), ("count-half", 2, 1 << 31)):
        refused(layout, 4, f"{file}-{name}", clause, listed(start, size))


def row_4_most(layout, section, word, most):
    clause, file = f"{section.name} {word}: at most {most}", f"{section.name}-{word}".replace(" ", "-")
    number = last_number(layout, section.name)
    for value in (0, most):
        accepted(layout, f"{file}-{value}", [(4, clause)],
                 but(BASE[layout], section.name, number, **{word.replace(" ", "_"): value}))
    for value in (most + 1, TOP):
        refused(layout, 4, f"{file}-{'top' if value == TOP else value}", clause,
                but(BASE[layout], section.name, number, **{word.replace(" ", "_"): value}))


def row_4_mask(layout, section, word, mask):
    """Each forbidden bit alone, and all allowed bits."""
    clause, file = f"{section.name} {word}: within 0x{mask:04X}", f"{section.name}-{word}"
    for value in (0, mask):
        accepted(layout, f"{file}-0x{value:04x}", [(4, clause)], but(BASE[layout], section.name, 0, flags=value))
    for bit in range(32):
        if not mask >> bit & 1:
            refused(layout, 4, f"{file}-0x{1 << bit:04x}", clause, but(BASE[layout], section.name, 0, flags=1 << bit))
    refused(layout, 4, f"{file}-0x{mask + 1:04x}", clause, but(BASE[layout], section.name, 2, flags=mask + 1))


def row_4_parents():
    clause = "class parent: below the class"
    three = crowd(CLASS_SHEET, "class", 3)
    for name, parent in (("none", 0), ("first", 1), ("next-below", 2)):
        accepted(CLASS_SHEET, f"parent-{name}", [(4, clause)], but(three, "class", 3, parent=parent))
    for name, number, parent in (("equal", 2, 2), ("above", 2, 3), ("of-first-equal", 1, 1), ("of-last-equal", 3, 3),
                                 ("past-count", 3, 4), ("top", 3, TOP)):
        refused(CLASS_SHEET, 4, f"parent-{name}", clause, but(three, "class", number, parent=parent))


def row_4_interfaces():
    zero, above = "interface word: not 0", "interface word: at most the class count"
    for number in (1, 2):
        accepted(CLASS_SHEET, f"interface-word-{number}", [(4, zero), (4, above)],
                 but(CLASSES, "interface word", 0, class_number=number))
    refused(CLASS_SHEET, 4, "interface-word-0", zero, but(CLASSES, "interface word", 0, class_number=0))
    refused(CLASS_SHEET, 4, "interface-word-3-of-2", above, but(CLASSES, "interface word", 0, class_number=3))
    refused(CLASS_SHEET, 4, "interface-word-top", above, but(CLASSES, "interface word", 0, class_number=TOP))
    # Words in no class's list count too.
    loose = but(CLASSES, "class", 2, interface_count=0)
    accepted(CLASS_SHEET, "interface-word-unowned", [(4, zero), (4, above)], loose)
    refused(CLASS_SHEET, 4, "interface-word-unowned-0", zero, but(loose, "interface word", 0, class_number=0))
    refused(CLASS_SHEET, 4, "interface-word-unowned-3-of-2", above, but(loose, "interface word", 0, class_number=3))
    shared = but(CLASSES, "class", 1, first_interface_word=0, interface_count=1)
    accepted(CLASS_SHEET, "interface-lists-shared", [(4, above)], shared)


def row_4_compiler_tables():
    inside, none = "class compiler table: inside its section", "class compiler slots: 0 without a table"
    most = "class compiler slots: at most 1024"

    def table(first, slots, sheet=CLASSES, number=2):
        return but(sheet, "class", number, compiler_table=first, compiler_slots=slots)

    for name, first, slots in (("whole", 1, 3), ("at-end", 3, 1), ("no-slots", 1, 0), ("no-slots-at-end", 4, 0)):
        accepted(CLASS_SHEET, f"compiler-table-{name}", [(4, inside)], table(first, slots))
    for name, first, slots in (("one-past", 1, 4), ("shifted", 2, 3), ("after-end", 4, 1), ("no-slots-past-end", 5, 0),
                               ("top", TOP, 0), ("top-1-slot", TOP, 1), ("top-2-slots", TOP, 2), ("top-1024-slots", TOP, 1024)):
        refused(CLASS_SHEET, 4, f"compiler-table-{name}", inside, table(first, slots))
    accepted(CLASS_SHEET, "compiler-table-none", [(4, none)], table(0, 0))
    for slots in (1, 3):
        refused(CLASS_SHEET, 4, f"compiler-table-none-{slots}-slots", none, table(0, slots))
    accepted(CLASS_SHEET, "compiler-table-built", [(4, inside)], table(1, 3, number=1))
    refused(CLASS_SHEET, 4, "compiler-table-built-one-past", inside, table(1, 4, number=1))
    many = crowd(CLASS_SHEET, "compiler word", 1025)
    accepted(CLASS_SHEET, "compiler-slots-1024", [(4, most)], table(2, 1024, many, 1))
    refused(CLASS_SHEET, 4, "compiler-slots-1025", most, table(1, 1025, many, 1))
    refused(CLASS_SHEET, 4, "compiler-slots-top", most, table(2, TOP, many, 1), also=[(4, inside)])


def row_4_names():
    clause = "class names: all different"
    three = crowd(CLASS_SHEET, "class", 3)
    for name, number, start, length in (("shared-part", 2, 0, 3), ("first-and-third", 3, 0, 3)):
        refused(CLASS_SHEET, 4, f"names-{name}", clause, but(three, "class", number, name_start=start, name_length=length))
    refused(CLASS_SHEET, 4, "names-same-bytes-twice", clause, renamed(three, "class", 3, "name", b"c00"))
    long = renamed(renamed(three, "class", 1, "name", b"x" * 255), "class", 3, "name", b"x" * 255)
    refused(CLASS_SHEET, 4, "names-same-255-bytes", clause, long)
    for name, value in (("last-byte", b"c03"), ("first-byte", b"d00"), ("prefix", b"c0"), ("longer", b"c000"), ("case", b"C00")):
        accepted(CLASS_SHEET, f"names-differ-{name}", [(4, clause)], renamed(three, "class", 3, "name", value))
    accepted(CLASS_SHEET, "names-overlap", [(4, clause)], but(three, "class", 3, name_start=1, name_length=3))
    late = renamed(renamed(three, "class", 1, "name", b"x" * 255), "class", 3, "name", b"x" * 254 + b"y")
    accepted(CLASS_SHEET, "names-differ-at-byte-254", [(4, clause)], late)


def row_4_statics():
    """A class of another kind is neither built nor array: its static words are not row 3's."""
    for kind in (4, TOP):
        refused(CLASS_SHEET, 4, f"kind-{'top' if kind == TOP else kind}-statics", "class kind: at most 3", with_statics(kind, 1))


def row_4_overlaps(of):
    """Three classes over four records: their lists as (first, count)."""
    clause = f"class {of} lists: apart"
    sheet = crowd(CLASS_SHEET, "class", 3)
    sheet.text += b"m()VI"
    at = len(sheet.text) - 5
    for i in range(4):
        descriptor = [at + 1, 3] if of == "method" else [at + 4, 1]
        sheet.records[of].append([at, 1] + descriptor + [1, i])

    def listed(*lists):
        out = sheet
        for number, (first, count) in enumerate(lists, 1):
            out = but(out, "class", number, **{f"first_{of}": first, f"{of}_count": count})
        return out

    for name, lists in (("touch", [(0, 2), (2, 1), (3, 1)]), ("reversed", [(3, 1), (1, 2), (0, 1)]),
                        ("gap", [(0, 1), (2, 0), (3, 1)]), ("empty-inside", [(0, 3), (1, 0), (2, 0)]),
                        ("empty-first-inside", [(1, 0), (0, 3), (3, 1)]), ("all-empty", [(1, 0), (1, 0), (1, 0)])):
        accepted(CLASS_SHEET, f"{of}-lists-{name}", [(4, clause)], listed(*lists))
    for name, lists in (("overlap", [(0, 2), (1, 2), (3, 1)]), ("equal", [(0, 2), (0, 2), (3, 1)]),
                        ("nested", [(0, 4), (1, 1), (4, 0)]), ("nested-first", [(1, 1), (0, 3), (3, 1)]),
                        ("first-and-third", [(0, 2), (2, 1), (1, 1)]), ("last-two", [(0, 0), (1, 3), (3, 1)])):
        refused(CLASS_SHEET, 4, f"{of}-lists-{name}", clause, listed(*lists))


def row_4_class_names():
    """A class record's own name is any part of 0x21 to 0x7E: JVMS 4.2 counts in descriptors only."""
    for name, value in (("array", b"[I"), ("empty-identifier", b"a//b"), ("semicolon", b";"), ("dot", b"a.b")):
        accepted(CLASS_SHEET, f"class-named-{name}", [(5, "field descriptor: identifier")],
                 renamed(CLASSES, "class", 2, "name", value))
        accepted(ABI_SHEET, f"class-named-{name}", [(5, "field descriptor: identifier")],
                 renamed(ABI, "class", 2, "name", value))


def row_4_abi_shared():
    """In an ABI sheet lists may overlap, names and indices may repeat."""
    for of in ("slot", "field"):
        shared = but(ABI, "class", 2, **{f"first_{of}": 0, f"{of}_count": 2})
        accepted(ABI_SHEET, f"{of}-lists-overlap", [(4, f"class {of} list: inside its section")], shared)
    accepted(ABI_SHEET, "class-names-same", [(4, "class name: inside the text")], but(ABI, "class", 2, name_start=0, name_length=1))
    accepted(ABI_SHEET, "slot-indices-same", [(4, "slot index: at most 1023")], but(ABI, "slot", 1, index=3))


def row_4_unowned(layout):
    """A record in no class's list is judged all the same."""
    for section in layout.sections:
        if not section.grammar:
            continue
        loose = Sheet(layout, text=b"m()VIV")
        good = [1, 3] if section.grammar == "method" else [4, 1]
        loose.records[section.name] = [[0, 1] + good + [0] * (section.width() - 4)]
        word = section.words[4]
        accepted(layout, f"{section.name}-unowned", [(4, f"{section.name} name: at least 1 byte")], loose)
        refused(layout, 4, f"{section.name}-unowned-name-0-bytes", f"{section.name} name: at least 1 byte",
                but(loose, section.name, 0, name_length=0))
        rule = dict(section.most) or dict(section.mask)
        most = rule[word]
        clause = f"{section.name} {word}: " + (f"at most {most}" if section.most else f"within 0x{most:04X}")
        refused(layout, 4, f"{section.name}-unowned-{word}", clause, but(loose, section.name, 0, **{word: most + 1}))
        refused(layout, 5, f"{section.name}-unowned", f"{section.name} descriptor: " +
                ("opening parenthesis" if section.grammar == "method" else "VoidDescriptor"),
                but(loose, section.name, 0, descriptor_start=5, descriptor_length=1))


# ---- row 5: each production of JVMS 4.2, 4.3.2 and 4.3.3 broken once, and mended

FIELD_DESCRIPTORS = """
FieldType         letter              X       Z
FieldType         lower-case          i       I
FieldType         parenthesis         ()V     S
FieldType         array-of-letter     [X      [F
FieldType         class-without-L     a;      La;
VoidDescriptor    void                V       B
ComponentType     array-of-nothing    [       [C
ComponentType     arrays-of-nothing   [[[     [[[S
ComponentType     array-of-void       [V      [D
ObjectType        class-no-end        La/b    La/b;
ObjectType        class-L-alone       L       LL;
ObjectType        class-array-no-end  [La     [La;
identifier        class-empty         L;      L<;
identifier        class-first-empty   L/a;    La/a;
identifier        class-middle-empty  La//b;  La/c/b;
identifier        class-last-empty    La/;    La/(;
identifier        class-slash         L/;     LV;
unqualified-name  class-dot           La.b;   La:b;
unqualified-name  class-bracket       La[b;   La]b;
unqualified-name  class-array         L[I;    LI;
end               two-types           IJ      J
end               type-and-void       IV      D
end               type-and-semicolon  I;      C
end               after-class         La;;    Lab;
end               after-array         [II     [[I
"""

METHOD_DESCRIPTORS = """
opening-parenthesis  no-open                    V           ()V
opening-parenthesis  no-open-parameter          I)V         (I)V
opening-parenthesis  field-form                 I           ()I
opening-parenthesis  no-open-close              )V          (Z)V
closing-parenthesis  open-alone                 (           ()Z
closing-parenthesis  no-close                   (I          (I)I
closing-parenthesis  no-close-class             (La;        (La;)V
FieldType            letter                     (X)V        (S)V
FieldType            second-letter              (IX)V       (IC)V
FieldType            array-of-nothing           ([)V        ([B)V
FieldType            open-twice                 (()V        (L(;)V
FieldType            result-letter              ()X         ()F
FieldType            result-array-of-letter     ()[X        ()[F
FieldType            close-twice                ())V        (L);)V
VoidDescriptor       void                       (V)V        (D)V
VoidDescriptor       second-void                (IV)V       (ID)V
VoidDescriptor       void-no-close              (IV         (IJ)V
ComponentType        array-of-void              ([V)V       ([J)V
ComponentType        array-of-end               ([          ([I)I
ComponentType        result-array-of-void       ()[V        ()[Z
ComponentType        result-array-of-nothing    ()[         ()[S
ObjectType           class-no-end               (La)V       (La;)I
ObjectType           result-class-no-end        ()La        ()La;
identifier           class-empty                (L;)V       (Lb;)V
identifier           class-first-empty          (L/a;)V     (Lb/a;)V
identifier           class-middle-empty         (La//b;)V   (La/c/b;)V
identifier           class-last-empty           (La/;)V     (La/b;)V
identifier           result-class-empty         ()L;        ()LV;
unqualified-name     class-dot                  (La.b;)V    (La:b;)V
unqualified-name     class-bracket              (La[b;)V    (La]b;)V
unqualified-name     result-class-bracket       ()La[b;     ()La/b;
ReturnDescriptor     no-result                  ()          ()D
ReturnDescriptor     no-result-parameter        (I)         (I)J
end                  void-twice                 ()VV        ()S
end                  result-twice               ()II        ()C
end                  result-and-void            ()IV        ()J
end                  void-and-semicolon         ()V;        ()B
end                  two-descriptors            ()V()V      (J)V
end                  after-class                ()La;;      ()La/a;
"""

GOOD = {
    "field": [f"base-type-{c}:{c}" for c in "BCDFIJSZ"] + ["254-dimensions:" + "[" * 254 + "I", "named:Ljava/lang/String;"],
    "method": ["every-type:(BCDFIJSZ[ILa;)[[J", "252-parameters:(" + "I" * 252 + ")V", "250-dimensions:(" + "[" * 250 + "I)[I"],
}


def row_5(layout):
    for section in layout.sections:
        if not section.grammar:
            continue
        table = METHOD_DESCRIPTORS if section.grammar == "method" else FIELD_DESCRIPTORS
        number = last_number(layout, section.name)

        def described(value):
            return renamed(BASE[layout], section.name, number, "descriptor", value.encode())

        for rule, name, broken, mended in (line.split() for line in table.split("\n") if line):
            clause = f"{section.name} descriptor: {rule.replace('-', ' ')}"
            refused(layout, 5, f"{section.name}-{name}", clause, described(broken))
            accepted(layout, f"{section.name}-{name}-mended", [(5, clause)], described(mended))
        for name, value in (one.split(":") for one in GOOD[section.grammar]):
            accepted(layout, f"{section.name}-{name}", [(5, f"{section.name} descriptor: FieldType")], described(value))
        if section.grammar == "method":
            row_5_words(layout, section)


# ---- row 5: at most 255 argument words, J and D two, one for the receiver unless static; ABI slots count as instance methods

PARAMETERS = {
    # parameters: words
    "126-j-2-i": "J" * 126 + "II",  # 254
    "127-j": "J" * 127,  # 254
    "127-j-i": "J" * 127 + "I",  # 255
    "i-127-d": "I" + "D" * 127,  # 255
    "128-j": "J" * 128,  # 256
    "252-j": "J" * 252,  # 504, of 255 bytes
    "126-arrays": "[J" * 126,  # 126, of 255 bytes
    "class-and-126-j": "LJ;" + "J" * 126,  # 253
}


def row_5_words(layout, section):
    """Parameters of a member by its fifth word: flags, of which 0x0008 takes the receiver away, or an index, which counts for nothing."""
    clause, file, number = f"{section.name} descriptor: at most 255 argument words", section.name, last_number(layout, section.name)
    word, numbers = section.words[4], (1, 9, 0x0400, 0x0409) if layout is CLASS_SHEET else (0, 8, 9)
    for name, parameters in PARAMETERS.items():
        words = sum(2 if p in "JD" else 1 for p in parameters.replace("[J", "A").replace("LJ;", "L"))
        for n in numbers:
            static = layout is CLASS_SHEET and n & 0x0008
            sheet = but(renamed(BASE[layout], file, number, "descriptor", f"({parameters})V".encode()), file, number, **{word: n})
            if words + (not static) > 255:
                refused(layout, 5, f"{file}-{name}-{word}-{n}", clause, sheet)
            else:
                accepted(layout, f"{file}-{name}-{word}-{n}", [(5, clause)], sheet)
    # Row 4 goes before: 253 parameters are 256 bytes.
    for letter, also in (("I", []), ("J", [(5, clause)])):
        refused(layout, 4, f"{file}-253-{letter.lower()}", f"{file} descriptor: at most 255 bytes",
                renamed(BASE[layout], file, number, "descriptor", f"({letter * 253})V".encode()), also=also)
    # A record in no class's list.
    loose = Sheet(layout, text=b"m(" + b"J" * 127 + b"I)V")
    loose.records[file] = [[0, 1, 1, 131, 0] + [0] * (section.width() - 5)]
    refused(layout, 5, f"{file}-unowned-127-j-i", clause, loose)
    accepted(layout, f"{file}-unowned-127-j", [(5, clause)], but(renamed(loose, file, 0, "descriptor", b"(" + b"J" * 127 + b")V"), file, 0))
    if layout is CLASS_SHEET:
        accepted(layout, f"{file}-unowned-127-j-i-static", [(5, clause)], but(loose, file, 0, flags=9))
        row_5_shared(clause)


def row_5_shared(clause):
    """One descriptor part of two methods, and a constructor, which has a receiver."""
    for name, size, descriptor in (("127-j-i", 131, b"(" + b"J" * 127 + b"I)V"), ("127-j", 130, b"(" + b"J" * 127 + b")V")):
        for first, second in ((9, 1), (1, 9), (9, 9), (0x0409, 9)):
            sheet = renamed(but(CLASSES, "method", 0, flags=first), "method", 0, "descriptor", descriptor)
            sheet = but(sheet, "method", 1, flags=second, descriptor_start=len(sheet.text) - size, descriptor_length=size)
            if name == "127-j-i" and 1 in (first, second):
                refused(CLASS_SHEET, 5, f"method-shared-{name}-{first}-{second}", clause, sheet)
            else:
                accepted(CLASS_SHEET, f"method-shared-{name}-{first}-{second}", [(5, clause)], sheet)
    made = renamed(renamed(CLASSES, "method", 0, "name", b"<init>"), "method", 0, "descriptor", b"(" + b"J" * 127 + b"I)V")
    refused(CLASS_SHEET, 5, "method-constructor-127-j-i", clause, made)


# ---- two faults of different rows: the lower row is answered

def orders(layout):
    """Row 5 breaks in the first member, row 4 in the last, row 3 and 2 in the last block, row 1 by the lent words."""
    member = layout.sections[1].name
    word4, value4 = ("flags", 65536) if layout is CLASS_SHEET else ("index", 4096)
    clause = {1: "lent words", 2: "check word", 3: "words after the content: zero",
              4: f"field {word4}: at most {value4 - 1}", 5: f"{member} descriptor: VoidDescriptor"}
    for low in range(1, 6):
        for row in range(low + 1, 6):
            sheet = padded(BASE[layout], 0)
            sheet.text += b"\xEE" * 400
            if 4 in (low, row):
                sheet = but(sheet, "field", last_number(layout, "field"), **{word4: value4})
            if 5 in (low, row):
                sheet = renamed(sheet, member, 0, "descriptor", b"(V)V")
            words = sheet.words()
            words += [0] * (2 * BLOCK_WORDS - len(words))
            if 3 in (low, row):
                words[-1] = 1
            data = blocks(words)
            if 2 in (low, row):
                data = with_word(data, 255, word_of(data, 255) + 1)
            name = f"before-{row}" + ("-lent-253" if low == 1 else "")
            refused(layout, low, name, clause[low], data, also=[(row, clause[row])])
    good = padded(BASE[layout], 0)
    good.text += b"\xEE" * 400
    accepted(layout, "two-blocks", [(r, c) for r, c in clause.items()], good)


# ---- all of them

def make():
    for layout in (CLASS_SHEET, ABI_SHEET):
        row_1(layout)
        row_2(layout)
        row_3(layout)
        row_4(layout)
        row_5(layout)
        orders(layout)
    accepted(CLASS_SHEET, "card", [(4, "class parent: below the class")], CARD)
