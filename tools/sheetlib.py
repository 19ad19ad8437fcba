"""Sheets: the layouts as data, the block form, a judge of rows 1 to 5, of the writer's
rows and of the order of classes, and class sheets of one form made ones of the other.

The judge is written from docs/SPECIFICATION.md ("What a call answers", "Sheets") and the
readings in docs/DECISIONS.md, not from the Rattle code, so that each can show the
other's faults. All sums are of naturals: nothing wraps at 2^32.

Records are counted as the sheets count them: classes from 1, as parent numbers do,
all other records from 0, as the "first" words do.
"""

import heapq
import itertools
from dataclasses import dataclass

BLOCK_BYTES = 512
BLOCK_WORDS = 127  # words of content in a block; the 128th is the check word
WORD = 1 << 32


# ---- layouts

@dataclass(frozen=True)
class Section:
    """One section of a sheet: its records' words by name, and the rules that are plain data."""

    name: str  # one record, "method"
    plural: str  # "methods"
    limit: int  # most records
    words: tuple  # the words of one record, in order
    parts: tuple = ()  # text parts: words "X start" and "X length" for each X
    lists: tuple = ()  # (section of the list, word of its first record, word of its count)
    most: tuple = ()  # (word, largest value)
    mask: tuple = ()  # (word, allowed bits)
    grammar: str = ""  # the descriptor's grammar, "method" or "field"

    def width(self):
        return len(self.words)

    def at(self, word):
        return self.words.index(word)


@dataclass(frozen=True)
class Layout:
    """One kind of sheet: counts in the order of the sections, the text bytes' count last."""

    name: str
    most_blocks: int
    sections: tuple
    text_limit: int = 8192

    def section(self, name):
        return next(s for s in self.sections if s.name == name)

    def most_words(self):
        return self.most_blocks * BLOCK_WORDS

    def is_class_sheet(self):
        """Whether it is a class sheet's, of either form."""
        return "table place" in self.section("class").words


MEMBER = ("name start", "name length", "descriptor start", "descriptor length")
SIGNATURE = ("name", "descriptor")

OLD_RECORD = ("name start", "name length", "parent", "access flags", "kind",
              "first method", "method count", "first field", "field count",
              "first interface word", "interface count", "link state", "instance words",
              "compiler table", "compiler slots", "table place", "slot count")


def class_layout(name, record):
    """A class sheet whose class records have these words."""
    return Layout(name, 92, (
        Section("class", "classes", 64, record,
                parts=("name",),
                lists=(("method", "first method", "method count"),
                       ("field", "first field", "field count"),
                       ("interface word", "first interface word", "interface count")),
                most=(("access flags", 65535), ("kind", 3), ("link state", 65535),
                      ("instance words", 65535), ("compiler slots", 1024))),
        Section("method", "methods", 512, MEMBER + ("flags", "target"),
                parts=SIGNATURE, mask=(("flags", 0x1DFF),), grammar="method"),
        Section("field", "fields", 512, MEMBER + ("flags", "word index"),
                parts=SIGNATURE, most=(("flags", 65535),), grammar="field"),
        Section("interface word", "interface words", 256, ("class number",)),
        Section("compiler word", "compiler words", 2048, ("target",)),
    ))


CLASS_SHEET = class_layout("class", OLD_RECORD + ("static words",))
# The form before the eighteenth word, which only the converter reads. Bytes do not tell the two apart, so nothing here guesses: a caller
# says which layout it means (docs/DECISIONS.md).
OLD_CLASS_SHEET = class_layout("old", OLD_RECORD)

ABI_SHEET = Layout("abi", 51, (
    Section("class", "classes", 64,
            ("name start", "name length", "table size plus 1", "instance words plus 1",
             "first slot", "slot count", "first field", "field count"),
            parts=("name",),
            lists=(("slot", "first slot", "slot count"), ("field", "first field", "field count")),
            most=(("table size plus 1", 1025), ("instance words plus 1", 4097))),
    Section("slot", "slots", 512, MEMBER + ("index",),
            parts=SIGNATURE, most=(("index", 1023),), grammar="method"),
    Section("field", "fields", 256, MEMBER + ("index",),
            parts=SIGNATURE, most=(("index", 4095),), grammar="field"),
))

# A packaged class is a built class linked by packages (JVMS 5.4.5).
BUILT, GENERATED, ARRAY, PACKAGED = range(4)
# What is 0 in every class of a set before it is linked, the static words in a built or array class alone.
ZERO_UNLINKED = ("table place", "slot count", "static words")
STATICS = "static words: zero in a built or array class"


def layout_of(path):
    """The layout that a file's name tells: an ABI sheet where it starts with `abi`."""
    return ABI_SHEET if path.replace("\\", "/").split("/")[-1].startswith("abi") else CLASS_SHEET


# ---- sheets as records, as words, as blocks

class Sheet:
    """The content of a sheet: a list of records for each section, and the text."""

    def __init__(self, layout, records=None, text=b""):
        self.layout = layout
        self.records = records or {s.name: [] for s in layout.sections}
        self.text = text

    def copy(self):
        return Sheet(self.layout, {k: [r[:] for r in v] for k, v in self.records.items()}, self.text)

    def get(self, section, record, word):
        """A word of a record, the record counted from 0."""
        return self.records[section][record][self.layout.section(section).at(word)]

    def put(self, section, record, word, value):
        self.records[section][record][self.layout.section(section).at(word)] = value

    def part(self, section, record, part):
        """The bytes of a text part, as far as they lie in the text."""
        start = self.get(section, record, part + " start")
        return self.text[start:start + self.get(section, record, part + " length")]

    def counts(self):
        return [len(self.records[s.name]) for s in self.layout.sections] + [len(self.text)]

    def words(self):
        """The content words, without the zeros that fill the last block."""
        words = self.counts()
        for section in self.layout.sections:
            for record in self.records[section.name]:
                words += record
        padded = self.text + bytes(-len(self.text) % 4)
        return words + [int.from_bytes(padded[i:i + 4], "little") for i in range(0, len(padded), 4)]

    def blocks(self):
        return blocks(self.words())


def blocks(words, count=None):
    """Words as blocks with their checks: the least number of blocks, or `count`, filled with 0."""
    count = max(1, -(-len(words) // BLOCK_WORDS)) if count is None else count
    words = list(words) + [0] * (count * BLOCK_WORDS - len(words))
    out = bytearray()
    for number in range(1, count + 1):
        block = words[(number - 1) * BLOCK_WORDS:number * BLOCK_WORDS]
        for word in block + [(sum(block) + number) % WORD]:
            out += word.to_bytes(4, "little")
    return bytes(out)


def block_words(data):
    """The word list of whole blocks, checks left out."""
    words = [int.from_bytes(data[i:i + 4], "little") for i in range(0, len(data), 4)]
    return [w for i, w in enumerate(words) if i % 128 != BLOCK_WORDS]


def content_size(layout, counts):
    """How many words the counts and their sections take."""
    size = len(counts) + -(-counts[-1] // 4)
    return size + sum(count * s.width() for count, s in zip(counts, layout.sections))


def section_start(layout, counts, name):
    """The index of the first word of a section; of the text for "text"."""
    start = len(counts)
    for count, section in zip(counts, layout.sections):
        if section.name == name:
            return start
        start += count * section.width()
    return start


def sheet_of(layout, words):
    """The content of a word list, or None where it holds fewer words than its counts ask."""
    n = len(layout.sections) + 1
    counts = words[:n]
    if len(counts) < n or content_size(layout, counts) > len(words):
        return None
    sheet, at = Sheet(layout), n
    for count, section in zip(counts, layout.sections):
        width = section.width()
        sheet.records[section.name] = [words[at + i * width:at + (i + 1) * width] for i in range(count)]
        at += count * width
    text = b"".join(w.to_bytes(4, "little") for w in words[at:at + -(-counts[-1] // 4)])
    sheet.text = text[:counts[-1]]
    return sheet


def file_byte(word, byte=0):
    """The place in the file of a byte of the word list, counted from 0."""
    return word // BLOCK_WORDS * BLOCK_BYTES + word % BLOCK_WORDS * 4 + byte


def spot(word, byte=0):
    return f"byte {file_byte(word, byte)} of the file (block {word // BLOCK_WORDS + 1})"


# ---- descriptors: JVMS 4.3.2 and 4.3.3, names by 4.2

ARGUMENT_LIMIT = 255  # most words of a method's arguments, the receiver's among them
STATIC = 0x0008  # the flag of a method without a receiver


class Broken(Exception):
    """A descriptor that breaks JVMS 4.3: where, which rule, what is wrong."""

    def __init__(self, at, rule, what):
        super().__init__(what)
        self.at, self.rule, self.what = at, rule, what


GRAMMAR_RULES = {
    "field": ("FieldType", "VoidDescriptor", "ComponentType", "ObjectType", "identifier",
              "unqualified name", "end"),
    "method": ("opening parenthesis", "closing parenthesis", "FieldType", "VoidDescriptor",
               "ComponentType", "ObjectType", "identifier", "unqualified name",
               "ReturnDescriptor", "end", "at most 255 argument words"),
}


def field_type(bs, at, missing="FieldType"):
    """Reads a FieldType at `at`; answers the place after it."""
    while bs[at:at + 1] == b"[":
        at, missing = at + 1, "ComponentType"
    if at == len(bs):
        raise Broken(at, missing, "the descriptor ends where a type must stand")
    letter = chr(bs[at])
    if letter in "BCDFIJSZ":
        return at + 1
    if letter == "L":
        return class_name(bs, at + 1)
    if letter == "V":
        raise Broken(at, missing if missing == "ComponentType" else "VoidDescriptor",
                     "V (void) stands only as a method's result")
    raise Broken(at, "FieldType", f"no type starts with {shown(bs[at:at + 1])}")


def class_name(bs, at):
    """Reads identifiers parted by slashes, then a semicolon; answers the place after it."""
    while True:
        start = at
        while at < len(bs) and bs[at] not in b".;[/":
            at += 1
        if at == len(bs):
            raise Broken(at, "ObjectType", "a class name that starts with L has no ; at its end")
        if bs[at] in b".[":
            raise Broken(at, "unqualified name", f"{chr(bs[at])} may not stand in a class name")
        if at == start:
            raise Broken(at, "identifier", "a part of the class name between / and / or ; is empty")
        if bs[at] == ord(";"):
            return at + 1
        at += 1


def read_field_descriptor(bs):
    end(bs, field_type(bs, 0))


def read_method_descriptor(bs):
    """Reads a MethodDescriptor; answers the places of its parameters, each (start, end)."""
    if bs[:1] != b"(":
        raise Broken(0, "opening parenthesis", "a method descriptor starts with (")
    at, parameters = 1, []
    while bs[at:at + 1] != b")":
        after = field_type(bs, at, "closing parenthesis")
        parameters.append((at, after))
        at = after
    at += 1
    end(bs, at + 1 if bs[at:at + 1] == b"V" else field_type(bs, at, "ReturnDescriptor"))
    return parameters


def end(bs, at):
    if at != len(bs):
        raise Broken(at, "end", f"{shown(bs[at:])} stands after the descriptor's end")


def read_method(bs, flags):
    """Reads the descriptor of a method with these flags; answers its argument words: J and D two, one for the receiver unless static."""
    words, over = 0 if flags & STATIC else 1, None
    for start, _ in read_method_descriptor(bs):
        words += 2 if bs[start] in b"JD" else 1
        if words > ARGUMENT_LIMIT and over is None:
            over = start
    if over is not None:
        receiver = "" if flags & STATIC else ", one of them the receiver's"
        raise Broken(over, "at most 255 argument words", f"the arguments take {words} words{receiver}, and a method has at most {ARGUMENT_LIMIT}")
    return words


def descriptor_fault(grammar, bs, flags=0):
    """None, or the Broken that says where a descriptor, of a method with these flags, breaks its rules."""
    try:
        read_method(bytes(bs), flags) if grammar == "method" else read_field_descriptor(bytes(bs))
    except Broken as broken:
        return broken
    return None


def argument_words(bs, flags):
    """(0, words) of the descriptor of a method with these flags, or (5, 0)."""
    try:
        return 0, read_method(bytes(bs), flags)
    except Broken:
        return 5, 0


def shown(bs):
    """Bytes as text, those that are not 0x21 to 0x7E, and the backslash, as \\xHH."""
    return "".join(chr(b) if 0x21 <= b <= 0x7E and b != 0x5C else f"\\x{b:02x}" for b in bs)


# ---- the judge

@dataclass(frozen=True)
class Fault:
    row: int
    clause: str  # which condition of the row, as clauses() lists them
    where: str  # the record and the byte, in plain words
    at: tuple = ()  # the section, the record's number from 0 and the word or part; of a count its section and its limit
    what: object = ""  # what is wrong there, in words for the text form; of a name that is taken, the first class that has it


def judge(layout, data, lent=None):
    """(0, words written) where the sheet is accepted, else (row, where in plain words)."""
    for fault in faults(layout, data, layout.most_words() if lent is None else lent):
        return fault.row, fault.where
    return 0, len(data) // BLOCK_BYTES * BLOCK_WORDS


def judge_words(layout, words):
    """Of words already read: (0, "") or (row, where), by count limits, fit, row 4 and row 5."""
    for fault in word_faults(layout, words):
        return fault.row, fault.where
    return 0, ""


def judge_set(words, abi):
    """The row that refuses both sheets' words already read, row by row over both, or 0."""
    rows = judge_words(CLASS_SHEET, words)[0], judge_words(ABI_SHEET, abi)[0]
    return min((row for row in rows if row), default=0)


def judge_writing(words, room):
    """Of the writer with `room` bytes lent: (0, blocks), or (row, 0)."""
    for fault in writing_faults(words, room):
        return fault.row, 0
    return 0, len(blocks(content_words(CLASS_SHEET, words))) // BLOCK_BYTES


def judge_loosely(data, lent):
    """Of a class sheet whose classes may come in any order, rows 1 to 3 alone: (0, words written), or (row, 0)."""
    for fault in faults(CLASS_SHEET, data, lent):
        if fault.row <= 3:
            return fault.row, 0
    return 0, len(data) // BLOCK_BYTES * BLOCK_WORDS


def judge_order(words, room):
    """Of the step that renumbers class words, with `room` list words lent: (0, the old numbers in new order), or (row, [])."""
    for fault in order_faults(words, room):
        return fault.row, []
    return 0, smallest_order(parents_of(words))


def faults(layout, data, lent):
    """Every fault, row by row: of each row as far as the rows before let it be looked at."""
    yield from row_1(layout, data, lent)
    if not data or len(data) % BLOCK_BYTES:
        return
    yield from row_2(data)
    words = block_words(data)
    yield from row_3(layout, words)
    sheet = sheet_of(layout, words)
    if sheet is not None:
        yield from content_faults(sheet)


def word_faults(layout, words):
    """Every fault of words already read, row by row, as a link or an ask applies rows 3 to 5."""
    n = len(layout.sections) + 1
    counts = words[:n]
    if len(counts) < n:
        yield Fault(3, "counts: all there", f"there are {len(counts)} words, and the counts alone are {n}")
        return
    yield from count_faults(layout, counts)
    sheet = sheet_of(layout, words)
    if sheet is None:
        yield Fault(3, "content: fits the words", f"the content takes {content_size(layout, counts)} words, and there are {len(words)}")
    else:
        yield from content_faults(sheet)


def writing_faults(words, room):
    """Every fault of class words that are to be written into `room` bytes: "3 to 5 as for a link; 17, after them, if any class has a nonzero
    table place or slot count or a nonzero byte follows the text in its last word; 18, last, if the lent bytes are too few"; 17 also takes
    "a nonzero value in an unlinked built or array class"."""
    yield from word_faults(CLASS_SHEET, words)
    sheet = sheet_of(CLASS_SHEET, words)
    if sheet is None:
        return
    yield from linked_faults(sheet, 17, "only an unlinked set is written")
    content = content_words(CLASS_SHEET, words)
    text = b"".join(word.to_bytes(4, "little") for word in content)[4 * section_start(CLASS_SHEET, sheet.counts(), "text"):]
    for i in range(len(sheet.text), len(text)):
        if text[i]:
            yield Fault(17, "bytes after the text: zero", f"byte {i - len(sheet.text)} after the text in its last word is {text[i]}, not 0")
    yield from room_faults(sheet, room)


# ---- class sheets of 17 words a record made ones of 18, and back

def static_sum(sheet, i):
    """"The sum of its static field widths": over the class's own fields with 0x0008, J and D two words, others one."""
    first, count = sheet.get("class", i, "first field"), sheet.get("class", i, "field count")
    own = range(len(sheet.records["field"]))[first:first + count]
    return sum(2 if sheet.part("field", f, "descriptor") in (b"J", b"D") else 1 for f in own if sheet.get("field", f, "flags") & 0x0008)


def is_generated(sheet, i):
    return sheet.get("class", i, "kind") == GENERATED


def to_new_form(sheet):
    """A sheet of the old form in the new one: "a generated class gets the sum of its static field widths", every other class 0."""
    made = sheet.copy()
    made.layout = CLASS_SHEET
    for i, record in enumerate(made.records["class"]):
        record.append(static_sum(sheet, i) if is_generated(sheet, i) else 0)
    return made


def to_old_form(sheet):
    """A sheet of the new form in the old one: each class record without its last word."""
    made = sheet.copy()
    made.layout = OLD_CLASS_SHEET
    for record in made.records["class"]:
        record.pop()
    return made


def widening_faults(data, room):
    """Every fault of a sheet of the old form that is to be widened into `room` bytes: "rows 1 to 5 of the input's form", no words being lent, and "18, last, if the
    output is too short"."""
    yield from faults(OLD_CLASS_SHEET, data, len(data))
    sheet = whole_sheet(OLD_CLASS_SHEET, data)
    if sheet is not None:
        yield from room_faults(to_new_form(sheet), room)


def narrowing_faults(data, room):
    """Every fault of a sheet of the new form that is to be narrowed: between the same rows "23, after them, if going back drops a generated
    class's word that is not that sum"."""
    yield from faults(CLASS_SHEET, data, len(data))
    sheet = whole_sheet(CLASS_SHEET, data)
    if sheet is None:
        return
    for i in range(len(sheet.records["class"])):
        if is_generated(sheet, i) and sheet.get("class", i, "static words") != static_sum(sheet, i):
            yield Fault(23, "static words: the sum", f"{said(sheet, 'class', i, 'static words')}, and the static fields take {static_sum(sheet, i)}",
                        ("class", i, "static words"))
    yield from room_faults(to_old_form(sheet), room)


def whole_sheet(layout, data):
    """The content of whole blocks, or None where they do not hold what their counts ask."""
    return sheet_of(layout, block_words(data)) if data and len(data) % BLOCK_BYTES == 0 else None


def room_faults(sheet, room):
    need = len(sheet.blocks())
    if room < need:
        yield Fault(18, "lent bytes: enough", f"{room} bytes are lent, and {need // BLOCK_BYTES} blocks take {need}")


def widen(data, room=None):
    """A sheet of the old form as the blocks of the new one: (0, blocks), or (row, where)."""
    for fault in widening_faults(data, CLASS_SHEET.most_blocks * BLOCK_BYTES if room is None else room):
        return fault.row, fault.where
    return 0, to_new_form(whole_sheet(OLD_CLASS_SHEET, data)).blocks()


def narrow(data, room=None):
    """A sheet of the new form as the blocks of the old one: (0, blocks), or (row, where)."""
    for fault in narrowing_faults(data, CLASS_SHEET.most_blocks * BLOCK_BYTES if room is None else room):
        return fault.row, fault.where
    return 0, to_old_form(whole_sheet(CLASS_SHEET, data)).blocks()


# ---- the order of classes

def order_faults(words, room):
    """Every fault of class words that are to be renumbered with `room` list words: "3, first, as for a link or if a table place or slot
    count is not 0", or if a built or array class has static words; "4, if a parent number exceeds the count or an interface word names no class; 19, after that, if following parents from
    some class returns to a class already passed; 15, last, if the list is too short"."""
    yield from (fault for fault in word_faults(CLASS_SHEET, words) if fault.row == 3)
    sheet = sheet_of(CLASS_SHEET, words)
    if sheet is None:
        return
    classes = range(len(sheet.records["class"]))
    yield from linked_faults(sheet, 3, "only an unlinked set is renumbered")
    parents = parents_of(words)
    for i in classes:
        if parents[i] > len(parents):
            yield Fault(4, "class parent: at most the class count", f"{said(sheet, 'class', i, 'parent')}, and the classes are 1 to {len(parents)}",
                        ("class", i, "parent"))
    yield from (fault for fault in class_faults(sheet) if fault.clause.startswith("interface word"))
    for i in classes:
        if returns(parents, i + 1):
            yield Fault(19, "parents: none returns", f"{label(sheet, 'class', i)}: its chain of parents returns to a class already passed",
                        ("class", i, "parent"))
    if room < len(parents):
        yield Fault(15, "list words: enough", f"{room} list words are lent, and there are {len(parents)} classes")


def parents_of(words):
    """The parent number of each class."""
    sheet = sheet_of(CLASS_SHEET, words)
    return [sheet.get("class", i, "parent") for i in range(len(sheet.records["class"]))]


def returns(parents, number):
    """Whether following parents from a class returns to a class already passed; a parent that is no class ends the way."""
    passed = set()
    while 1 <= number <= len(parents):
        if number in passed:
            return True
        passed.add(number)
        number = parents[number - 1]
    return False


def smallest_order(parents):
    """Of all orders that put parents first the smallest, read from the front: for up to 6 classes by trying them all, for more by a heap of
    those whose parent is placed. No way up returns."""
    numbers = range(1, len(parents) + 1)
    if len(parents) <= 6:
        return next(list(order) for order in itertools.permutations(numbers) if puts_parents_first(parents, order))
    ready, order = [number for number in numbers if not parents[number - 1]], []
    while ready:
        order.append(heapq.heappop(ready))
        for number in numbers:
            if parents[number - 1] == order[-1]:
                heapq.heappush(ready, number)
    return order


def puts_parents_first(parents, order):
    return all(not parents[number - 1] or parents[number - 1] in order[:place] for place, number in enumerate(order))


def renumbered(words, order):
    """The class words with their records in this order of old numbers, and parents and interface words by new numbers."""
    sheet, after = sheet_of(CLASS_SHEET, words), words[len(content_words(CLASS_SHEET, words)):]
    new = {old: place for place, old in enumerate(order, 1)} | {0: 0}
    sheet.records["class"] = [sheet.records["class"][old - 1] for old in order]
    for i in range(len(order)):
        sheet.put("class", i, "parent", new[sheet.get("class", i, "parent")])
    for record in sheet.records["interface word"]:
        record[0] = new[record[0]]
    content = sheet.words()
    if content:
        content[-1] = words[len(content) - 1] if sheet.text else content[-1]  # what follows the text in its last word stays
    return content + after


def content_words(layout, words):
    """The counts and the sections that they ask for, without what follows them."""
    return words[:content_size(layout, words[:len(layout.sections) + 1])]


def content_faults(sheet):
    yield from row_4(sheet)
    yield from row_5(sheet)


def row_1(layout, data, lent):
    count, over = divmod(len(data), BLOCK_BYTES)
    if not data:
        yield Fault(1, "no bytes", "the file is empty")
    if over:
        yield Fault(1, "whole blocks", f"the file has {len(data)} bytes: {count} blocks of 512 and {over} bytes")
    if count > layout.most_blocks:
        yield Fault(1, "most blocks", f"the file has {count} blocks, above {layout.most_blocks}")
    if not over and lent < count * BLOCK_WORDS:
        yield Fault(1, "lent words", f"{lent} words are lent, and {count} blocks take {count * BLOCK_WORDS}")


def row_2(data):
    for number in range(1, len(data) // BLOCK_BYTES + 1):
        block = data[(number - 1) * BLOCK_BYTES:number * BLOCK_BYTES]
        words = [int.from_bytes(block[i:i + 4], "little") for i in range(0, BLOCK_BYTES, 4)]
        want = (sum(words[:BLOCK_WORDS]) + number) % WORD
        if words[BLOCK_WORDS] != want:
            yield Fault(2, "check word", f"block {number}: the check word at byte {number * BLOCK_BYTES - 4} "
                        f"of the file is {words[BLOCK_WORDS]}, and the block's words make {want}")


def count_faults(layout, counts):
    limits = [(s.name, s.plural, s.limit) for s in layout.sections] + [("text", "text bytes", layout.text_limit)]
    for i, (count, (name, plural, limit)) in enumerate(zip(counts, limits)):
        if count > limit:
            yield Fault(3, f"{plural}: at most {limit}", f"the count of {plural} at {spot(i)} is {count}, above {limit}",
                        (name, limit, "count"), f"{count} {plural}, above {limit}")


def row_3(layout, words):
    counts = words[:len(layout.sections) + 1]
    yield from count_faults(layout, counts)
    size, have = content_size(layout, counts), len(words) // BLOCK_WORDS
    least = max(1, -(-size // BLOCK_WORDS))
    if have < least:
        yield Fault(3, "blocks: enough", f"the content takes {size} words, so {least} blocks, and the file has {have}")
        return
    if have > least:
        yield Fault(3, "blocks: none too many", f"the content takes {size} words, so {least} blocks, and the file has {have}")
    sheet = sheet_of(layout, words)
    last = words[size - 1].to_bytes(4, "little") if len(sheet.text) % 4 else b""
    for i in range(len(sheet.text) % 4, len(last)):
        if last[i]:
            yield Fault(3, "bytes after the text: zero", f"after the text, {spot(size - 1, i)} is {last[i]}, not 0")
    for i in range(size, len(words)):
        if words[i]:
            yield Fault(3, "words after the content: zero", f"after the content, the word at {spot(i)} is {words[i]}, not 0")
    if layout.is_class_sheet():
        yield from linked_faults(sheet, 3, "a sheet that is read is unlinked, so 0")


def linked_faults(sheet, row, why):
    """What only a link leaves: "a nonzero table place or slot count", and static words, "a nonzero value in an unlinked built or array
    class"; a generated class brings its own."""
    for word in ZERO_UNLINKED:
        if word not in sheet.layout.section("class").words:
            continue  # the old form has no static words
        for i in range(len(sheet.records["class"])):
            if not sheet.get("class", i, word):
                continue
            if word != "static words":
                yield Fault(row, f"{word}: zero", f"{said(sheet, 'class', i, word)}, and {why}", ("class", i, word), f"and {why}")
            elif sheet.get("class", i, "kind") in (BUILT, ARRAY, PACKAGED):
                yield Fault(row, STATICS, f"{said(sheet, 'class', i, word)}, and only a generated class brings its own", ("class", i, word),
                            "and only a generated class brings its own")


def row_4(sheet):
    for section in sheet.layout.sections:
        for i in range(len(sheet.records[section.name])):
            yield from part_faults(sheet, section, i)
            yield from list_faults(sheet, section, i)
            for word, most in section.most:
                if sheet.get(section.name, i, word) > most:
                    yield Fault(4, f"{section.name} {word}: at most {most}",
                                f"{said(sheet, section.name, i, word)}, above {most}", (section.name, i, word), f"above {most}")
            for word, mask in section.mask:
                if sheet.get(section.name, i, word) & ~mask:
                    yield Fault(4, f"{section.name} {word}: within 0x{mask:04X}",
                                f"{said(sheet, section.name, i, word)}, with the bits "
                                f"0x{sheet.get(section.name, i, word) & ~mask:04X} outside 0x{mask:04X}", (section.name, i, word),
                                f"with the bits 0x{sheet.get(section.name, i, word) & ~mask:x} outside 0x{mask:x}")
    if sheet.layout.is_class_sheet():
        yield from class_faults(sheet)


def part_faults(sheet, section, i):
    """Names and descriptors: inside the text, 1 to 255 bytes, each 0x21 to 0x7E."""
    text_at = section_start(sheet.layout, sheet.counts(), "text")
    for part in section.parts:
        start = sheet.get(section.name, i, part + " start")
        length = sheet.get(section.name, i, part + " length")
        who = f"{section.name} {part}"
        if length < 1:
            yield Fault(4, f"{who}: at least 1 byte", f"{said(sheet, section.name, i, part + ' length')}, below 1",
                        (section.name, i, part), "is empty")
        if length > 255:
            yield Fault(4, f"{who}: at most 255 bytes", f"{said(sheet, section.name, i, part + ' length')}, above 255",
                        (section.name, i, part), f"has {length} bytes, above 255")
        if start + length > len(sheet.text):
            yield Fault(4, f"{who}: inside the text", f"{said(sheet, section.name, i, part + ' start')} and "
                        f"{part} length {length}: they end past the text of {len(sheet.text)} bytes",
                        (section.name, i, part), "ends past the text")
            continue
        for k in range(start, start + length):
            if not 0x21 <= sheet.text[k] <= 0x7E:
                clause = "from 0x21" if sheet.text[k] < 0x21 else "to 0x7E"
                yield Fault(4, f"{who}: bytes {clause}",
                            f"{label(sheet, section.name, i)}: byte {k - start} of its {part}, "
                            f"{spot(text_at + k // 4, k % 4)}, is 0x{sheet.text[k]:02X}, outside 0x21 to 0x7E",
                            (section.name, i, part), f"has the byte 0x{sheet.text[k]:02X}, outside 0x21 to 0x7E")


def list_faults(sheet, section, i):
    for of, first_word, count_word in section.lists:
        first, count = sheet.get(section.name, i, first_word), sheet.get(section.name, i, count_word)
        have = len(sheet.records[of])
        if first + count > have:
            yield Fault(4, f"{section.name} {of} list: inside its section",
                        f"{said(sheet, section.name, i, first_word)} and {count_word} {count}: "
                        f"the list ends past the {have} {sheet.layout.section(of).plural}", (section.name, i, first_word))


def class_faults(sheet):
    """What row 4 asks of a class sheet besides parts, lists and largest values."""
    classes, words = len(sheet.records["class"]), len(sheet.records["compiler word"])
    names = {}
    for i in range(classes):
        def get(word):
            return sheet.get("class", i, word)
        if get("parent") > i:
            yield Fault(4, "class parent: below the class",
                        f"{said(sheet, 'class', i, 'parent')}, which is not below the class's own number {i + 1}",
                        ("class", i, "parent"))
        table, slots = get("compiler table"), get("compiler slots")
        if table == 0 and slots:
            yield Fault(4, "class compiler slots: 0 without a table",
                        f"{said(sheet, 'class', i, 'compiler slots')}, and there is no compiler table", ("class", i, "compiler slots"))
        if table and table - 1 + slots > words:
            yield Fault(4, "class compiler table: inside its section",
                        f"{said(sheet, 'class', i, 'compiler table')} and compiler slots {slots}: "
                        f"the table ends past the {words} compiler words", ("class", i, "compiler table"))
        if get("table place") and get("slot count") > 1024:
            yield Fault(4, "class linked slot count: at most 1024", f"{said(sheet, 'class', i, 'slot count')}, above 1024",
                        ("class", i, "slot count"))
        name = sheet.part("class", i, "name")
        if name in names:
            yield Fault(4, "class names: all different",
                        f"{label(sheet, 'class', i)}: class {names[name] + 1} has the same name "
                        f"({said(sheet, 'class', i, 'name start')})", ("class", i, "same name"), names[name])
        names.setdefault(name, i)
    for i in range(len(sheet.records["interface word"])):
        if not 1 <= sheet.get("interface word", i, "class number") <= classes:
            zero = sheet.get("interface word", i, "class number") == 0
            yield Fault(4, "interface word: not 0" if zero else "interface word: at most the class count",
                        f"{said(sheet, 'interface word', i, 'class number')}, and the classes are 1 to {classes}",
                        ("interface word", i, "class number"))
    for of, first_word, count_word in sheet.layout.section("class").lists[:2]:
        yield from overlap_faults(sheet, of, first_word, count_word)


def overlap_faults(sheet, of, first_word, count_word):
    """Method lists do not overlap, nor do field lists; an empty list overlaps nothing."""
    spans = []
    for i in range(len(sheet.records["class"])):
        first, count = sheet.get("class", i, first_word), sheet.get("class", i, count_word)
        for j, a, b in spans:
            if max(a, first) < min(b, first + count):
                yield Fault(4, f"class {of} lists: apart",
                            f"{said(sheet, 'class', i, first_word)} and {count_word} {count}: "
                            f"{of} {max(a, first)} is in the list of {label(sheet, 'class', j)} too", ("class", i, first_word))
        spans.append((i, first, first + count))


def row_5(sheet):
    text_at = section_start(sheet.layout, sheet.counts(), "text")
    for section in sheet.layout.sections:
        for i in range(len(sheet.records[section.name]) if section.grammar else 0):
            start = sheet.get(section.name, i, "descriptor start")
            if start + sheet.get(section.name, i, "descriptor length") > len(sheet.text):
                continue  # row 4 has it
            bs = sheet.part(section.name, i, "descriptor")
            # A method goes by its own flags. A slot of the ABI sheet counts as an instance method: its fifth word is an index.
            flags = sheet.get("method", i, "flags") if section.name == "method" else 0
            broken = descriptor_fault(section.grammar, bs, flags)
            if broken:
                k = start + broken.at
                yield Fault(5, f"{section.name} descriptor: {broken.rule}",
                            f"{label(sheet, section.name, i)}: byte {broken.at} of its descriptor, "
                            f"{spot(text_at + k // 4, k % 4)}: {broken.what}", (section.name, i, "descriptor"),
                            f"byte {broken.at} of the descriptor: {broken.what}")


def number(section, i):
    """A record's number as the sheets count it."""
    return i + 1 if section == "class" else i


def label(sheet, section, i):
    """A record with its number and, where it has them, its name and descriptor."""
    parts = [shown(sheet.part(section, i, part)[:80]) for part in sheet.layout.section(section).parts]
    return " ".join([section, str(number(section, i))] + [f"`{part}`" for part in parts])


def said(sheet, section, i, word):
    """A word of a record, its place in the file and its value."""
    layout = sheet.layout.section(section)
    at = section_start(sheet.layout, sheet.counts(), section) + i * layout.width() + layout.at(word)
    return f"{label(sheet, section, i)}: {word} at {spot(at)} is {sheet.get(section, i, word)}"


def clauses(layout):
    """Each clause of rows 1 to 5 that reading can answer, as (row, clause)."""
    out = [(1, c) for c in ("no bytes", "whole blocks", "most blocks", "lent words")] + [(2, "check word")]
    out += count_clauses(layout)
    out += [(3, c) for c in ("blocks: enough", "blocks: none too many", "bytes after the text: zero", "words after the content: zero")]
    if layout is CLASS_SHEET:
        out += [(3, "table place: zero"), (3, "slot count: zero"), (3, STATICS)]
    return out + record_clauses(layout)


def link_clauses(layout):
    """Each clause of rows 3 to 5 that a link or an ask can answer."""
    out = [(3, "counts: all there"), *count_clauses(layout), (3, "content: fits the words"), *record_clauses(layout)]
    if layout is CLASS_SHEET:
        out.append((4, "class linked slot count: at most 1024"))
    return out


def writing_clauses():
    """Each clause that the writer alone can answer."""
    return [(17, "table place: zero"), (17, "slot count: zero"), (17, STATICS), (17, "bytes after the text: zero"), (18, "lent bytes: enough")]


def order_clauses():
    """Each clause that the step which renumbers classes can answer, but for counts and the content's fit."""
    return [(3, "table place: zero"), (3, "slot count: zero"), (3, STATICS), (4, "class parent: at most the class count"),
            (4, "interface word: not 0"), (4, "interface word: at most the class count"), (19, "parents: none returns"), (15, "list words: enough")]


def count_clauses(layout):
    return [(3, f"{s.plural}: at most {s.limit}") for s in layout.sections] + [(3, f"text bytes: at most {layout.text_limit}")]


def record_clauses(layout):
    """The clauses of rows 4 and 5 that both readings and links can answer."""
    out = []
    for s in layout.sections:
        for part in s.parts:
            out += [(4, f"{s.name} {part}: {c}") for c in
                    ("at least 1 byte", "at most 255 bytes", "inside the text", "bytes from 0x21", "bytes to 0x7E")]
        out += [(4, f"{s.name} {of} list: inside its section") for of, _, _ in s.lists]
        out += [(4, f"{s.name} {word}: at most {most}") for word, most in s.most]
        out += [(4, f"{s.name} {word}: within 0x{mask:04X}") for word, mask in s.mask]
    if layout is CLASS_SHEET:
        out += [(4, c) for c in (
            "class parent: below the class", "class compiler slots: 0 without a table",
            "class compiler table: inside its section", "class names: all different",
            "interface word: not 0", "interface word: at most the class count",
            "class method lists: apart", "class field lists: apart")]
    for s in layout.sections:
        out += [(5, f"{s.name} descriptor: {rule}") for rule in GRAMMAR_RULES.get(s.grammar, ())]
    return out
