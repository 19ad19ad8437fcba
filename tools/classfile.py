"""Class files (JVMS chapter 4) of major versions 45 to 48: a reader of their members, and the judge of a call that
reads one. As a program it says why the file that it is given is refused.

It is written from docs/SPECIFICATION.md ("Class files") and the JVM Specification, not from the Rattle code nor from
the model, so that each can show the others' faults. Numbers are big-endian; all sums are of naturals.
"""

import sys
from dataclasses import dataclass

from sheetlib import CLASS_SHEET, Fault, descriptor_fault

MAGIC = 0xCAFEBABE
VERSIONS = range(45, 49)

# JVMS 4.4's eleven tags for these versions; how many bytes follow the tag, of a Utf8 after its length.
UTF8, LONG, DOUBLE, CLASS = 1, 5, 6, 7
BODY = {UTF8: 0, 3: 4, 4: 4, LONG: 8, DOUBLE: 8, CLASS: 2, 8: 2, 9: 4, 10: 4, 11: 4, 12: 4}
TAG_NAMES = {
    UTF8: "Utf8", 3: "Integer", 4: "Float", LONG: "Long", DOUBLE: "Double", CLASS: "Class", 8: "String", 9: "Fieldref",
    10: "Methodref", 11: "InterfaceMethodref", 12: "NameAndType"}

MEMBERS = CLASS_SHEET.section("method").limit  # a sheet's methods, and its fields
TEXT_BYTES = CLASS_SHEET.text_limit
LIMITS = ("fields", MEMBERS), ("methods", MEMBERS), ("text bytes", TEXT_BYTES)
RECORD = CLASS_SHEET.section("method").width()
FLAGS = dict(CLASS_SHEET.section("method").mask)["flags"]


class Refused(Exception):
    """A file that rows 20 to 22 refuse: the row, which condition of it, and where."""

    def __init__(self, row, clause, where):
        super().__init__(f"{where} (row {row})")
        self.row, self.clause = row, clause


@dataclass
class Member:
    flags: int
    name: bytes
    descriptor: bytes


@dataclass
class ClassFile:
    name: bytes
    parent: bytes  # None where there is none
    flags: int
    fields: list
    methods: list

    def strings(self):
        """Each string to store, and what it is: "class, parent, then each member's name and descriptor, fields
        first"."""
        yield self.name, "class name"
        if self.parent is not None:
            yield self.parent, "parent name"
        for kind, members in (("field", self.fields), ("method", self.methods)):
            for member in members:
                yield member.name, f"{kind} name"
                yield member.descriptor, f"{kind} descriptor"

    def text(self):
        return b"".join(string for string, _ in self.strings())

    def head(self):
        """The six answer words."""
        lengths = [len(self.name), len(self.parent or b"")]
        return [*lengths, self.flags, len(self.fields), len(self.methods), len(self.text())]

    def lists(self, targets):
        """The words that the fields', the methods' and the text list begin with: "in the sheet's form, word indices 0,
        each string stored anew"."""
        place = len(self.name) + len(self.parent or b"")
        words = []
        for member, last in zip(self.fields + self.methods, [0] * len(self.fields) + list(targets), strict=True):
            after = place + len(member.name)
            words += [place, len(member.name), after, len(member.descriptor), member.flags, last]
            place = after + len(member.descriptor)
        text = self.text() + bytes(-len(self.text()) % 4)
        text_words = [int.from_bytes(text[i:i + 4], "little") for i in range(0, len(text), 4)]
        of_fields = RECORD * len(self.fields)
        return words[:of_fields], words[of_fields:], text_words


# ---- rows 20 to 22: front to back

class Reader:
    """Takes the items of a file in turn."""

    def __init__(self, data):
        self.data, self.at, self.pool, self.count = data, 0, {}, 0

    def take(self, size, item):
        """The next bytes; "21, if the bytes end early"."""
        if self.at + size > len(self.data):
            left = len(self.data) - self.at
            raise Refused(21, f"{item}: all there", f"{item} at byte {self.at} takes {size} bytes, and {left} are left")
        self.at += size
        return self.data[self.at - size:self.at]

    def number(self, size, item):
        return int.from_bytes(self.take(size, item), "big")

    def version(self):
        """ "20, first, if eight bytes are there and magic or version is wrong" """
        front = self.take(8, "magic and version")
        magic, major = int.from_bytes(front[:4], "big"), int.from_bytes(front[6:], "big")
        if magic != MAGIC:
            raise Refused(20, "magic", f"the first four bytes are 0x{magic:08X}, and a class file's are 0xCAFEBABE")
        if major not in VERSIONS:
            clause = "at least 45" if major < 45 else "at most 48"
            raise Refused(20, f"major version: {clause}", f"the major version is {major}, and 45 to 48 are read")

    def constants(self):
        """ "22, if a pool tag is none of JVMS 4.4's eleven"; "Long and Double constants take two pool places; one at
        the last place counts as a wrong tag" """
        self.count = self.number(2, "constant pool count")
        index = 1
        while index < self.count:
            place = self.at
            tag = self.number(1, "tag")
            if tag not in BODY:
                raise Refused(22, "tag: one of eleven", f"constant {index} at byte {place} has the tag {tag}")
            places = 2 if tag in (LONG, DOUBLE) else 1
            if index + places > self.count:
                where = f"constant {index} at byte {place}, the last, is a {TAG_NAMES[tag]}"
                raise Refused(22, "tag: no Long or Double at the last place", where)
            size = self.number(2, "constant") if tag == UTF8 else BODY[tag]
            self.pool[index] = tag, self.take(size, "constant")
            index += places

    def lookup(self, index, tag, what):
        """ "22, if .. a pool reference used for a name, descriptor or class is outside the pool or has the wrong
        tag" """
        where = f"the {what}, read before byte {self.at}, is constant {index}"
        if not 1 <= index < self.count:
            raise Refused(22, f"{what}: inside the pool", f"{where} of 1 to {self.count - 1}")
        found, body = self.pool.get(index, (None, b""))
        if found != tag:
            told = f"a {TAG_NAMES[found]}" if found else "the second place of a Long or Double"
            raise Refused(22, f"{what}: a {TAG_NAMES[tag]}", f"{where}, {told}")
        return body

    def class_name(self, what, none_at_0):
        """The name of a class reference; none where it is 0 and may be."""
        index = self.number(2, what)
        if index == 0 and none_at_0:
            return None
        return self.lookup(int.from_bytes(self.lookup(index, CLASS, what), "big"), UTF8, f"{what} name")

    def attributes(self, of):
        """Passed by their lengths."""
        for _ in range(self.number(2, f"{of} attribute count")):
            self.take(2, f"{of} attribute name")
            self.take(self.number(4, f"{of} attribute length"), f"{of} attribute")

    def members(self, kind):
        found = []
        for _ in range(self.number(2, f"{kind} count")):
            flags = self.number(2, f"{kind} flags")
            name = self.lookup(self.number(2, f"{kind} name"), UTF8, f"{kind} name")
            descriptor = self.lookup(self.number(2, f"{kind} descriptor"), UTF8, f"{kind} descriptor")
            self.attributes(kind)
            found.append(Member(flags, name, descriptor))
        return found

    def file(self):
        self.version()
        self.constants()
        flags = self.number(2, "class flags")
        name, parent = self.class_name("class", False), self.class_name("parent", True)
        for _ in range(self.number(2, "interface count")):
            self.take(2, "interface")
        fields, methods = self.members("field"), self.members("method")
        self.attributes("class")
        if self.at < len(self.data):
            where = f"{len(self.data) - self.at} bytes follow the last attribute, from byte {self.at} on"
            raise Refused(21, "nothing after the last attribute", where)
        return ClassFile(name, parent, flags, fields, methods)


def read(data):
    """The class file in the bytes; raises Refused."""
    return Reader(bytes(data)).file()


# ---- rows 4, 5 and 14: after the reading

def rule_faults(file):
    """Rows 4 and 5, over all members: "Row 4's rules on names, descriptors and flags, row 5"."""
    for string, what in file.strings():
        if not string:
            yield Fault(4, f"{what}: at least 1 byte", f"a {what} is empty")
        if len(string) > 255:
            yield Fault(4, f"{what}: at most 255 bytes", f"a {what} has {len(string)} bytes, above 255")
        below, above = [b for b in string if b < 0x21], [b for b in string if b > 0x7E]
        for clause, wrong in (("from 0x21", below), ("to 0x7E", above)):
            if wrong:
                where = f"a {what} has the byte 0x{wrong[0]:02X}, outside 0x21 to 0x7E"
                yield Fault(4, f"{what}: bytes {clause}", where)
    for method in file.methods:
        if method.flags & ~FLAGS:
            where = f"a method's flags are 0x{method.flags:04X}, with bits outside 0x{FLAGS:04X}"
            yield Fault(4, f"method flags: within 0x{FLAGS:04X}", where)
    for kind, members in (("field", file.fields), ("method", file.methods)):
        for member in members:
            broken = descriptor_fault(kind, member.descriptor, member.flags)
            if broken:
                yield Fault(5, f"{kind} descriptor", f"a {kind}'s descriptor, byte {broken.at}: {broken.what}")


def sheet_faults(file):
    """Row 14 by the sheet's limits alone: "more members or text than a sheet .. holds"."""
    for (clause, most), count in zip(LIMITS, file.head()[3:], strict=True):
        if count > most:
            yield Fault(14, f"{clause}: at most {most}", f"there are {count} {clause}, and a sheet holds {most}")


def list_faults(file, targets, fields, methods, text):
    """Row 14 by the lent lists: "more members or text than .. a lent list holds, and a target list whose length is not
    the method count"."""
    _, _, _, field_count, method_count, text_bytes = file.head()
    for clause, needed, words in (
            ("fields list", RECORD * field_count, len(fields)), ("methods list", RECORD * method_count, len(methods)),
            ("text list", -(-text_bytes // 4), len(text))):
        if needed > words:
            yield Fault(14, f"{clause}: long enough", f"the {clause} takes {needed} words, and {words} are lent")
    if len(targets) != method_count:
        clause = "one for each method" if len(targets) < method_count else "no more than methods"
        yield Fault(14, f"targets: {clause}", f"{len(targets)} targets for {method_count} methods")


def faults(data, *lists):
    """Every fault of a call: the first of rows 20 to 22, or all of rows 4, 5 and 14. Without lists, of the call that
    answers the six words alone."""
    try:
        file = read(data)
    except Refused as refused:
        yield Fault(refused.row, refused.clause, str(refused))
        return
    yield from sorted(rule_faults(file), key=lambda fault: fault.row)
    yield from sheet_faults(file)
    if lists:
        yield from list_faults(file, *lists)


def judge(data, targets, fields, methods, text):
    """What the call answers, and its three lists after it: the row or 0, the six words, fields, methods, text."""
    for fault in faults(data, targets, fields, methods, text):
        return fault.row, [0] * 6, list(fields), list(methods), list(text)
    file = read(data)
    made = file.lists(targets)
    return 0, file.head(), *(words + list(lent[len(words):]) for words, lent in zip(made, (fields, methods, text)))


def judge_head(data):
    """The same without lists: the row or 0, and the six words."""
    for fault in faults(data):
        return fault.row, [0] * 6
    return 0, read(data).head()


# ---- the text form

def shown(file, first=4096, step=16):
    """The class as `tools/sheet make` reads it; method m has the target first + m * step, modulo 2^32."""
    def line(kind, member, last):
        return f"  {kind} {member.name.decode('ascii')} {member.descriptor.decode('ascii')} {last} flags {member.flags}"

    extends = f" extends {file.parent.decode('ascii')}" if file.parent else ""
    lines = [f"class {file.name.decode('ascii')}{extends}", f"  flags {file.flags}"]
    lines += [line("method", method, (first + m * step) % 2**32) for m, method in enumerate(file.methods)]
    lines += [line("field", field, 0) for field in file.fields]
    return "\n".join(lines) + "\n"


# ---- every clause

def clauses():
    """Each clause that can refuse a call, as (row, clause)."""
    out = [(20, "magic"), (20, "major version: at least 45"), (20, "major version: at most 48")]
    items = ["magic and version", "constant pool count", "tag", "constant", "class flags", "class", "parent",
             "interface count", "interface"]
    for kind in ("field", "method"):
        items += [f"{kind} {item}" for item in ("count", "flags", "name", "descriptor")]
    for kind in ("field", "method", "class"):
        items += [f"{kind} attribute{item}" for item in (" count", " name", " length", "")]
    out += [(21, f"{item}: all there") for item in items] + [(21, "nothing after the last attribute")]
    out += [(22, "tag: one of eleven"), (22, "tag: no Long or Double at the last place")]
    for what in ("class", "parent"):
        for part, tag in (("", "Class"), (" name", "Utf8")):
            out += [(22, f"{what}{part}: {clause}") for clause in ("inside the pool", f"a {tag}")]
    for what in ("field name", "field descriptor", "method name", "method descriptor"):
        out += [(22, f"{what}: {clause}") for clause in ("inside the pool", "a Utf8")]
        out += [(4, f"{what}: {clause}") for clause in STRING]
    out += [(4, f"{what}: {clause}") for what in ("class name", "parent name") for clause in STRING]
    out += [(4, f"method flags: within 0x{FLAGS:04X}")]
    out += [(5, "field descriptor"), (5, "method descriptor")]
    out += [(14, f"{what}: at most {most}") for what, most in LIMITS]
    out += [(14, f"{what}: long enough") for what in ("fields list", "methods list", "text list")]
    return out + [(14, "targets: one for each method"), (14, "targets: no more than methods")]


STRING = ("at least 1 byte", "at most 255 bytes", "bytes from 0x21", "bytes to 0x7E")


# ---- as a program

def main(path):
    with open(path, "rb") as file:
        first = next(faults(file.read()), None)
    print(first.where if first else "the file is good")
    return int(first is None)


if __name__ == "__main__":
    sys.exit(main(sys.argv[1]))
