"""The vectors of class files, for the program `file_judge`: files that rows 20 to 22, 4, 5 and 14 refuse, and their
nearest good neighbours.

The stored files hold many cases each, one after the other: six words (bytes of the label, bytes of the class file,
targets lent, words lent for fields, methods and text), the label, the class file. Target i is 1000 + i, and every lent
word is 7 before the call. The reader of classfile.py must find in each refused case the clause that is named, and of
rows 4, 5 and 14 no other than those that are.
"""

import os
from dataclasses import dataclass, field, replace

import classfile
from classfile import BODY, CLASS, DOUBLE, LONG, UTF8
from sheetvectors import FILL, weighed

FIRST_TARGET = 1000

groups = {}  # file name -> its cases
cover = {}  # (row, clause) -> ([refused], [accepted])

REAL = os.path.join(os.path.dirname(os.path.realpath(__file__)), "classfiles")


# ---- class files as data

def u2(value):
    return value.to_bytes(2, "big")


def u4(value):
    return value.to_bytes(4, "big")


def utf8(text):
    return bytes([UTF8]) + u2(len(text)) + text


def classes(index):
    return bytes([CLASS]) + u2(index)


LONG_7, DOUBLE_7 = bytes([LONG]) + bytes(7) + b"\x07", bytes([DOUBLE]) + bytes(7) + b"\x07"


@dataclass
class Attribute:
    name: int = 0
    content: bytes = b""
    length: int = None  # as told, where it is not the content's

    def bytes(self):
        return u2(self.name) + u4(len(self.content) if self.length is None else self.length) + self.content


def listed(items):
    return u2(len(items)) + b"".join(item.bytes() for item in items)


@dataclass
class Member:
    flags: int
    name: int
    descriptor: int
    attributes: list = field(default_factory=list)

    def bytes(self):
        return u2(self.flags) + u2(self.name) + u2(self.descriptor) + listed(self.attributes)


@dataclass
class File:
    """A class file, item by item; `count` is that of the pool as told, where it is not the constants' own."""

    pool: list
    this: int = 1
    parent: int = 0
    flags: int = 0x21
    interfaces: list = field(default_factory=list)
    fields: list = field(default_factory=list)
    methods: list = field(default_factory=list)
    attributes: list = field(default_factory=list)
    front: bytes = b"\xCA\xFE\xBA\xBE\0\0\0\x30"
    count: int = None

    def places(self):
        return sum(2 if constant[0] in (LONG, DOUBLE) else 1 for constant in self.pool)

    def pool_end(self):
        return len(self.front) + 2 + sum(map(len, self.pool))

    def bytes(self):
        count = 1 + self.places() if self.count is None else self.count
        interfaces = [len(self.interfaces), *self.interfaces]
        return b"".join([
            self.front, u2(count), *self.pool, *map(u2, [self.flags, self.this, self.parent, *interfaces]),
            listed(self.fields), listed(self.methods), listed(self.attributes)])

    def but(self, **changes):
        return replace(self, **changes)

    def member(self, kind, number, **changes):
        """With words of a field (`fields`) or a method (`methods`) changed."""
        members = list(getattr(self, kind))
        members[number] = replace(members[number], **changes)
        return replace(self, **{kind: members})

    def constant(self, index, constant):
        """With another constant of the same places at an index."""
        at, pool = 1, list(self.pool)
        for i, one in enumerate(self.pool):
            if at == index:
                pool[i] = constant
                return replace(self, pool=pool)
            at += 2 if one[0] in (LONG, DOUBLE) else 1
        raise SystemExit(f"no constant begins at {index}")


A = File([classes(2), utf8(b"A")])
AB = File([classes(2), utf8(b"A"), classes(4), utf8(b"B"), utf8(b"x"), utf8(b"I"), utf8(b"f"), utf8(b"(J)V")], parent=3,
          fields=[Member(2, 5, 6)], methods=[Member(9, 7, 8)])

# Two fields, two methods, attributes of all three kinds and all eleven tags. Nothing that is not looked up leads
# anywhere.
SAMPLE = File(
    [classes(2), utf8(b"A"), classes(4), utf8(b"B"), LONG_7, DOUBLE_7, b"\x03\0\0\0\1", b"\x04\0\0\0\1",
     b"\x08\xFF\xFF", b"\x09\xFF\xFF\0\0", b"\x0A\xFF\xFF\0\0", b"\x0B\xFF\xFF\0\0", b"\x0C\xFF\xFF\0\0",
     utf8(b"x"), utf8(b"I"), utf8(b"yz"), utf8(b"[J"), utf8(b"f"), utf8(b"()V"), utf8(b"g"), utf8(b"(IJ)D"),
     utf8(b"\xEB\xAC\xB8\0 "), classes(65535)],
    parent=3, interfaces=[65535, 0],
    fields=[Member(2, 16, 17, [Attribute(65535, b"\1\2")]), Member(9, 18, 19)],
    methods=[Member(1, 20, 21, [Attribute(22, b"\1\2\3"), Attribute(24)]), Member(8, 22, 23)],
    attributes=[Attribute(24, b"\0")])

# The same with little beside: references are changed in it.
SMALL = File([classes(2), utf8(b"A"), classes(4), utf8(b"B"), LONG_7, DOUBLE_7,
              utf8(b"x"), utf8(b"I"), utf8(b"f"), utf8(b"()V")],
             parent=3, fields=[Member(2, 9, 10)], methods=[Member(1, 11, 12)])


# ---- recording a case

def lent_for(data):
    """Lists as long as a file asks for, and a word or two more."""
    try:
        _, _, _, fields, methods, text = classfile.read(data).head()
    except classfile.Refused:
        return 2, 8, 8, 3
    return methods, 6 * fields + 2, 6 * methods + 1, -(-text // 4) + 1


def lists(lent):
    targets, fields, methods, text = lent
    return [FIRST_TARGET + i for i in range(targets)], [FILL] * fields, [FILL] * methods, [FILL] * text


def record(group, label, made, lent):
    data = made if isinstance(made, bytes) else made.bytes()
    lent = lent_for(data) if lent is None else lent
    cases = groups.setdefault(group + ".bin", [])
    if any(label == other for other, _, _ in cases):
        raise SystemExit(f"{group} {label}: made twice")
    cases.append((label, data, lent))
    return [(fault.row, fault.clause) for fault in classfile.faults(data, *lists(lent))]


def refused(group, row, label, clause, made, lent=None, also=()):
    """A case that one clause refuses; of rows 4, 5 and 14 `also` clauses (row, clause) that are broken too."""
    found = set(record(group, label, made, lent))
    if found != {(row, clause), *also}:
        raise SystemExit(f"{group} {label}: meant to break {(row, clause), *also}, and breaks {sorted(found)}")
    cover.setdefault((row, clause), ([], []))[0].append(f"{group}/{label}")


def accepted(group, label, about, made, lent=None):
    """A good file, the neighbour of refused ones for each clause of `about`."""
    found = record(group, label, made, lent)
    if found:
        raise SystemExit(f"{group} {label}: meant to be good, and {found}")
    for one in about:
        cover.setdefault(one, ([], []))[1].append(f"{group}/{label}")


# ---- row 20, and the examples of the specification

MAGIC, LEAST, MOST = (20, "magic"), (20, "major version: at least 45"), (20, "major version: at most 48")


def versions():
    for major in range(45, 49):
        for minor in (0, 1, 3, 65535):
            accepted("front", f"{major}.{minor}", [MAGIC, LEAST, MOST],
                     SAMPLE.but(front=b"\xCA\xFE\xBA\xBE" + u2(minor) + u2(major)))
    for major in (0, 1, 44, 49, 51, 0x2D00, 0x3000, 65535):
        clause = LEAST if major < 45 else MOST
        refused("front", 20, f"{major}.0", clause[1], SAMPLE.but(front=b"\xCA\xFE\xBA\xBE\0\0" + u2(major)))
    refused("front", 20, "44.45", LEAST[1], SAMPLE.but(front=b"\xCA\xFE\xBA\xBE" + u2(45) + u2(44)))
    for place in range(4):
        wrong = bytearray(SAMPLE.front)
        wrong[place] ^= 1
        refused("front", 20, f"magic-byte-{place}", "magic", SAMPLE.but(front=bytes(wrong)))
    refused("front", 20, "magic-backwards", "magic", SAMPLE.but(front=b"\xBE\xBA\xFE\xCA\0\0\0\x30"))
    refused("front", 21, "zip-4-bytes", "magic and version: all there", b"PK\3\4")
    refused("front", 20, "zip-8-bytes", "magic", b"PK\3\4\0\0\0\0")
    refused("front", 20, "version-and-nothing-more", MOST[1], b"\xCA\xFE\xBA\xBE\0\0\0\x31")
    refused("front", 20, "magic-and-wrong-tag", "magic", b"\xCA\xFE\xBA\xBF\0\0\0\x30\0\2\2")
    refused("front", 20, "version-and-class-reference", LEAST[1], A.but(front=b"\xCA\xFE\xBA\xBE\0\0\0\x2C", this=9))


def examples():
    for name, file in (("a", A), ("ab", AB)):
        data = file.bytes()
        accepted("examples", name, [], file)
        accepted("examples", f"{name}-48.1", [MAGIC], file.but(front=b"\xCA\xFE\xBA\xBE\0\1\0\x30"))
        accepted("examples", f"{name}-45.65535", [LEAST], file.but(front=b"\xCA\xFE\xBA\xBE\xFF\xFF\0\x2D"))
        for major, clause in ((44, LEAST), (49, MOST)):
            refused("examples", 20, f"{name}-{major}.0", clause[1], file.but(front=b"\xCA\xFE\xBA\xBE\0\0" + u2(major)))
        refused("examples", 21, f"{name}-byte-after", "nothing after the last attribute", data + b"\0")
    front = A.front
    wrong = A.but(this=2).bytes()
    refused("examples", 22, "class-2-cut-after", "class: a Class", wrong[:21])
    refused("examples", 21, "class-2-cut-in", "class: all there", wrong[:20])
    refused("examples", 22, "tag-2-nothing-more", "tag: one of eleven", front + u2(2) + b"\2")
    refused("examples", 22, "last-long-nothing-more", "tag: no Long or Double at the last place", front + u2(2) + b"\5")
    refused("examples", 22, "long-at-the-last-two", "class: a Class", File([LONG_7], this=1))
    refused("examples", 21, "pool-0-cut", "class flags: all there", front + u2(0))
    refused("examples", 21, "pool-1-cut", "class flags: all there", front + u2(1))
    refused("examples", 22, "pool-0", "class: inside the pool", front + u2(0) + u2(0x21) + u2(0))
    refused("examples", 22, "pool-1", "class: inside the pool", front + u2(1) + u2(0x21) + u2(1))
    refused("examples", 22, "pool-0-class-1", "class: inside the pool", front + u2(0) + u2(0x21) + u2(1))
    accepted("examples", "unused-class-65535", [], A.but(pool=A.pool + [classes(65535)]))
    accepted("examples", "class-bracket-i", [], A.constant(2, utf8(b"[I")))
    accepted("examples", "class-semicolon", [], A.constant(2, utf8(b";")))
    accepted("examples", "its-own-parent", [], A.but(parent=1))
    accepted("examples", "attribute-hangul", [], SAMPLE.but(attributes=[Attribute(24, "문".encode())]))


# ---- row 21: every length, and what follows

def cuts():
    data = SAMPLE.bytes()
    for length in range(len(data)):
        found = list(classfile.faults(data[:length], *lists((2, 8, 8, 3))))
        refused("cuts", 21, f"cut-{length}", found[0].clause, data[:length])
    items = {clause for row, clause in cover if row == 21}
    accepted("cuts", "whole", [(21, clause) for clause in items], data)
    for after in (b"\0", b"\xFF", b"\0\0", bytes(300), data):
        refused("cuts", 21, f"{len(after)}-bytes-after-{after[0]}", "nothing after the last attribute", data + after)


def lengths():
    """Attributes are passed by their lengths, of four bytes; a Utf8's has two."""
    for kind, of in (("fields", "field"), ("methods", "method"), ("", "class")):
        clause = f"{of} attribute: all there"

        def with_attribute(length, content, kind=kind):
            attributes = [Attribute(2, content, length)]
            return AB.member(kind, 0, attributes=attributes) if kind else AB.but(attributes=attributes)
        told = kind or "class"
        accepted("lengths", f"{told}-300", [(21, clause)], with_attribute(300, bytes(300)))
        accepted("lengths", f"{told}-0", [(21, clause)], with_attribute(0, b""))
        for length in (0x10000, 0x01000000, 0x10001, 0x80000000, 0xFFFFFFFF):
            refused("lengths", 21, f"{told}-0x{length:X}", clause, with_attribute(length, bytes(length & 1)))
    accepted("lengths", "utf8-300", [(21, "constant: all there")], A.but(pool=A.pool + [utf8(bytes(300))]))
    accepted("lengths", "utf8-0", [(21, "constant: all there")], A.but(pool=A.pool + [utf8(b"")]))
    refused("lengths", 21, "utf8-65535", "constant: all there", A.but(pool=A.pool + [b"\1\xFF\xFF"]))
    for kind, clause in (("fields", "field flags: all there"), ("methods", "method flags: all there")):
        end = A.bytes()[:-6]
        counts = u2(65535) if kind == "fields" else u2(0) + u2(65535)
        refused("lengths", 21, f"65535-{kind}", clause, end + counts)
    refused("lengths", 21, "65535-interfaces", "interface: all there", A.bytes()[:-8] + u2(65535) + bytes(100))
    refused("lengths", 21, "65535-attributes", "class attribute name: all there", A.bytes()[:-2] + u2(65535))
    accepted("lengths", "3-interfaces", [(21, "interface: all there")], A.but(interfaces=[0, 9, 65535]))


# ---- row 22: tags and references

def tags():
    """Each tag with a body, and at the end of the bytes: a wrong one is told before its body is looked at."""
    clause = (22, "tag: one of eleven")
    for tag in range(256):
        body = b"\0\1z" if tag == UTF8 else bytes(BODY.get(tag, 4))
        whole, cut = A.but(pool=A.pool + [bytes([tag]) + body]), A.front + u2(5) + bytes([tag])
        if tag in BODY:
            accepted("tags", f"tag-{tag}", [clause], whole)
            refused("tags", 21, f"tag-{tag}-alone", "constant: all there", cut)
        else:
            refused("tags", 22, f"tag-{tag}", clause[1], whole)
            refused("tags", 22, f"tag-{tag}-alone", clause[1], cut)


def wide():
    """ "Long and Double constants take two pool places; one at the last place counts as a wrong tag" """
    clause = (22, "tag: no Long or Double at the last place")
    for tag, constant in ((LONG, LONG_7), (DOUBLE, DOUBLE_7)):
        made = A.but(pool=A.pool + [constant])
        accepted("wide", f"{tag}-at-the-last-two", [clause], made)
        refused("wide", 22, f"{tag}-last", clause[1], made.but(count=4))
        alone = A.front + u2(4) + b"".join(A.pool) + bytes([tag])
        refused("wide", 22, f"{tag}-last-alone", clause[1], alone)
        refused("wide", 21, f"{tag}-last-cut", "tag: all there", alone[:-1])
        refused("wide", 22, f"{tag}-first-of-one", clause[1], A.front + u2(2) + bytes([tag]))
        accepted("wide", f"{tag}-between", [clause], File([classes(4), constant, utf8(b"A")]))
        refused("wide", 22, f"{tag}-one-place", "class name: a Utf8", File([classes(3), constant, utf8(b"A")]))
        refused("wide", 22, f"{tag}-one-place-outside", "class name: inside the pool",
                File([classes(5), constant, utf8(b"A")]))
        accepted("wide", f"{tag}-three", [clause], File([constant, classes(8), constant, constant, utf8(b"A")], this=3))


def references():
    """Each reference that is looked up: outside the pool, at a wrong tag, at a second place; and just where it is
    read."""
    count = 1 + SMALL.places()
    end = SMALL.pool_end()
    used = {  # what it is: the file with another reference, and the place after the item where it is looked up
        "class": (lambda i: SMALL.but(this=i), CLASS, end + 4),
        "parent": (lambda i: SMALL.but(parent=i), CLASS, end + 6),
        "class name": (lambda i: SMALL.constant(1, classes(i)), UTF8, end + 4),
        "parent name": (lambda i: SMALL.constant(3, classes(i)), UTF8, end + 6),
        "field name": (lambda i: SMALL.member("fields", 0, name=i), UTF8, end + 14),
        "field descriptor": (lambda i: SMALL.member("fields", 0, descriptor=i), UTF8, end + 16),
        "method name": (lambda i: SMALL.member("methods", 0, name=i), UTF8, end + 24),
        "method descriptor": (lambda i: SMALL.member("methods", 0, descriptor=i), UTF8, end + 26)}
    kinds = {CLASS: "a Class", UTF8: "a Utf8"}
    good = {"field descriptor": [10], "method descriptor": [12]}
    for what, (made, tag, place) in used.items():
        outside, wrong, told = (22, f"{what}: inside the pool"), (22, f"{what}: {kinds[tag]}"), what.replace(" ", "-")
        for index in (0, count, count + 1, 65535):
            if (what, index) != ("parent", 0):
                refused("references", 22, f"{told}-{index}", outside[1], made(index))
                refused("references", 22, f"{told}-{index}-cut-after", outside[1], made(index).bytes()[:place])
                refused("references", 21, f"{told}-{index}-cut-in",
                        f"{what.removesuffix(' name') if what in ('class name', 'parent name') else what}: all there",
                        made(index).bytes()[:place - 1])
        for index in (5, 6, 7, 8, 9 if tag == CLASS else 3):
            refused("references", 22, f"{told}-{index}", wrong[1], made(index))
            refused("references", 22, f"{told}-{index}-cut-after", wrong[1], made(index).bytes()[:place])
        for index in good.get(what, [1, 3] if tag == CLASS else [2, 4, 9, 10, 11, 12]):
            accepted("references", f"{told}-{index}", [outside, wrong], made(index))
    accepted("references", "no-parent", [], SMALL.but(parent=0))
    for tag in sorted(BODY):
        if tag not in (UTF8, LONG, DOUBLE):
            made = SMALL.but(pool=SMALL.pool + [bytes([tag]) + bytes(BODY[tag])])
            refused("references", 22, f"field-name-at-tag-{tag}", "field name: a Utf8",
                    made.member("fields", 0, name=13))
    accepted("references", "last-of-the-pool", [],
             SMALL.but(pool=SMALL.pool + [utf8(b"last")]).member("fields", 0, name=13))
    accepted("references", "forward", [], File([utf8(b"A"), classes(1)], this=2))
    accepted("references", "one-entry-for-all", [],
             File([classes(2), utf8(b"I")], parent=1, fields=[Member(0, 2, 2)] * 3))
    # The second member of each kind.
    for kind, one in (("fields", "field"), ("methods", "method")):
        for part in ("name", "descriptor"):
            refused("references", 22, f"second-{one}-{part}-0", f"{one} {part}: inside the pool",
                    SAMPLE.member(kind, 1, **{part: 0}))
            refused("references", 22, f"second-{one}-{part}-long", f"{one} {part}: a Utf8",
                    SAMPLE.member(kind, 1, **{part: 6}))


def many():
    """Pools of more than 64 and 128 constants, each Utf8 of them used as a field's name; Longs at and across the
    multiples of 64."""
    for told, wide_at in (("none", ()), ("before", (62, 126)), ("across", (63, 127)), ("at", (64, 128)),
                          ("after", (65, 129)), ("all", range(4, 190, 2))):
        pool, used = [classes(2), utf8(b"A"), utf8(b"I")], []
        index = 4
        while index < 196:
            pool.append(LONG_7 if index in wide_at else utf8(b"n%d" % index))
            used += [] if index in wide_at else [index]
            index += 2 if index in wide_at else 1
        made = File(pool, fields=[Member(0, i, 3) for i in used])
        accepted("many", f"wide-{told}", [], made)
        for index in wide_at if told != "all" else ():
            for place in (index, index + 1):
                refused("many", 22, f"wide-{told}-{place}", "field name: a Utf8",
                        made.but(fields=[Member(0, place, 3)]))
        refused("many", 22, f"wide-{told}-count", "field name: inside the pool",
                made.but(fields=[Member(0, 1 + made.places(), 3)]))


# ---- rows 4 and 5

def described(kind, size):
    """A descriptor of so many bytes."""
    if kind == "field":
        return b"L" + b"x" * (size - 2) + b";" if size > 2 else b"[" * (size - 1) + b"I"
    return b"(L" + b"x" * (size - 5) + b";)V" if size > 5 else b"(" + b"I" * (size - 3) + b")V"


def rules():
    at = {"class name": 2, "parent name": 4, "field name": 9, "field descriptor": 10,
          "method name": 11, "method descriptor": 12}
    for what, index in at.items():
        told, kind = what.replace(" ", "-"), what.split()[0]
        is_descriptor = what.endswith("descriptor")

        def made(text, index=index):
            return SMALL.constant(index, utf8(text))

        def neighbour(size, is_descriptor=is_descriptor, kind=kind):
            return described(kind, size) if is_descriptor else b"n" * size
        also = [(5, what)] if is_descriptor else []
        refused("rules", 4, f"{told}-0-bytes", f"{what}: at least 1 byte", made(b""), also=also)
        accepted("rules", f"{told}-shortest", [(4, f"{what}: at least 1 byte")],
                 made(neighbour(3 if what == "method descriptor" else 1)))
        accepted("rules", f"{told}-255-bytes", [(4, f"{what}: at most 255 bytes")], made(neighbour(255)))
        for size in (256, 300):
            refused("rules", 4, f"{told}-{size}-bytes", f"{what}: at most 255 bytes", made(neighbour(size)))
        for byte in (0x00, 0x20, 0x7F, 0x80, 0xFF):
            clause = "from 0x21" if byte < 0x21 else "to 0x7E"
            text = (b"L%b;" if kind == "field" else b"(L%b;)V") % bytes([byte]) if is_descriptor else bytes([byte])
            refused("rules", 4, f"{told}-0x{byte:02x}", f"{what}: bytes {clause}", made(text))
            if not is_descriptor:
                refused("rules", 4, f"{told}-ends-0x{byte:02x}", f"{what}: bytes {clause}", made(b"ab" + bytes([byte])))
        for byte, clause in ((0x21, "from 0x21"), (0x7E, "to 0x7E")):
            text = (b"L%b;" if kind == "field" else b"(L%b;)V") % bytes([byte]) if is_descriptor else bytes([byte])
            accepted("rules", f"{told}-0x{byte:02x}", [(4, f"{what}: bytes {clause}")], made(text))
    mask = (4, f"method flags: within 0x{classfile.FLAGS:04X}")
    for flags in [0, *(1 << bit for bit in range(16)), 0x1DFF, 0xFFFF, 0x1FFF]:
        made = SMALL.member("methods", 0, flags=flags)
        if flags & ~0x1DFF:
            refused("rules", 4, f"method-flags-0x{flags:04x}", mask[1], made)
        else:
            accepted("rules", f"method-flags-0x{flags:04x}", [mask], made)
    for flags in (0, 0x0200, 0x8000, 0xFFFF):
        accepted("rules", f"field-flags-0x{flags:04x}", [], SMALL.member("fields", 0, flags=flags))
        accepted("rules", f"class-flags-0x{flags:04x}", [], SMALL.but(flags=flags))
    refused("rules", 4, "second-method-flags-0x0200", mask[1], SAMPLE.member("methods", 1, flags=0x0200))
    refused("rules", 4, "hangul-field", "field name: bytes to 0x7E", SMALL.constant(9, utf8("문".encode())))


WRONG = {
    "field": "V [ [V i X Lx L; La//b; L/a; La/; La.b; La[b; II I; ()V (I)I [L; LJava",
    "method": "V I () (V)V (I (I)[V (I)VV I)V ()V()V ([)V (L;)V (La)V (La.b;)V (i)V ()L; (()V ()I) )V (",
}
RIGHT = {
    "field": "B C D F I J S Z [I [[[J La; La/b/c; [Ljava/lang/String; L<>;",
    "method": "()V ()I (BCDFIJSZ)V ([J[[D)[I (La/b;J)La; (L(;L);)V",
}


def descriptors():
    for kind, kinds, index in (("field", "fields", 10), ("method", "methods", 12)):
        for number, text in enumerate(WRONG[kind].split()):
            refused("descriptors", 5, f"{kind}-wrong-{number}", f"{kind} descriptor",
                    SMALL.constant(index, utf8(text.encode())))
        for number, text in enumerate(RIGHT[kind].split()):
            accepted("descriptors", f"{kind}-right-{number}", [(5, f"{kind} descriptor")],
                     SMALL.constant(index, utf8(text.encode())))
        refused("descriptors", 5, f"second-{kind}", f"{kind} descriptor", SAMPLE.member(kinds, 1, descriptor=2))
    # At most 255 argument words, one of them the receiver's unless the method is static.
    for words, text in ((254, "J" * 127), (255, "J" * 127 + "I"), (256, "J" * 128),
                        (255, "IJ" * 85), (256, "I" + "IJ" * 85)):
        for flags, receiver in ((8, 0), (9, 0), (0, 1), (1, 1)):
            made = SMALL.constant(12, utf8(f"({text})V".encode())).member("methods", 0, flags=flags)
            label = f"{words}-words-of-{text[:2].lower()}-flags-{flags}"
            if words + receiver > 255:
                refused("descriptors", 5, label, "method descriptor", made)
            else:
                accepted("descriptors", label, [(5, "method descriptor")], made)
    refused("descriptors", 5, "field-with-a-method's", "field descriptor", SMALL.member("fields", 0, descriptor=12))
    refused("descriptors", 5, "method-with-a-field's", "method descriptor", SMALL.member("methods", 0, descriptor=10))


# ---- row 14

FIELDS, METHODS, TEXT = (14, "fields: at most 512"), (14, "methods: at most 512"), (14, "text bytes: at most 8192")
FEW, MANY = (14, "targets: one for each method"), (14, "targets: no more than methods")


def limits():
    for kind, member, clause in (("fields", SMALL.fields[0], FIELDS), ("methods", SMALL.methods[0], METHODS)):
        for count in (511, 512, 513):
            made = SMALL.but(fields=[], methods=[]).but(**{kind: [member] * count})
            if count > 512:
                refused("limits", 14, f"{count}-{kind}", clause[1], made)
            else:
                accepted("limits", f"{count}-{kind}", [clause], made)
    long = b"n" * 255
    for rest in (252, 253, 254):
        # The class's name, 31 fields of 256 bytes, one of `rest` and 1: 8,191 to 8,193 bytes.
        made = File([classes(2), utf8(b"AB"), utf8(long), utf8(b"I"), utf8(b"n" * rest)],
                    fields=[Member(0, 3, 4)] * 31 + [Member(0, 5, 4)])
        if rest == 254:
            refused("limits", 14, "text-8193", TEXT[1], made)
        else:
            accepted("limits", f"text-{7939 + rest}", [TEXT], made)
    for count in (512, 513):
        made = File([classes(2), utf8(b"A"), utf8(b"I"), utf8(b"()V")],
                    fields=[Member(0, 3, 3)] * count, methods=[Member(0, 3, 4)] * count)
        if count == 512:
            accepted("limits", "512-of-both", [FIELDS, METHODS], made)
        else:
            refused("limits", 14, "513-of-both", FIELDS[1], made, also=[METHODS])


def rooms():
    """Lists exactly full, and a word short; a target more or less."""
    full = 2, 12, 12, 5
    data = SAMPLE.bytes()
    room = [(14, f"{what}: long enough") for what in ("fields list", "methods list", "text list")]
    accepted("rooms", "exactly-full", [*room, FEW, MANY], data, full)
    accepted("rooms", "more-words", room, data, (2, 13, 20, 9))
    for place, clause in ((1, room[0]), (2, room[1]), (3, room[2])):
        for short in (1, full[place]):
            lent = tuple(words - short if i == place else words for i, words in enumerate(full))
            refused("rooms", 14, f"{clause[1].split()[0]}-{short}-short", clause[1], data, lent)
    for targets, clause in ((0, FEW), (1, FEW), (3, MANY), (514, MANY)):
        refused("rooms", 14, f"{targets}-targets", clause[1], data, (targets, *full[1:]))
    refused("rooms", 14, "nothing-lent", FEW[1], data, (0, 0, 0, 0), also=room)
    accepted("rooms", "a-text-2", [room[2]], A, (0, 0, 0, 2))
    accepted("rooms", "a-text-1", [room[2]], A, (0, 0, 0, 1))
    refused("rooms", 14, "a-text-0", room[2][1], A, (0, 0, 0, 0))
    refused("rooms", 14, "a-1-target", MANY[1], A, (1, 0, 0, 1))
    accepted("rooms", "ab-9s", [], AB, (1, 8, 7, 4))
    for size in range(1, 10):
        words = -(-size // 4)
        named = A.constant(2, utf8(b"abcdefghi"[:size]))
        accepted("rooms", f"text-of-{size}", [room[2]], named, (0, 0, 0, words + 1))
        accepted("rooms", f"text-of-{size}-exactly", [room[2]], named, (0, 0, 0, words))
        refused("rooms", 14, f"text-of-{size}-short", room[2][1], named, (0, 0, 0, words - 1))


# ---- two faults: which is told

def orders():
    last = File([classes(2), utf8(b"A"), utf8(b"m"), utf8(b"()V"), utf8(b"V")], methods=[Member(1, 3, 4)] * 600)
    refused("orders", 14, "600-methods", METHODS[1], last)
    refused("orders", 5, "600-methods-last-v", "method descriptor", last.member("methods", 599, descriptor=5),
            also=[METHODS])
    mask = f"method flags: within 0x{classfile.FLAGS:04X}"
    refused("orders", 4, "600-methods-last-0x200", mask, last.member("methods", 599, flags=0x200), also=[METHODS])
    refused("orders", 22, "600-methods-last-name-65535", "method name: inside the pool",
            last.member("methods", 599, name=65535))
    both = SMALL.member("fields", 0, descriptor=9).constant(11, utf8(b" "))
    refused("orders", 4, "method-name-and-field-descriptor", "method name: bytes from 0x21", both,
            also=[(5, "field descriptor")])
    refused("orders", 4, "method-flags-and-field-descriptor", mask,
            SMALL.member("methods", 0, flags=0x200).member("fields", 0, descriptor=9),
            also=[(5, "field descriptor")])
    refused("orders", 4, "name-and-no-room", "class name: at least 1 byte", SMALL.constant(2, utf8(b"")), (1, 0, 6, 9),
            also=[(14, "fields list: long enough")])
    refused("orders", 5, "descriptor-and-no-target", "method descriptor", SMALL.member("methods", 0, descriptor=10),
            (0, 6, 6, 9), also=[FEW])
    refused("orders", 21, "name-and-byte-after", "nothing after the last attribute",
            SMALL.constant(2, utf8(b"")).bytes() + b"\0")
    refused("orders", 21, "descriptor-and-byte-after", "nothing after the last attribute",
            SMALL.member("methods", 0, descriptor=10).bytes() + b"\0")
    refused("orders", 22, "name-and-method-name-outside", "method name: inside the pool",
            SMALL.constant(2, utf8(b"")).member("methods", 0, name=0))
    refused("orders", 22, "descriptor-and-method-name-outside", "method name: inside the pool",
            SMALL.member("fields", 0, descriptor=9).member("methods", 0, name=0))
    refused("orders", 22, "class-and-parent", "class: a Class", SMALL.but(this=2, parent=2))
    refused("orders", 22, "class-and-cut-parent", "class: a Class", SMALL.but(this=2).bytes()[:SMALL.pool_end() + 5])
    refused("orders", 22, "parent-and-cut-after", "parent: a Class", SMALL.but(parent=2).bytes()[:SMALL.pool_end() + 6])
    refused("orders", 22, "field-name-and-descriptor-cut", "field name: a Utf8",
            SMALL.member("fields", 0, name=1).bytes()[:SMALL.pool_end() + 15])
    refused("orders", 22, "tag-and-class-outside", "tag: one of eleven", SMALL.constant(12, b"\2\0\3()V").but(this=99))
    refused("orders", 21, "constant-cut-and-wrong-class", "constant: all there",
            SMALL.but(this=2).bytes()[:SMALL.pool_end() - 1])
    refused("orders", 22, "wrong-tag-before-cut", "tag: one of eleven",
            SMALL.constant(9, b"\2\0\1x").bytes()[:SMALL.pool_end() - 3])
    refused("orders", 22, "field-name-then-byte-after", "field name: inside the pool",
            SMALL.member("fields", 0, name=0).bytes() + b"\0")
    refused("orders", 21, "attribute-cut-then-method-name", "field attribute: all there",
            SMALL.member("fields", 0, attributes=[Attribute(2, b"", 99)]).member("methods", 0, name=0))
    refused("orders", 22, "method-name-then-attribute", "method name: inside the pool",
            SMALL.member("methods", 0, name=0, attributes=[Attribute(2, b"", 0xFFFFFFFF)]))


# ---- files that a compiler made

# Those that are refused, by the row and the clause.
REFUSED = {"1.1/Hangul": (4, "field name: bytes to 0x7E"), "1.2/Many": (14, "fields: at most 512")}


def real_files():
    """The stored class files by their names, each with the lines that javap's output gives."""
    for folder in sorted(os.listdir(REAL)):
        if os.path.isdir(os.path.join(REAL, folder)):
            for name in sorted(os.listdir(os.path.join(REAL, folder))):
                if name.endswith(".class"):
                    path = os.path.join(REAL, folder, name)
                    with open(path, "rb") as file, open(path[:-5] + "txt", encoding="utf-8") as told:
                        yield f"{folder}/{name[:-6]}", file.read(), told.read()


def printed(file):
    """A class file in the form of those lines."""
    extends = f" extends {file.parent.decode()}" if file.parent else ""
    yield f"class {file.name.decode()}{extends} 0x{file.flags:04x}"
    for kind, members in (("field", file.fields), ("method", file.methods)):
        for member in members:
            yield f"{kind} {member.name.decode()} {member.descriptor.decode()} 0x{member.flags:04x}"


def real():
    for name, data, told in real_files():
        if "".join(line + "\n" for line in printed(classfile.read(data))) != told:
            raise SystemExit(f"{name}: its members are not those that javap prints")
        if name in REFUSED:
            refused("real", REFUSED[name][0], name, REFUSED[name][1], data)
        else:
            accepted("real", name, [], data)


# ---- all of them

def make():
    for made in (versions, examples, cuts, lengths, tags, wide, references, many, rules, descriptors, limits, rooms,
                 orders, real):
        made()


def stored(cases):
    """The bytes of a file of cases."""
    out = bytearray()
    for label, data, lent in cases:
        for word in (len(label), len(data), *lent):
            out += word.to_bytes(4, "little")
        out += label.encode() + data
    return bytes(out)


def lines(group, cases):
    """What the program prints for a file of cases."""
    for label, data, lent in cases:
        row, answer, *after = classfile.judge(data, *lists(lent))
        head, words = classfile.judge_head(data)
        sums = " ".join(str(weighed(one)) for one in after)
        yield f"{group} {label} {told(row, answer)} {sums} head {told(head, words)}"


def told(row, answer):
    return f"refused {row}" if row else "read " + " ".join(map(str, answer))


def files():
    """Every file that the crate stores, by its path there."""
    names = sorted(groups)
    out = {f"data/{name}": stored(groups[name]) for name in names}
    out["args"] = "".join(name + "\n" for name in names).encode()
    out["stdout"] = "".join(line + "\n" for name in names for line in lines(name, groups[name])).encode()
    return out


def covered():
    for row, clause in classfile.clauses():
        yield f"class file, row {row}: {clause}", *cover.get((row, clause), ([], []))
