"""The text form of sheets: what `sheet make` reads and `sheet show` prints (tools/README.md).

The plain form names classes, methods and fields, and `make` lays them out. The raw form
lists each section record by record, so that it can tell every sheet exactly.
"""

import re

from sheetlib import ABI_SHEET, CLASS_SHEET, WORD, Sheet, content_faults, count_faults, label, linked_faults, shown
from sheetorder import parents_of, rings

KINDS = ("built", "generated", "array", "packaged")
HEADS = {"classes": CLASS_SHEET, "abi": ABI_SHEET}
NOT_IN_TABLES = 0x000A  # static, private


class FormError(Exception):
    """A line of the text form that says nothing: its number and why."""

    def __init__(self, line, what):
        super().__init__(f"line {line}: {what}")
        self.line, self.what = line, what


class Line:
    """One line as words, taken from the front. A word that starts with `#` where no name can stand starts a comment."""

    def __init__(self, number, words):
        self.number, self.words = number, words

    def fail(self, what):
        raise FormError(self.number, what)

    def more(self):
        """Whether a word other than a comment comes next."""
        if self.words and self.words[0].startswith("#"):
            self.words = []
        return bool(self.words)

    def take(self, what):
        if not self.words:
            self.fail(f"{what} is missing")
        return self.words.pop(0)

    def name(self, what):
        """A name or a descriptor: bytes 0x21 to 0x7E."""
        word = self.take(what)
        if not all(0x21 <= ord(c) <= 0x7E for c in word):
            self.fail(f"{what} {word!r}: only the characters 0x21 to 0x7E may stand in it (no accents)")
        return word.encode()

    def value(self, what, most=WORD - 1):
        self.more()
        word = self.take(what)
        if not re.fullmatch(r"[0-9]+|0x[0-9A-Fa-f]+", word):
            self.fail(f"{what} is a number, as 4096 or 0x1000, and not {word!r}")
        value = int(word, 16 if word.startswith("0x") else 10)
        if value > most:
            self.fail(f"{what} is {value}, above {most}")
        return value

    def values(self, what):
        out = []
        while self.more():
            out.append(self.value(what))
        return out

    def option(self, word):
        """Whether `word` comes next; takes it."""
        if self.more() and self.words[0] == word:
            self.words.pop(0)
            return True
        return False

    def done(self):
        if self.more():
            self.fail(f"{self.words[0]!r} is not expected here")


class Form:
    """A text form that was read: its sheet, the lines of the sheet's records, and the lines that say nothing."""

    def __init__(self, layout):
        self.sheet = Sheet(layout)
        self.faults = []  # FormErrors
        self.lines = {}  # (section, record, word or "") -> line
        self.owners = {}  # (section, record) -> the class whose list holds it, from 0
        self.raw = False

    def line(self, section, record, word=""):
        return self.lines.get((section, record, word)) or self.lines.get((section, record, ""), 1)

    def attempt(self, act, *words):
        """Does it, and notes a line that says nothing."""
        try:
            return act(*words)
        except FormError as fault:
            self.faults.append(fault)
            return None


def parse(text):
    """The sheet that a text form tells, or the first line that says nothing."""
    form = read_form(text)
    for fault in sorted(form.faults, key=lambda fault: fault.line):
        raise fault
    return form.sheet


def read_form(text):
    """The text form as far as it says something, with every line that does not."""
    lines = [Line(i + 1, words) for i, words in enumerate(line.split() for line in text.split("\n"))
             if words and not words[0].startswith("#")]
    if not lines:
        form = Form(CLASS_SHEET)
        form.faults.append(FormError(1, "an empty sheet needs the line `sheet classes` or `sheet abi`"))
        return form
    layout, raw = ABI_SHEET if lines[0].words[0] == "abi" else CLASS_SHEET, False
    head = None
    if lines[0].option("sheet"):
        head = lines.pop(0)
        layout = next((layout for word, layout in HEADS.items() if head.option(word)), None)
        raw = layout is not None and head.option("raw")
    form = Form(layout or CLASS_SHEET)
    form.raw = raw
    if head:
        form.attempt(head.done if layout else lambda: head.fail("`sheet classes` or `sheet abi`"))
    if raw:
        parse_raw(form, lines)
    elif form.sheet.layout is ABI_SHEET:
        parse_abi(form, lines)
    else:
        parse_classes(form, lines)
    return form


def render(sheet):
    """The plain form where it makes the same words, else the raw form."""
    try:
        text = render_abi(sheet) if sheet.layout is ABI_SHEET else render_classes(sheet)
        if parse(text).words() == sheet.words():
            return text
    except (FormError, IndexError, ValueError):
        pass
    return render_raw(sheet)


# ---- what is wrong, by the lines of the text

def form_faults(form, any_order=False):
    """Each fault as (line, sentence): lines that say nothing, and what rows 3 to 5 refuse, in the order of the lines. In any order a class
    may come before its parent, and rings are told."""
    out = [(fault.line, fault.what) for fault in form.faults]
    sheet = form.sheet
    unlinked = [] if sheet.layout is ABI_SHEET else linked_faults(sheet, 3, "a sheet that is read is unlinked, so 0")
    for fault in [*count_faults(sheet.layout, sheet.counts()), *unlinked, *content_faults(sheet)]:
        if not (any_order and comes_later(sheet, fault)):
            out.append(told(form, fault))
    if any_order and sheet.layout is CLASS_SHEET:
        out += [ring_told(form, ring) for ring in rings(parents_of(sheet))]
    return sorted(dict.fromkeys(out), key=lambda one: one[0])


def comes_later(sheet, fault):
    """Whether it is a parent, a class of the sheet, that does not come before its child."""
    return fault.at[::2] == ("class", "parent") and sheet.get(*fault.at) <= len(sheet.records["class"])


def ring_told(form, ring):
    first, *rest = [class_name(form.sheet, number - 1) for number in ring + ring[:1]]
    told_of = "itself" if len(ring) == 1 else ", which extends ".join(rest)
    return form.line("class", ring[0] - 1), f"{first} extends {told_of} (row 19)"


def told(form, fault):
    """A fault of the sheet, as the line of the text that it stands in and a sentence in the text's words."""
    section, i, word = fault.at
    sheet, row = form.sheet, f"(row {fault.row})"
    if word == "count":
        return over(form, section, i), f"{fault.what} {row}"
    line = form.line(section, i, word)
    if form.raw:
        return line, f"{fault.where} {row}"
    if word == "parent":
        return line, f"{class_name(sheet, i)} extends {later(form, i)} {row}"
    if word == "same name":
        return line, f"the name {class_name(sheet, i)} is taken by class {fault.what + 1}, line {form.line('class', fault.what)} {row}"
    if word in ("name", "descriptor"):
        part = f"its {word} " if fault.row == 4 else ""
        return line, f"{who(form, section, i)}: {part}{fault.what} {row}"
    value, limit = sheet.get(section, i, word), fault.what
    if word.endswith(" plus 1"):
        word, value = word[:-len(" plus 1")], value - 1
        limit = re.sub(r"\d+$", lambda most: str(int(most[0]) - 1), limit)
    shown_value = f"0x{value:x}" if "flags" in word else value
    return line, f"{who(form, section, i)}: {word} {shown_value}, {limit} {row}"


def over(form, section, limit):
    """The line of the first record past a count's limit, or of the first text past its limit."""
    if section != "text":
        return form.line(section, limit)
    for line, start, length in form.text_lines:
        if start + length > limit:
            return line
    return 1


def class_name(sheet, i):
    return shown(sheet.part("class", i, "name"))


def later(form, i):
    """The parent of a class that does not come before it."""
    parent = form.sheet.get("class", i, "parent") - 1
    if parent == i:
        return "itself"
    return f"{class_name(form.sheet, parent)}, which comes later, line {form.line('class', parent)}"


def who(form, section, i):
    """A record of the plain form: a class, or a member with its class."""
    if section == "class":
        return f"class {class_name(form.sheet, i)}"
    name, descriptor = (shown(form.sheet.part(section, i, part)[:80]) for part in ("name", "descriptor"))
    return f"{section} {name} {descriptor} of {class_name(form.sheet, form.owners[section, i])}"


def form_warnings(form):
    """Each doubtful thing as (line, sentence): a table's method of target 0, whose slot stays unknown."""
    if form.raw or form.sheet.layout is ABI_SHEET:
        return []
    out = []
    for i, (*_, flags, target) in enumerate(form.sheet.records["method"]):
        if target == 0 and not flags & NOT_IN_TABLES and not form.sheet.part("method", i, "name").startswith(b"<"):
            out.append((form.line("method", i), f"{who(form, 'method', i)} has target 0, so its slot stays unknown unless the ABI fixes it: "
                        "no interface table is refused by 16 for want of it, and a child that declares it gets a slot of its own; "
                        "any other target makes it known"))
    return out


# ---- plain form

class Text:
    """The text section: each distinct name or descriptor once, at its first mention."""

    def __init__(self, form):
        self.bytes, self.places, self.form = b"", {}, form
        form.text_lines = []  # line, start and length of each part

    def part(self, name, line):
        if name not in self.places:
            self.places[name] = len(self.bytes)
            self.form.text_lines.append((line, len(self.bytes), len(name)))
            self.bytes += name
        return [self.places[name], len(name)]


def members(form, text, section, rows):
    """Appends records (line, name, descriptor, further words); answers the first's number and the count."""
    records = form.sheet.records[section]
    first = len(records)
    for line, name, descriptor, *rest in rows:
        form.lines[section, len(records), ""] = line
        form.owners[section, len(records)] = len(form.sheet.records["class"])
        records.append(text.part(name, line) + text.part(descriptor, line) + rest)
    return [first, len(rows)]


def words_list(form, section, values):
    """Appends one-word records (line, word)."""
    records = form.sheet.records[section]
    first = len(records)
    for line, value in values:
        form.lines[section, len(records), ""] = line
        records.append([value])
    return [first, len(values)]


def parse_classes(form, lines):
    classes = []
    for line in lines:
        form.attempt(classes_line, classes, line)
    named = [one for one in classes if one["name"] is not None]
    numbers = {}
    for number, one in enumerate(named, 1):
        numbers.setdefault(one["name"], number)
    if len(named) < len(classes):
        numbers[None] = 1  # a class whose name is not told may be the one that another line means
    text = Text(form)
    for one in named:
        add_class(form, text, one, numbers)
    form.sheet.text = text.bytes


def classes_line(classes, line):
    word = line.take("a word")
    if word == "class":
        one = {"line": line, "name": None, "method": [], "field": [], "parent": None, "kind": "built", "lines": {}}
        classes.append(one)
        one["name"] = line.name("the class name")
        one["parent"] = line.name("the parent's name") if line.option("extends") else None
        one["kind"] = next((kind for kind in KINDS if line.option(kind)), "built")
    elif word == "abi":
        line.fail("`abi class` stands in the text of an ABI sheet, abi.txt, and this is a class sheet's")
    elif not classes:
        line.fail(f"{word!r} stands before the first class")
    else:
        class_line(classes[-1], word, line)
    line.done()


def class_line(one, word, line):
    """A line under a class: a member, or one of the class's own words."""
    if word in ("method", "field"):
        row = [line.number, line.name("the name"), line.name("the descriptor")]
        last = line.value("the target" if word == "method" else "the word index")
        one[word].append(row + [line.value("flags") if line.option("flags") else 1, last])
        return
    if word not in ("flags", "state", "words", "statics", "implements", "compiler"):
        line.fail(f"{word!r} is none of class, method, field, flags, state, words, statics, implements, compiler")
    if word in one and word != "implements":
        line.fail(f"{word!r} is said twice of one class")
    one["lines"][word] = line.number
    if word == "implements":
        names = one.setdefault(word, [])
        names.append((line, line.name("the interface's name")))
        while line.more():
            names.append((line, line.name("the interface's name")))
    elif word == "compiler":
        one[word] = [(line.number, value) for value in line.values("a compiler word")]
    else:
        one[word] = line.value(word)


# The words of a class record that a line of their own tells.
TOLD_BY = (("access flags", "flags"), ("link state", "state"), ("instance words", "words"), ("compiler slots", "compiler"),
           ("static words", "statics"))


def add_class(form, text, one, numbers):
    def numbered(line, name):
        if name not in numbers and None not in numbers:
            form.faults.append(FormError(line.number, f"no class is named {name.decode()}"))
        return numbers.get(name, 0)
    number, line = len(form.sheet.records["class"]), one["line"].number
    form.lines["class", number, ""] = line
    for word, said in TOLD_BY:
        form.lines["class", number, word] = one["lines"].get(said, line)
    parent = numbered(one["line"], one["parent"]) if one["parent"] else 0
    interfaces = [(at.number, numbered(at, name)) for at, name in one.get("implements", ())]
    record = text.part(one["name"], line) + [parent, one.get("flags", 1), KINDS.index(one["kind"])]
    record += members(form, text, "method", one["method"])
    record += members(form, text, "field", one["field"])
    record += words_list(form, "interface word", [(at, value) for at, value in interfaces if value])
    record += [one.get("state", 0), one.get("words", 0)]
    if "compiler" in one:
        first, count = words_list(form, "compiler word", one["compiler"])
        record += [first + 1, count]
    else:
        record += [0, 0]
    form.sheet.records["class"].append(record + [0, 0, one.get("statics", 0)])


def parse_abi(form, lines):
    classes = []
    for line in lines:
        form.attempt(abi_line, classes, line)
    add_abi_classes(form, classes)


def add_abi_classes(form, classes):
    text = Text(form)
    for one in classes:
        if one["name"] is None:
            continue
        form.lines["class", len(form.sheet.records["class"]), ""] = one["line"]
        record = text.part(one["name"], one["line"]) + [one["size"], one["words"]]
        record += members(form, text, "slot", one["slot"])
        record += members(form, text, "field", one["field"])
        form.sheet.records["class"].append(record)
    form.sheet.text = text.bytes


def abi_line(classes, line):
    word = line.take("a word")
    if word == "abi":
        if line.take("class") != "class":
            line.fail("an ABI class starts with `abi class`")
        one = {"line": line.number, "name": None, "slot": [], "field": [], "size": 0, "words": 0}
        classes.append(one)
        one["name"] = line.name("the class name")
        one["size"] = line.value("size", WORD - 2) + 1 if line.option("size") else 0
        one["words"] = line.value("words", WORD - 2) + 1 if line.option("words") else 0
    elif word not in ("slot", "field"):
        line.fail(f"{word!r} is none of `abi class`, slot, field")
    elif not classes:
        line.fail(f"{word!r} stands before the first ABI class")
    else:
        classes[-1][word].append([line.number, line.name("the name"), line.name("the descriptor"), line.value("the index")])
    line.done()


def rows(sheet, section, first, count):
    """The records of a list as (name, descriptor, further words)."""
    for i in range(first, first + count):
        yield (*(sheet.part(section, i, p).decode("ascii") for p in ("name", "descriptor")),
               *sheet.records[section][i][4:])


def render_classes(sheet):
    records, out = sheet.records["class"], ["sheet classes"]
    names = [sheet.part("class", i, "name").decode("ascii") for i in range(len(records))]
    for name, record in zip(names, records):
        (_, _, parent, flags, kind, method, methods, field, fields, interface, interfaces,
         state, words, table, slots, _, _, statics) = record
        extends = f" extends {names[parent - 1]}" if parent else ""
        out += ["", f"class {name}{extends}" + (f" {KINDS[kind]}" if kind else "")]
        out += [f"  {word} {value}" for word, value, usual in
                (("flags", f"0x{flags:x}", "0x1"), ("state", state, 0), ("words", words, 0), ("statics", statics, 0)) if value != usual]
        if interfaces:
            numbers = [w for [w] in sheet.records["interface word"][interface:interface + interfaces]]
            out += implemented([names[n - 1] for n in numbers])
        if table:
            targets = sheet.records["compiler word"][table - 1:table - 1 + slots]
            out.append(" ".join(["  compiler"] + [str(w) for [w] in targets]))
        for section, first, count in (("method", method, methods), ("field", field, fields)):
            for one, descriptor, flag, last in rows(sheet, section, first, count):
                out.append(f"  {section} {one} {descriptor} {last}" + (f" flags 0x{flag:x}" if flag != 1 else ""))
    return "\n".join(out) + "\n"


def implemented(names):
    """`implements` lines: a name that could be taken for a comment stands first on a line of its own."""
    lines = []
    for name in names:
        if not lines or name.startswith("#"):
            lines.append("  implements " + name)
        else:
            lines[-1] += " " + name
    return lines


def render_abi(sheet):
    out = ["sheet abi"]
    for i, record in enumerate(sheet.records["class"]):
        _, _, size, words, slot, slots, field, fields = record
        out += ["", f"abi class {sheet.part('class', i, 'name').decode('ascii')}"
                + (f" size {size - 1}" if size else "") + (f" words {words - 1}" if words else "")]
        for section, first, count in (("slot", slot, slots), ("field", field, fields)):
            out += [f"  {section} {name} {descriptor} {index}"
                    for name, descriptor, index in rows(sheet, section, first, count)]
    return "\n".join(out) + "\n"


# ---- raw form

TEXT_LINE = 64  # bytes of text to a line
WORDS_LINE = 16  # one-word records to a line


def parse_raw(form, lines):
    sections = {section.name.split()[0]: section for section in form.sheet.layout.sections}
    form.text_lines = []
    for line in lines:
        form.attempt(raw_line, form, sections, line)


def raw_line(form, sections, line):
    word = line.take("a word")
    if word == "text":
        part = unshown(line, line.take("the text"))
        form.text_lines.append((line.number, len(form.sheet.text), len(part)))
        form.sheet.text += part
    elif word in sections:
        section, values = sections[word], line.values("a word of the record")
        width = section.width()
        if len(values) % width:
            line.fail(f"a {section.name} record has {width} words, and here are {len(values)}")
        records = form.sheet.records[section.name]
        for i in range(0, len(values), width):
            form.lines[section.name, len(records), ""] = line.number
            records.append(values[i:i + width])
    else:
        line.fail(f"{word!r} is none of {', '.join(sections)}, text")
    line.done()


def unshown(line, word):
    """The bytes that shown() wrote."""
    pieces = re.findall(r"\\x[0-9a-f]{2}|[!-\[\]-~]", word)
    if "".join(pieces) != word:
        line.fail("text is characters 0x21 to 0x7E, any other byte and the backslash as \\xHH")
    return bytes(int(p[2:], 16) if len(p) > 1 else ord(p) for p in pieces)


def render_old(sheet):
    """A sheet of 17-word class records, for the eye: the text that makes its widened sheet says more."""
    return "# a class sheet of 17-word class records: `sheet widen` makes it one that can be read\n" + render_raw(sheet)


def render_raw(sheet):
    out = [f"sheet {'abi' if sheet.layout is ABI_SHEET else 'classes'} raw"]
    for section in sheet.layout.sections:
        records, word = sheet.records[section.name], section.name.split()[0]
        if records:
            out += ["", f"# {section.name}: {', '.join(section.words)}"]
        if section.width() == 1:
            out += [f"{word} " + " ".join(str(w) for [w] in records[i:i + WORDS_LINE])
                    for i in range(0, len(records), WORDS_LINE)]
            continue
        for i, record in enumerate(records):
            out += [f"# {label(sheet, section.name, i)}", f"{word} " + " ".join(map(str, record))]
    if sheet.text:
        out += ["", "# text: four bytes a word; the numbers count from 0"]
    for i in range(0, len(sheet.text), TEXT_LINE):
        out += [f"# {i}", f"text {shown(sheet.text[i:i + TEXT_LINE])}"]
    return "\n".join(out) + "\n"
