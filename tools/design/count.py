#!/usr/bin/env python3
"""Counts, in crates/*/src, the places that docs/DESIGN-PASS.md speaks of.

    python3 tools/design/count.py [FOLDER] [POINT ..]

FOLDER is a checkout (this one by default). Without a POINT it prints a line for each count, with one it lists its places. What a count looks for is said
beside it below: it goes by the text, so what it finds is read by hand, and what it cannot see is not in it.
"""
import collections
import difflib
import itertools
import pathlib
import re
import sys

args = sys.argv[1:]
root = pathlib.Path(args.pop(0)) if args and pathlib.Path(args[0]).is_dir() else pathlib.Path(__file__).resolve().parents[2]
FN = re.compile(r"^(\s*)((?:pub(?:\(crate\))? )?(?:const )?(?:extern \"C\" )?fn )([a-z_0-9]+)(<[^(]*>)?\(", re.M)


def close(text, start):
    depth = 0
    for at in range(start, len(text)):
        if text[at] in "([{":
            depth += 1
        elif text[at] in ")]}":
            depth -= 1
            if depth == 0:
                return at
    raise ValueError("no closing bracket")


def split(text):
    parts, depth, last = [], 0, 0
    for at, c in enumerate(text):
        depth += c in "([{<"
        depth -= c in ")]}" or (c == ">" and text[at - 1] != "-")
        if c == "," and depth == 0:
            parts.append(text[last:at].strip())
            last = at + 1
    return parts + [text[last:].strip()] if text[last:].strip() else parts


class Function:
    def __init__(self, crate, path, text, m):
        self.crate, self.path, self.name = crate, path, m.group(3)
        self.public = "pub " in m.group(2) or "extern" in m.group(2)
        self.line = text.count("\n", 0, m.start(2)) + 1
        opening = m.end() - 1
        end = close(text, opening)
        self.params = [tuple(x.strip() for x in p.split(":", 1)) for p in split(text[opening + 1:end]) if ":" in p]
        brace = re.compile(r"(?:^\s*|\s)\{\n", re.M).search(text, end)
        start = brace.end() - 2
        self.head = text[end + 1:start]
        self.answer = (re.match(r"\s*-> ([^\n{]+?)\s*(?:\n|\{|$)", self.head + "\n") or [None, ""])[1]
        self.body = text[start:close(text, start) + 1]
        self.lines = self.body.count("\n") - 1

    def __str__(self):
        return f"{self.path.relative_to(root)}:{self.line} {self.name}"


functions, texts = [], {}
for path in sorted(root.glob("crates/*/src/*.rt")):
    text = "".join(line if not line.lstrip().startswith("//") else line[:len(line) - len(line.lstrip())] + "\n" for line in path.read_text().splitlines(True))
    text = re.sub(r"b?'(?:\\.|[^'\\])'", "' '", re.sub(r'b?"(?:\\.|[^"\\])*"', '""', text))
    texts[path] = text
    for m in FN.finditer(text):
        functions.append(Function(path.parts[-3], path, text, m))


def grep(pattern, only=None):
    return [f"{path.relative_to(root)}:{text.count(chr(10), 0, m.start()) + 1} {m.group(0).strip()}"
            for path, text in texts.items() for m in re.finditer(pattern, text, re.M) if only is None or only(m)]


def clauses(function):
    found = re.findall(r"requires(?: [a-z_]+)? \{((?:[^{}]|\{[^{}]*\})*)\}", function.head)
    return [re.sub(r"\s+", " ", part).strip(" ()") for clause in found for part in clause.split("×")]


def tokens(function):
    return re.findall(r"[A-Za-z_0-9]+|[^\sA-Za-z_0-9]", function.body)


def twins():
    """Pairs of functions of one crate, of 4 lines and more, whose bodies' tokens are alike in nine of ten."""
    found = []
    for crate, group in itertools.groupby(functions, lambda f: f.crate):
        long = [f for f in group if f.lines >= 4]
        for f, g in itertools.combinations(long, 2):
            a, b = tokens(f), tokens(g)
            if min(len(a), len(b)) * 10 >= 8 * max(len(a), len(b)):
                match = difflib.SequenceMatcher(None, a, b, autojunk=False)
                if match.quick_ratio() >= 0.85 and match.ratio() >= 0.85:
                    found.append(f"{f} | {g.name}")
    return found


def same():
    """Functions of one name and like bodies in two crates."""
    by_name = collections.defaultdict(list)
    for f in functions:
        if f.name != "main" and f.lines >= 2:
            by_name[f.name].append(f)
    return [f"{f} | {g}" for fs in by_name.values() for f, g in itertools.combinations(fs, 2)
            if f.crate != g.crate and difflib.SequenceMatcher(None, tokens(f), tokens(g), autojunk=False).ratio() >= 0.85]


def together(size, least):
    """Sets of `size` parameters and more, by name and type, that stand together in `least` functions and more; none is part of another with as many."""
    taken = [frozenset((n, re.sub(r"'\w+ ", "", t)) for n, t in f.params) for f in functions]
    distinct = {ps for ps in taken if len(ps) >= size}
    sets = distinct | {a & b for a, b in itertools.combinations(distinct, 2) if len(a & b) >= size}
    count = {ps: sum(ps <= t for t in taken) for ps in sets}
    return [f"{n} functions: " + ", ".join(f"{x}: {t}" for x, t in sorted(ps)) for ps, n in sorted(count.items(), key=lambda x: (-x[1], sorted(x[0]))) if n >= least]


def repeated(least):
    """Facts (parts of a `requires`) that stand in `least` functions and more."""
    count = collections.Counter()
    for f in functions:
        count.update(set(clauses(f)))
    return [f"{n} functions: {c}" for c, n in count.most_common() if n >= least]


def switches():
    """A value compared with three constants and more, one `if` after the other, in one function."""
    found = []
    for f in functions:
        count = collections.Counter(m.group(1) for m in re.finditer(r"if (\w+) == (?:[A-Z_]{2,}|\d+) \{", f.body))
        found += [f"{f}: {x} ({n} tests)" for x, n in count.items() if n >= 3]
    return found


def measured(function):
    """A slice that is lent with a count beside it: `xs: &[T], n` where the body reads or writes xs and n is no length of it."""
    slices = [n for n, t in function.params if re.match(r"&(?:'\w+ )?(?:mut )?\[", t)]
    counts = [n for n, t in function.params if t in ("u32", "usize") and n in ("n", "count", "size", "k", "end", "filled", "m")]
    return bool(slices and counts)


POINTS = {
    "1a": ("own enums", lambda: grep(r"^(?:pub )?enum \w+")),
    "1b": ("structs with a field `row`, `missing` or `refusal` beside values", lambda: grep(r"^\s+(?:pub )?(?:row|missing|refusal): (?:u32|bool),")),
    "1c": ("functions that answer a row's number as u32", lambda: [str(f) for f in functions if f.answer == "u32" and re.search(r"(?:refusal|rows?|refuse)", f.name)]),
    "1d": ("constants that number kinds, rows or cases", lambda: grep(r"^(?:pub )?const [A-Z_]+: u32 = \d{1,2};", lambda m: not re.search(r"LIMIT|WIDTH|COUNT|WORDS|PLACE|SLOT|FIRST|FIELD|BODY|VERSION|ROWS|KINDS|HEAD\b|MOST|PARENT|TARGET|MARKS", m.group(0)))),
    "2a": ("pairs of like functions in one crate", twins),
    "2b": ("pairs of like functions of one name in two crates", same),
    "3a": ("`while` loops", lambda: grep(r"^\s*while ")),
    "3b": ("`while` loops that count an index", lambda: [str(f) for f in functions for m in re.finditer(r"while (\w+) < [^\n]*\{", f.body) if re.search(r"\b%s \+= 1;" % m.group(1), f.body)]),
    "4": ("functions that compare, order, copy or convert by hand", lambda: [str(f) for f in functions if re.fullmatch(r"least|smaller|larger|wide|before|same_word|put_part|copy_words|is_digit|digit|power|as_signed|product", f.name)]),
    "5a": ("sets of three parameters and more that travel together in five functions and more", lambda: together(3, 5)),
    "5b": ("functions that take class words, their text, ABI words and theirs, or a name and a descriptor", lambda: [str(f) for f in functions if {"ws", "text", "abi", "labels"} <= {n for n, _ in f.params} or {"name", "descriptor"} <= {n for n, t in f.params if "[u8]" in t}]),
    "5c": ("facts that three functions and more require", lambda: repeated(3)),
    "5d": ("functions of more than ten parameters", lambda: [f"{f} ({len(f.params)})" for f in functions if len(f.params) > 10]),
    "6a": ("functions that are lent a slice and a count beside it", lambda: [str(f) for f in functions if measured(f)]),
    "6b": ("functions that are lent two arrays of a table, or three of new members", lambda: [str(f) for f in functions if {"ts", "ms"} <= {n for n, _ in f.params} or {"refs", "flags", "lasts"} <= {n for n, _ in f.params}]),
    "7": ("switches on a number", switches),
    "8a": ("answers in proofs/**/Answers.antt", lambda: [f"{p}:{m.group(1)}" for p in sorted(root.glob("crates/*/proofs/**/Answers.antt")) for m in re.finditer(r"^pub (\S+) : goal", p.read_text(), re.M)]),
    "8b": ("answers that are a tactic alone, without a law", lambda: [f"{p}:{m.group(1)}" for p in sorted(root.glob("crates/*/proofs/**/Answers.antt")) for m in re.finditer(r"^(\S+) (?:[gtc] )*c = (?:search(?: rules)?|omega arith|refl|cc)$", p.read_text(), re.M)]),
    "8c": ("lines of proofs/", lambda: [str(p) for p in sorted(root.glob("crates/*/proofs/**/*.antt")) for _ in p.read_text().splitlines()]),
}
if args:
    for point in args:
        print("\n".join(POINTS[point][1]()))
else:
    for point, (what, places) in POINTS.items():
        print(f"{point:3} {len(places()):6}  {what}")
