#!/usr/bin/env python3
"""Spells the repository's own definitions, lemmas and record fields as today's Rattle does: words in snake case, and a dash only between two names.

usage: python3 tools/port/respell.py [--list]      at the top, once, right after /opt/rattle/port/port.py

A name is respelled wherever it stands as a word in .antt files, and in .rt files inside clauses, `ghost use` lines and backquotes of comments.
Code, strings, exported names and data are left alone. --list prints the names, and those that would fall together, and writes nothing.
"""

import glob
import re
import sys

# What a word of antt is made of.
WORD = re.compile(r"[^\s(){}\[\].,;:=`\"«»⌜⌝]+")
DECLARED = re.compile(r"^\s*(?:(?:unfoldable|abbrev|pub|pattern|axiom|private)\s+)*([^\s(){}\[\].,;:=`\"]+)(?:\s*\{[^}]*\})?\s*:(?:\s|$)")
USE = re.compile(r"^\s*(?:pub )?(?:ghost )?use ([^;{]+?)(?:\.\{([^}]*)\})?(?: as \S+)?;?\s*$")
MADE = re.compile(r"^(returns|loop|invariant|decreases|ensures|requires|Need|overflow|bounds|shape|close|exit)(-|_|$)")
KEEP = {"_"}


def files():
    return sorted(glob.glob("crates/*/specs/**/*.antt", recursive=True) + glob.glob("crates/*/proofs/**/*.antt", recursive=True))


def read(p):
    with open(p, encoding="utf-8") as f:
        return f.read()


def declared():
    """The words that specs/ and proofs/ declare, and which of them specs/ declares as no lemma."""
    names, walks = {}, set()
    for p in files():
        own = p.endswith("/Proof.antt")
        for line in read(p).splitlines():
            m = DECLARED.match(line)
            if not m or line.lstrip().startswith("--"):
                continue
            n = m.group(1)
            rest = line[m.end():]
            if own and (MADE.match(n) or re.search(r"\b(tie|lts|goal)\.", rest) or n.endswith("-spec") or n.endswith("_spec")):
                walks.add(n)
                continue
            names.setdefault(n, set()).add(p)
    return names, walks


def library():
    """The words that are imported from elsewhere."""
    out = set()
    for p in files() + glob.glob("crates/*/src/*.rt"):
        for line in read(p).splitlines():
            m = USE.match(line)
            if m and m.group(2) and not m.group(1).strip().startswith("Rattle.") or m and m.group(2) and re.match(r"Rattle\.(std|core|io|os|libc)\.", m.group(1).strip()):
                for n in m.group(2).split(","):
                    for part in n.split(" as "):
                        out.add(part.strip())
    return out


def snake(word):
    """leWord → le_word; a name's capital at its head, a symbol and a hyphen stay."""
    out = []
    for i, c in enumerate(word):
        if c.isascii() and c.isupper() and i and (word[i - 1].islower() or word[i - 1].isdigit() or i + 1 < len(word) and word[i + 1].islower() and word[i - 1].isupper()):
            out.append("_")
        out.append(c.lower() if c.isascii() and c.isupper() and i else c)
    return "".join(out)


def respelled(name, heads, in_specs):
    """What specs/ declares has no dash. Of a lemma each part in snake case; a dash where both of its sides are names of their own, or the left one is a type, else an underscore."""
    if name[0].isupper():
        return name
    parts = name.split("-")
    if any(not p for p in parts):
        return name
    if in_specs:
        return snake(name.replace("-", "_"))
    new = [p if p[0].isupper() else snake(p) for p in parts]
    out = new[0]
    for left, right, old_left, old_right in zip(new, new[1:], parts, parts[1:]):
        out += ("-" if (old_left in heads or old_left[0].isupper()) and (old_right in heads or old_right[0].isupper()) else "_") + right
    return out


# Names that lemmas of the library are made of.
HEADS = set("length drop take append set get_or map and or not add sub mul div mod eq le lt zero suc nil cons reverse find fold table sum all some ext paste max min if cond eqb leb ltb".split())


def table():
    names, walks = declared()
    lib = library()
    heads = {n for n in names if "-" not in n} | HEADS
    out = {}
    for n in sorted(names):
        if n in lib or n in walks or n in KEEP or not re.search(r"[A-Z]|-|′", n) or "«" in n:
            continue
        new = respelled(n, heads, any("/specs/" in p for p in names[n])).replace("′", "'")
        if new != n:
            out[n] = new
    return names, lib, walks, out


def together(names, lib, walks, out):
    """Names that would fall together with another one."""
    taken = {}
    for n in list(names) + list(lib) + list(walks):
        taken.setdefault(out.get(n, n), set()).add(n)
    return {k: v for k, v in taken.items() if len(v) > 1}


def words(text, out):
    return WORD.sub(lambda m: out.get(m.group(0), m.group(0)), text)


QUOTED = re.compile(r"`[^`]*`")


def antt(text, out):
    lines = []
    for line in text.split("\n"):
        code, dash, said = line, "", ""
        m = re.search(r"(^|\s)--\s", line + " ")
        if m:
            at = m.start() + len(m.group(1))
            code, said = line[:at], line[at:]
            said = QUOTED.sub(lambda q: words(q.group(0), out), said)
        lines.append(words(code, out) + said)
    return "\n".join(lines)


def rt(text, out):
    """Clauses, `ghost use` lines and backquotes of comments."""
    result, depth = [], 0
    for line in text.split("\n"):
        strip = line.strip()
        if strip.startswith("//"):
            line = QUOTED.sub(lambda q: words(q.group(0), out), line)
        elif depth or re.match(r"(ghost use|requires|ensures|ghost|decreases|unfolding)\b|#\[tactic", strip):
            line = words(line, out)
            depth = max(0, depth + line.count("{") - line.count("}")) if not strip.startswith("ghost use") or depth or not strip.endswith(";") else 0
        result.append(line)
    return "\n".join(result)


def hidden(out):
    """Where a new name already stands in a file that says the old one: there a parameter or a variable may hide it."""
    for p in files() + sorted(glob.glob("crates/*/src/*.rt")):
        text = read(p)
        there = {m.group(0) for m in re.finditer(r"(?<![.\w'-])[\w'-]+", text)}
        for k, v in out.items():
            if k in there and v in there:
                print(p, k, v)


def main():
    names, lib, walks, out = table()
    falls = together(names, lib, walks, out)
    if "--list" in sys.argv:
        for k, v in sorted(out.items()):
            print(k, "->", v)
        print("---- hidden: in a file, a word that already stood there as another's name")
        hidden(out)
        print("---- fall together")
        for k, v in sorted(falls.items()):
            print(k, sorted(v))
            for n in v:
                print("     ", n, sorted(names.get(n, {"library"}))[:4])
        return
    for k, v in falls.items():
        first = min(v, key=lambda n: (not any("/specs/" in p for p in names.get(n, ())), "-" in n, n))
        for n in v:
            out[n] = SEPARATE.get(n, k if n == first or any(m in SEPARATE for m in v - {n}) else k + "_lem")
    for p in files() + sorted(glob.glob("crates/*/src/*.rt")):
        old = read(p)
        new = antt(old, out) if p.endswith(".antt") else rt(old, out)
        if new != old:
            with open(p, "w", encoding="utf-8") as f:
                f.write(new)


# Of names that fall together, the definition gets the plain one and the lemma `_lem` at its end; these tests of instances get another word.
SEPARATE = {
    "noInterface": "without_interface",
    "noStub": "without_stub",
    "oldRule": "by_old_rule",
    "oneIndex": "agrees_in_index",
    "openMethods": "has_open_methods",
    # fields of records whose plain name a definition has
    "abi-rows": "rows_of_abi",
    "class-rows": "rows_of_classes",
    "link-rows": "rows_of_link",
    "class-count": "number_of_classes",
    "compiler-count": "number_of_compilers",
    "field-count": "number_of_fields",
    "interface-count": "number_of_interfaces",
    "method-count": "number_of_methods",
    "entry-is": "entry_found",
    "instance-words": "words_of_instance",
    "is-eligible": "it_is_eligible",
    "new-methods": "methods_added",
    "of-class": "class_is",
    "own-fields": "fields_own",
    "own-methods": "methods_own",
    "static-words": "words_of_statics",
    "stubs-nonzero": "nonzero_stubs",
    "targets-different": "different_targets",
    "targets-nonzero": "nonzero_targets",
    "text-length": "length_of_text",
}

if __name__ == "__main__":
    main()
