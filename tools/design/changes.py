#!/usr/bin/env python3
"""Sets beside each other, old and new, what changed since a commit: signatures and clauses of public functions, public types and constants, the facts that
types carry (ghost fields, invariants of `impl Model`), the clauses of trait impls, definitions of specs/, statements of laws and theorems in
proofs/*.antt.

    python3 tools/design/changes.py COMMIT > docs/DESIGN-PASS-CHANGES.md

The other side is the checkout that it lies in; the page was made in one of bcd7926d, the design pass's last commit.

A thing is known by its crate, module and name. One whose name is gone is set beside the one of its crate whose name differs by dashes, underscores and
case alone, or that RENAMED names, and else listed as gone. Comments and layout do not count.
"""
import collections
import pathlib
import re
import subprocess
import sys

# Crate, old name: what has its place now.
RENAMED = {
    ("class_form", "form-refusal"): "form_row",
    ("class_form", "member-next"): "member_next",
    ("growth", "ref_descriptor"): "ref_signature",
    ("growth", "ref_name"): "ref_signature",
    ("reading", "put_slot"): "put",
    ("words", "byte_at"): "get_or",
    ("words", "copy_words"): "copy",
    ("words", "put_byte"): "put",
    ("words", "put_word"): "put",
    ("words", "word_at"): "get_or",
    ("words", "word_part"): "part",
}

commit = sys.argv[1]
top = pathlib.Path(__file__).resolve().parents[2]


def git(*words):
    return subprocess.run(["git", "-C", str(top), *words], capture_output=True, text=True, check=True).stdout


def old_files():
    names = [n for n in git("ls-tree", "-r", "--name-only", commit, "crates").split("\n") if n.endswith((".rt", ".antt"))]
    data = subprocess.run(["git", "-C", str(top), "cat-file", "--batch"], input="\n".join(f"{commit}:{n}" for n in names).encode(), capture_output=True, check=True).stdout
    files, at = {}, 0
    for name in names:
        end = data.index(b"\n", at)
        size = int(data[at:end].split()[2])
        files[name] = data[end + 1:end + 1 + size].decode()
        at = end + 2 + size
    return files


def new_files():
    return {str(p.relative_to(top)): p.read_text() for p in top.glob("crates/*/*/**/*") if p.suffix in (".rt", ".antt") and "out" not in p.parts}


FN = re.compile(r"^ *(pub(?:\(crate\))? (?:const )?(?:extern \"C\" )?fn ([a-z_0-9]+)[\s\S]*?)\n? *\{\n(?! *(?:λ|\())", re.M)


def flat(text):
    text = re.sub(r"[ \t]*(?://|--)[^\n]*", "", text)
    return re.sub(r",? ([)}])", r" \1", re.sub(r"\s+", " ", text)).strip()


def functions(files):
    found = {}
    for name, text in files.items():
        if "/src/" in name:
            text = "\n".join(line for line in text.split("\n") if not line.lstrip().startswith("//"))
            for m in re.finditer(r"^ *pub (?:const )?(?:extern \"C\" )?fn ([a-z_0-9]+)", text, re.M):
                end = re.compile(r"^ *\{\n| \{\n", re.M).search(text, m.end())
                if end:
                    found[name.split("/")[1], m.group(1)] = flat(text[m.start():end.start()])
    return found


def types(files):
    """Public types and constants, and of any type its ghost fields, its `impl Model` and the clauses of its trait impls."""
    found = {}
    for name, text in files.items():
        if "/src/" not in name or not name.endswith(".rt"):
            continue
        crate = name.split("/")[1]
        text = "\n".join(line for line in text.split("\n") if not line.lstrip().startswith("//"))
        for m in re.finditer(r"^ *(pub )?(struct|enum|type|const) (?!fn )(\w+)[^\n{;]*(?:\{\n[\s\S]*?^ *\}\n|[^\n]*\n)", text, re.M):
            if m.group(1) or "ghost " in m.group(0):
                found[crate, m.group(3)] = flat(m.group(0))
        for m in re.finditer(r"^impl(?:<[^>\n]*>)? ([^\n{]+ for [^\n{]+) \{\n([\s\S]*?)^\}\n", text, re.M):
            facts = re.findall(r"ghost \w+ = \{.*?\};", m.group(2), re.S)
            if facts:
                found[crate, "impl " + m.group(1)] = flat("impl " + m.group(1) + " " + " ".join(facts))
    return found


OPENS = re.compile(r"( *)(?:pub )?(?:(module|record|data)\b)")


def inside(lines, at, deep):
    """What the line stands in: a module's block, a record's or a type's, or none."""
    for earlier in reversed(lines[:at]):
        if earlier.strip() and len(earlier) - len(earlier.lstrip()) < deep:
            m = OPENS.match(earlier)
            return m.group(2) if m else "law"
    return "none"


def declarations(files, folder):
    """The public declarations of specs/; of proofs/*.antt those that are not public too."""
    found = {}
    for name, text in files.items():
        parts = name.split("/")
        if parts[2] != folder or not name.endswith(".antt") or (folder == "proofs" and len(parts) != 4):
            continue
        lines = [line for line in text.split("\n") if not line.lstrip().startswith("--")]
        for at, line in enumerate(lines):
            m = re.match(r"( *)(?:abbrev |unfoldable )?pub (?:record |data |unfoldable |abbrev )?([^\s:({]+)(?: |$)", line)
            if not m and folder == "proofs":
                # A statement has its colon behind the name, a record's or a type's behind its binders; a clause with `let e : T` has it behind `=`.
                m = re.match(r"( *)(?:unfoldable |abbrev )?([^\s:({]+)(?: \{[^}]*\})* : ", line) or re.match(r"( *)(?:record|data) ([^\s:({]+) (?:[^=]*)?: ", line)
                if m and (m.group(2) in ("use", "module", "unfolding", "let", "pub", "by", "where", "λ") or inside(lines, at, len(m.group(1))) not in ("none", "module")):
                    continue
            if not m or re.match(r" *pub (?:mod|use) ", line) or (len(m.group(1)) > 0 and folder == "specs" and re.match(r" +pub [^\s]+ :", line)):
                continue
            deep, name_of = len(m.group(1)), m.group(2)
            # What a definition means is in its clauses, what a law says is in its type.
            defines = folder == "specs" or re.match(r" *(?:abbrev|unfoldable) ", line)
            if name_of in ("mod", "use"):
                continue
            body = [line]
            for later in lines[at + 1:]:
                if later.strip() and len(later) - len(later.lstrip()) <= deep and not (defines and re.match(r" *%s(?: |$)" % re.escape(name_of), later)):
                    break
                if not defines and re.match(r" *(?:unfolding |%s )" % re.escape(name_of), later):
                    break
                body.append(later)
            found[parts[1], parts[3][:-5], name_of] = flat("\n".join(body))
    return found


def plain(key):
    return key[0], key[-1].replace("-", "_").lower()


def renamed(before, after):
    """Of each key that is gone the key that has its place, where there is one."""
    place = {}
    by_name = collections.defaultdict(list)
    for key in after:
        by_name[plain(key)].append(key)
    for key in before:
        if key not in after:
            wanted = RENAMED.get((key[0], key[-1]), key[-1])
            here = by_name[plain((key[0], wanted))]
            if len(here) == 1:
                place[key] = here[0]
    return place


def show(title, before, after):
    place = renamed(before, after)
    changed = [(k, before[k], after[place.get(k, k)]) for k in sorted(before) if (k in after or k in place) and before[k] != after[place.get(k, k)]]
    gone = [k for k in sorted(before) if k not in after and k not in place]
    new = [k for k in sorted(after) if k not in before and k not in place.values()]
    print(f"\n## {title}\n\n{len(before)} before, {len(after)} now: {len(before) - len(changed) - len(gone)} the same, {len(changed)} changed, {len(gone)} no longer there by that name, {len(new)} new.\n")
    crate = None
    for key, old, now in changed:
        if key[0] != crate:
            crate = key[0]
            print(f"### {crate}\n")
        print("```diff\n- " + old + "\n+ " + now + "\n```\n")
    for what, keys, table in (("No longer there by that name", gone, before), ("New", new, after)):
        if keys:
            print(f"### {what}\n\n```")
            for key in keys:
                print(f"{key[0]}: {table[key]}")
            print("```\n")


old, new = old_files(), new_files()
head = git("rev-parse", "--short", "HEAD").strip()
print(f"# What the design pass changed, old and new\n\nMade by `python3 tools/design/changes.py {commit}` at {head}: `-` is what stood at that commit, `+` what stood at {head}. [DESIGN-PASS.md](DESIGN-PASS.md) has the reasons and the new homes of what is gone, [LOOK-BACK.md](LOOK-BACK.md) what was mended since.")
show("Public functions: signatures and clauses", functions(old), functions(new))
show("Public types and constants, facts of types, clauses of trait impls", types(old), types(new))
show("Definitions", declarations(old, "specs"), declarations(new, "specs"))
show("Laws and theorems", declarations(old, "proofs"), declarations(new, "proofs"))
