#!/usr/bin/env python3
"""Makes Invariants.antt and Answers.antt of the Proof.antt files of a crate, by the names that `rt check --generated DIR --old-names` lists.

usage: python3 tools/port/convert.py CRATE [FUNCTION ..]     at the top
"""

import json
import os
import re
import subprocess
import sys

TOKEN = re.compile(r"[^\s(){}\[\].,;:=`\"«»]+")


def norm(n):
    n = re.sub(r"_lem\b", "", n).replace("_", "-")
    n = re.sub(r"^(overflow|fits|slice)-(add|sub|mul|cast|aggregate|bounds|write)", r"\2", n)
    return n


def loose(n):
    return re.sub(r"[^a-z0-9]", "", norm(n).lower()).replace("isis", "is")


def norms(n):
    """What a name may have been, the likeliest first."""
    yield norm(n)
    yield norm(n).replace("bounds-", "part-")


def clauses():
    """The names of the ensures of each function that has two or more, in order."""
    out = {}
    import glob
    for p in glob.glob("crates/*/src/*.rt"):
        crate = p.split("/")[1]
        current = None
        for line in open(p, encoding="utf-8"):
            m = re.match(r"\s*(?:pub )?(?:extern \"C\" )?fn (\w+)", line)
            if m:
                current = f"{crate}::{m.group(1)}"
            m = re.match(r"\s+ensures (\w+) \{", line)
            if m and current:
                out.setdefault(current, []).append(m.group(1))
    return out


CLAUSES = {}


def clause(names, segs):
    """.1.0.x of a right nest of clauses as .NAME.x; None where the path stops short of one."""
    k, j = 0, 0
    while j < len(segs) and segs[j] == "1" and k < len(names) - 1:
        k += 1
        j += 1
    if k == len(names) - 1:
        return [names[k]] + segs[j:]
    if j < len(segs) and segs[j] == "0":
        return [names[k]] + segs[j + 1:]
    return None


class Function:
    def __init__(self, crate, name, d):
        self.crate, self.name, self.d = crate, name, d
        self.places = {}
        self.byname = {}
        for (old, parent, field, callee, _), new in zip(d["places"], d["places_by_name"]):
            i = len(self.places)
            self.places[norm(old)] = dict(arms=d["arms"][i], typed=d["typed"][i], old=old, parent=None if parent is None else norm(parent), field=field, callee=callee, new=new)
        self.goals = {}
        for (old, new), (at_old, at_new) in zip(d["needs"], d["asked_at"]):
            self.goals[norm(old)] = (new, norm(at_old))
        self.params = d["params"]
        self.loops = {}
        for (names, vs), ch in zip(d["loops"], d["changed"]):
            self.loops[norm(names[0])] = (names[1], vs, ch)
        self.warn = []
        self.root = self.root_place = None
        self.recursive = name.startswith("+")
        self.used, self.lemmas, self.other = set(), {}, {}

    def goal(self, old):
        for n in norms(old):
            if n in self.goals:
                return self.goals[n]
        return None

    def chain(self, place):
        while place is not None:
            yield place
            place = self.places[place]["parent"]


# functions whose names the respelling took for fields
BACK = {"number_of_classes": "class-count", "number_of_compilers": "compiler-count", "number_of_fields": "field-count", "number_of_interfaces": "interface-count", "number_of_methods": "method-count", "words_of_instance": "instance-words", "it_is_eligible": "is-eligible", "entry_found": "entry-is", "methods_added": "new-methods", "fields_own": "own-fields", "methods_own": "own-methods", "words_of_statics": "static-words", "length_of_text": "text-length", "class_is": "of-class"}


def path(fn, place, segs):
    """The new segments after the context variable, for old ones read at a place; or a place, where they end at one."""
    segs = [BACK.get(x, x) for x in segs]
    i = 0
    while i < len(segs) and segs[i] == "before":
        up = fn.places[place]["parent"]
        if up is not None:
            place = up
        i += 1
    if i == len(segs):
        return place, None
    s, rest = segs[i], segs[i + 1:]
    if s in ("args", "lifetimes", "ranges"):
        return None, [s] + rest
    if s in ("pre", "requires"):
        if fn.recursive and rest[:1] == ["1"]:
            rest = rest[1:]
        elif fn.recursive and rest[:1] == ["0"]:
            return None, ["decreases"] + rest[1:]
        return None, ["requires"] + rest
    found = None
    if rest[:1] == ["given"] and fn.root_place:
        for var, old in fn.places[fn.root_place]["typed"]:
            if norm(old) == norm(s):
                return None, ["type_inv", var] + rest[1:]
    for p in fn.chain(place):
        arms = fn.places[p]["arms"]
        best = None
        for sub, old, suffix in (arms[2] if arms else []):
            if norm(old) == norm(s) and rest[:len(suffix)] == suffix and (best is None or len(suffix) > len(best[1])):
                best = (sub, suffix)
        if best and best[1]:
            return None, [arms[0], best[0]] + rest[len(best[1]):]
        f = fn.places[p]["field"]
        if norm(f[0]) == norm(s) or f[1] == s:
            found = (f[1], fn.places[p]["callee"])
            break
    for p in () if found or not fn.root_place else fn.chain(fn.root_place):
        f = fn.places[p]["field"]
        if norm(f[0]) == norm(s):
            found = (f[1], fn.places[p]["callee"])
            break
    for p in () if found else list(fn.chain(place)) + (list(fn.chain(fn.root_place)) if fn.root_place else []):
        f = fn.places[p]["field"]
        if f[0] and loose(f[0]) == loose(s):
            found = (f[1], fn.places[p]["callee"])
            break
    if not found:
        # a name counted otherwise: by its callee
        fn.warn.append(f"no field {s} at {place}")
        return None, segs[i:]
    field, callee = found
    rest = list(rest)
    if rest:
        at_loop = re.fullmatch(r"loop\d*", norm(s))
        rest[0] = {"inv": "invariant"}.get(rest[0], rest[0]) if at_loop else {"taken": "true", "left": "false"}.get(rest[0], rest[0])
        if rest[0] == "kept":
            rest[0] = "auto"
        if rest[0] == "ensures" and len(CLAUSES.get(callee, ())) > 1:
            named = clause(CLAUSES[callee], rest[1:])
            if named is None:
                fn.warn.append(f"clauses of {callee}: {'.'.join([s] + rest)}")
            else:
                rest = ["ensures"] + named
        if rest[0] in ("new", "auto") and callee in fn.params and len(rest) > 1 and rest[1] in ("0", "1"):
            k, j = 0, 1
            while j < len(rest) and rest[j] == "1":
                k += 1
                j += 1
            if j < len(rest) and rest[j] == "0":
                j += 1
            if k < len(fn.params[callee]):
                rest = [rest[0], fn.params[callee][k]] + rest[j:]
    return None, [field] + rest


PSEUDO = re.compile(r"⟪([^@]*)@([^⟫]*)⟫((?:\.[^\s(){},.;]+)*)")


def strip_args(text, invs):
    """Drops the invariants and measures that follow tie.X."""
    names = "|".join(re.escape(n) for n in sorted(invs, key=len, reverse=True))
    if not names:
        return text
    return re.sub(r"(tie\.[^\s(){},;]+)((?:(?:[ \t]+|\n[ \t]+)(?:" + names + r"))+)(?=[\s(){},;]|$)", r"\1", text)


def subst_var(text, var, to):
    return re.sub(r"(?<![^\s(){},;\[\]])" + re.escape(var) + r"(?=[\s(){},;.\]]|$)", to, text)


def navigate(text, navs):
    for n, p in navs.items():
        again = True
        while again:
            new = re.sub(r"\(" + re.escape(n) + r" ⟪([^@]*)@[^⟫]*⟫\)", lambda m: f"⟪{m.group(1)}@{p}⟫", text)
            new = re.sub(r"(?<![^\s(])" + re.escape(n) + r" ⟪([^@]*)@[^⟫]*⟫", lambda m: f"⟪{m.group(1)}@{p}⟫", new)
            again = new != text
            text = new
    return text


def resolve_place(fn, expr):
    """The place of an expression that is a path to one, or None."""
    m = re.fullmatch(r"⟪([^@]*)@([^⟫]*)⟫((?:\.[^\s(){},.;]+)*)", expr.strip())
    if not m:
        return None
    segs = [s for s in m.group(3).split(".") if s]
    if any(s != "before" for s in segs):
        return None
    place, rest = path(fn, m.group(2), segs)
    return (m.group(1), place) if rest is None else None


LET = re.compile(r"\blet ([^\s:=]+)(?: : tie\.([^\s(){},;=]+))? =\s+((?:(?!\blet\b|\bin\b).)*?)\s+in\b", re.S)


def flow(fn, text, navs, goal):
    """A body's text with its contexts made flat. Context variables stand in it as ⟪root@place⟫."""
    for n, (new, p) in fn.other.items():
        before = r"(?<![^\s(){},])" + re.escape(n)
        text = re.sub(before + r" \(search(?: rules)?\)(?: κs)?(?=[\s(){},;]|$)", lambda m: f"{new} ⟪{fn.root}@{p}⟫", text)
        text = re.sub(before + r" ([^\s(){},;]+|\((?:[^()]|\([^()]*\))*\)) κs(?=[\s(){},;]|$)", lambda m: f"{new} {m.group(1)}", text)
        text = re.sub(before + r"(?= [\w⟪(])", lambda m: new, text)
    for n, p in fn.lemmas.items():
        text = re.sub(r"(?<![^\s(])" + re.escape(n) + r" \(search(?: rules)?\)", lambda m: f"{n} ⟪{fn.root}@{p}⟫", text)
    while True:
        text = navigate(text, navs)
        text = re.sub(r"\((⟪[^⟫]*⟫)\)", r"\1", text)
        done = True
        for m in LET.finditer(text):
            name, typed, expr = m.groups()
            target = None
            if typed is not None and expr.strip() in ("search", "search rules"):
                p = norm(typed)
                if p in fn.places:
                    root = re.search(r"⟪([^@]*)@", text)
                    target = (fn.root, p)
                else:
                    fn.warn.append(f"no place {typed}")
                    continue
            else:
                target = resolve_place(fn, expr)
            if target is None:
                e = re.fullmatch(r"⟪[^@]*@[^⟫]*⟫(?:\.[^\s(){},.;]+)*\.(?:ensures|new|kept|auto|loop\d*)", expr.strip())
                if e and re.search(r"(?<![^\s(){},;\[\]])" + re.escape(name) + r"\.\S", text[m.end():]) and not re.search(r"(?<![^\s(){},;\[\]])" + re.escape(name) + r"(?=[\s(){},;\]]|$)", text[m.end():]):
                    tail = subst_var(text[m.end():], name, expr.strip())
                    text = text[:m.start()] + (tail.lstrip(" ") if not tail.startswith("\n") else tail)
                    done = False
                    break
                continue
            head, tail = text[:m.start()], text[m.end():]
            tail = subst_var(tail, name, f"⟪{target[0]}@{target[1]}⟫")
            text = head + tail.lstrip(" ") if not tail.startswith("\n") else head + tail
            done = False
            break
        if done:
            break

    def out(m):
        root, place, segs = m.group(1), m.group(2), [s for s in m.group(3).split(".") if s]
        p, rest = path(fn, place, segs)
        if rest is None:
            new = fn.places[p]["new"]
            if p == fn.root_place:
                return root
            if goal:
                fn.used.add(new)
                return f"(goal.at.{goal} {root}).{new}"
            if new == "Start":
                hops, at = 1, fn.root_place
                while fn.places[at]["parent"] is not None:
                    at = fn.places[at]["parent"]
                    hops += 1
                return root + ".before" * hops
            fn.warn.append(f"whole {new} in a lemma")
            return root
        return ".".join([root] + rest)

    text = PSEUDO.sub(out, text)
    text = re.sub(r"\((?:not[-_](?:true|false) _|ap not) (\w+\.if-not-[^\s()]+)\)", r"⟦\1⟧", text)
    text = re.sub(r"(?:not[-_](?:true|false) _|ap not) (\w+\.if-not-[^\s()]+)", r"⟦\1⟧", text)
    text = re.sub(r"(?<!⟦)\b(c\.if-not-[^\s(),;]+\.(?:true|false))(?![\w.-])", r"(ap not \1)", text)
    text = text.replace("⟦", "").replace("⟧", "")
    text = re.sub(r"\n[ \t]+(?=\n)", "", text)
    text = re.sub(r"\n[ \t]+\Z", "", text)
    def place_type(m):
        if norm(m.group(1)) not in fn.places:
            return "goal." + m.group(1)
        fn.used.add(fn.places[norm(m.group(1))]["new"])
        return fn.places[norm(m.group(1))]["new"]

    text = re.sub(r"tie\.([^\s(){},;]+)", place_type, text)
    return text


def unhide(body, table):
    """A λ's own variables that have the name of a parameter get a prime."""
    at = 0
    while True:
        m = re.search(r"λ ([^.]*)\.", body[at:])
        if not m:
            return body
        start, end, depth = at + m.start(), len(body), 0
        for i in range(start, len(body)):
            if body[i] in "([{":
                depth += 1
            elif body[i] in ")]}":
                depth -= 1
                if depth < 0:
                    end = i
                    break
        scope = body[start:end]
        for n in re.findall(r"[^\s(){}:]+", m.group(1)):
            if n in table:
                scope = re.sub(r"(?<![^\s(){},;\[\]])" + re.escape(n) + r"(?=[\s(){},;.\]]|$)", n + "'", scope)
        body = body[:start] + scope + body[end:]
        at = start + 1


def split(text):
    """The parts of a tuple's text, or None."""
    t = text.strip()
    if not t.startswith("("):
        return None
    parts, depth, cur = [], 0, ""
    for i, ch in enumerate(t):
        if ch in "([{":
            depth += 1
            if depth == 1:
                continue
        if ch in ")]}":
            depth -= 1
            if depth == 0:
                if t[i + 1:].strip():
                    return None
                break
        if ch == "," and depth == 1:
            parts.append(cur)
            cur = ""
        else:
            cur += ch
    if cur.strip():
        parts.append(cur)
    return parts if len(parts) > 1 else None


def tail_at(text):
    """Where the value begins, behind the lets."""
    at, depth = 0, 0
    for m in re.finditer(r"[(\[{]|[)\]}]|(?<![^\s(){}])in(?=\s)", text):
        if m.group(0) in "([{":
            depth += 1
        elif m.group(0) in ")]}":
            depth -= 1
        elif depth == 0 and "let" in text[:m.start()]:
            at = m.end()
    return at


def clausewise(fn, body):
    names = CLAUSES.get(f"{fn.crate}::{fn.name.lstrip('+')}", ())
    if len(names) < 2:
        return body
    at = tail_at(body)
    head, tail = body[:at], body[at:]
    parts, rest = [], tail
    while len(parts) < len(names) - 1:
        two = split(rest)
        if two is None:
            break
        if len(two) > 2 and len(parts) + len(two) == len(names):
            parts += two[:-1]
            rest = two[-1]
            continue
        if len(two) > 2:
            parts.append(two[0])
            rest = "(" + ",".join(two[1:]) + ")"
            continue
        parts.append(two[0])
        rest = two[1]
    if len(parts) == len(names) - 1:
        parts.append(rest)
        fields = [f"{n} = {' '.join(x.split())}" for n, x in zip(names, parts)]
        if sum(map(len, fields)) < 90:
            return head + " record { " + "; ".join(fields) + " }"
        return head + " record {\n" + "".join(f"      {f};\n" for f in fields) + "    }"
    if not parts and not re.match(r"\s*(search|omega|grind|cc)\b", tail) and not re.fullmatch(r"\s*\S+\.ensures\s*", tail):
        path = lambda k: ".1" * k + (".0" if k < len(names) - 1 else "")
        return head + f" let both = {' '.join(tail.split())} in record {{ " + "; ".join(f"{n} = both{path(k)}" for k, n in enumerate(names)) + " }"
    if parts:
        fn.warn.append("a record by hand")
    return body


def declarations(lines):
    """Groups of (comments, lines)."""
    groups, comments, cur, name = [], [], [], None
    for line in lines:
        if line.startswith("--"):
            if cur:
                groups.append((comments_of, cur))
                cur = []
            comments.append(line)
            continue
        if not line.strip():
            if cur:
                cur.append(line)
            elif comments:
                comments.append(line)
            continue
        if not line[0].isspace():
            m = re.match(r"(?:(?:unfoldable|abbrev|pub|pattern|axiom)\s+)*([^\s({:]+)(?:\s*\{[^}]*\})?\s*:(?:\s|$)", line)
            start = bool(m) or re.match(r"(pub )?(data|record|module|open)\s", line) is not None or re.match(r"(abbrev |unfoldable )?(pub )?(data|record)\s", line) is not None
            if start and not line.startswith("unfolding"):
                if cur:
                    groups.append((comments_of, cur))
                cur, comments_of, comments = [], comments, []
            cur.append(line)
        else:
            cur.append(line)
    if cur:
        groups.append((comments_of, cur))
    return groups


def parameters(crate, name):
    """The names of a function's parameters."""
    import glob
    for p in glob.glob(f"crates/{crate}/src/*.rt"):
        m = re.search(r"\bfn " + name + r"(?:<[^>]*>)?\(([^)]*)\)", open(p, encoding="utf-8").read())
        if m:
            return re.findall(r"(\w+)\s*:", m.group(1))
    return []


def recursive(fn, source):
    """A proof by the measure as one over places: what it names of the measure goes, and its t."""
    alias = {}
    m = re.search(r"\nμ κs a = a((?:\.[01])+)\n", source)
    measure = None
    if m:
        segs = m.group(1).split(".")[1:]
        k = 0
        while k < len(segs) and segs[k] == "1":
            k += 1
        ps = parameters(fn.crate, fn.name[1:])
        measure = ps[k] if k < len(ps) else None
    # whole groups: measure, here, below, says
    out = []
    for block in re.split(r"\n\n+", source):
        b = block.split("\n")
        code = [x for x in b if not x.startswith("--")]
        first = code[0] if code else ""
        if re.match(r"abbrev (μ|here|below|says|claims) :", first):
            continue
        a = re.match(r"abbrev ([^\s:]+) : ℕ → Type 0$", first)
        if a and len(code) > 1:
            q = re.match(re.escape(a.group(1)) + r" t =\s+lts\.(\S+)", " ".join(x.strip() for x in code[1:]))
            if q:
                alias[a.group(1)] = q.group(1)
                continue
        out.append(block)
    text = "\n\n".join(out)
    args = r"((?:\s+(?:\((?:[^()]|\([^()]*\))*\)|\w+\.Post|\w+\.Pre))*)"
    text = re.sub(r"lts\.([^\s(){},;]+)" + args, r"tie.\1", text)
    for n, q in alias.items():
        text = re.sub(r"(?<![^\s(){},])" + re.escape(n) + r" t(?=[\s(){},;]|$)", "tie." + q, text)
    text = re.sub(r": \(t : ℕ\) → ", ": ", text)
    text = re.sub(r": \(t : ℕ\) \(", ": (", text)
    names = re.findall(r"(?m)^(?:abbrev |unfoldable |pub )*([^\s:({]+) : ", text)
    for n in names:
        text = re.sub(r"(?<![^\s(){},])" + re.escape(n) + r" t(?=[\s(){},;]|$)", n, text)
    return text, measure


def convert(fn, source, folder):
    measure = None
    if fn.recursive:
        source, measure = recursive(fn, source)
    lines = source.split("\n")
    header = []
    while lines and lines[0].startswith("--"):
        header.append(lines.pop(0))
    uses, rest = [], []
    for line in lines:
        (uses if line.startswith("use ") else rest).append(line)
    decls = []
    invs, goals, navs = {}, {}, {}
    for comments, body in declarations(rest):
        text = "\n".join(body).rstrip()
        m = re.match(r"(?:(?:unfoldable|abbrev|pub)\s+)*([^\s({:]+)(?:\s*\{[^}]*\})?\s*:\s*", text)
        name = m.group(1) if m else None
        if name and (name.endswith("-spec") or name.endswith("_spec")) and "statement" in text.split("\n")[0]:
            continue
        decls.append([comments, name, text])
    for c, name, text in decls:
        m = re.match(r"[^\n]*?:\s*tie\.(invariant|decreases)-(\S+)", text)
        if m:
            invs[name] = (m.group(1), norm(m.group(2)))
    for c, name, text in decls:
        m = re.match(r"(?:(?:unfoldable|abbrev|pub)\s+)*[^\s({:]+\s*:\s*(?:\([^\s:()]+ : )?tie\.([^\s()]+)", text)
        if m and name and name not in invs and not m.group(1).startswith("Need-") and norm(m.group(1)) in fn.places:
            fn.lemmas[name] = norm(m.group(1))
    for c, name, text in decls:
        m = re.match(r"[^\n]*?:\s*tie\.Need-([^\s(){},;]+)", text)
        g = fn.goal(m.group(1)) if m else None
        if g:
            fn.other[name] = g
    out_inv, out_ans, helper = [], [], []
    for c, name, text in decls:
        text = strip_args(text, invs)
        if name in invs:
            kind, loop = invs[name]
            if loop not in fn.loops:
                fn.warn.append(f"no loop {loop}")
                out_inv.append((c, text, name))
                continue
            new, vs, ch = fn.loops[loop]
            m = re.search(r"\n" + re.escape(name) + r" ((?:[^\s=]+\s+)*)=\s*", text)
            ps = m.group(1).split()
            want = [(f"l.initial.{v}" if k else f"l.{v}") for v, k in zip(vs, ch)] + [f"l.{v}" for v, k in zip(vs, ch) if k]
            if len(ps) != len(want):
                fn.warn.append(f"{kind}-{new}: {len(ps)} parameters, {len(want)} wanted: {ps} {want}")
            body = text[m.end():]
            mid = text[:m.start()].split("\n")[1:]
            table = dict(zip(ps, want))
            body = unhide(body, table)
            body = re.sub(r"(?<![^\s(){},;\[\]])([^\s(){},;.\[\]]+)(?=[\s(){},;.\]]|$)", lambda q: table.get(q.group(1), q.group(1)) if q.group(1) != "_" else "_", body)
            sep = "\n    " if "\n" in text[m.start() + 1:m.end()] else " "
            out_inv.append((c, f"abbrev pub {kind}-{new} : goal.{kind}-{new}\n" + "".join(x + "\n" for x in mid) + f"{kind}-{new} l ={sep}{body}", f"{kind}-{new}"))
            continue
        m = re.match(r"((?:unfoldable|abbrev|pub)\s+)*[^\s({:]+\s*:\s*tie\.(\S+)\s*→\s*tie\.(\S+)\s*\n", text)
        if m and norm(m.group(2)) in fn.places and norm(m.group(3)) in fn.places:
            navs[name] = norm(m.group(3))
            continue
        m = re.match(r"[^\n]*?:\s*tie\.Need-(\S+)", text)
        if m:
            g = fn.goal(m.group(1))
            if not g:
                fn.warn.append(f"no goal {m.group(1)}: dropped")
                continue
            goals[name] = g
            new, at = g
            k = re.search(r"\n" + re.escape(name) + r" (\S+)((?: \S+)*?) =", text)
            mid = text[:k.start()].split("\n")[1:] if k else []
            var = k.group(1)
            body = text[k.end():]
            fn.root, fn.root_place = var, at
            body = subst_var(body, var, f"⟪{var}@{at}⟫")
            body = flow(fn, body, navs, new)
            if new.startswith("returns"):
                body = clausewise(fn, body)
            out_ans.append((c, f"pub {new} : goal.{new}\n" + "".join(x + "\n" for x in mid) + f"{new} {'t ' if fn.recursive else ''}{var} ={body}", new))
            continue
        # a lemma of the file's own: over a context, or plain
        m = re.match(r"((?:unfoldable|abbrev|pub)\s+)*[^\s({:]+\s*:\s*\(([^\s:()]+) : tie\.([^\s()]+)\)", text)
        m2 = re.match(r"((?:unfoldable|abbrev|pub)\s+)*[^\s({:]+\s*:\s*tie\.([^\s()]+)\s*→", text)
        if m and norm(m.group(3)) in fn.places:
            var, at = m.group(2), norm(m.group(3))
            head, tail = text[:m.end()], text[m.end():]
            fn.root, fn.root_place = var, at
            tail = subst_var(tail, var, f"⟪{var}@{at}⟫")
            tail = flow(fn, tail, navs, None)
            fn.used.add(fn.places[at]["new"])
            head = re.sub(r"tie\.[^\s()]+", fn.places[at]["new"], head)
            out_ans.append((c, head + tail, name))
        elif m2 and norm(m2.group(2)) in fn.places:
            at = norm(m2.group(2))
            k = re.search(r"\n" + re.escape(name) + r" (\S+)", text)
            var = k.group(1)
            head, tail = text[:k.end()], text[k.end():]
            fn.root, fn.root_place = var, at
            tail = flow(fn, subst_var(tail, var, f"⟪{var}@{at}⟫"), navs, None)
            fn.used.add(fn.places[at]["new"])
            head = re.sub(r"tie\.[^\s()]+", fn.places[at]["new"], head)
            out_ans.append((c, head + tail, name))
        else:
            helper.append((c, text, name))
    # helpers that the invariants use go with them
    inv_text = "\n".join(t for _, t, _ in out_inv)
    in_inv, in_ans = [], []
    need = True
    while need:
        need = False
        for h in list(helper):
            if h[2] and re.search(r"(?<![\w'-])" + re.escape(h[2]) + r"(?![\w'-])", inv_text) or not h[2] and re.match(r"(abbrev |unfoldable )?(pub )?(record|data) (\S+)", h[1]) and re.search(r"(?<![\w'-])" + re.escape(re.match(r"(?:abbrev |unfoldable )?(?:pub )?(?:record|data) (\S+)", h[1]).group(1)) + r"(?![\w'-])", inv_text):
                in_inv.append(h)
                helper.remove(h)
                inv_text += h[1]
                need = True
    in_ans = helper
    if measure:
        out_inv.append(([], f"abbrev pub decreases-{fn.name[1:]} : goal.decreases-{fn.name[1:]}\ndecreases-{fn.name[1:]} l = l.{measure}", f"decreases-{fn.name[1:]}"))
    rename_goals = {old: new for old, (new, _) in goals.items()}

    def imports(body, given):
        keep = []
        said = " ".join(uses)
        if "(ap not " in body:
            if not re.search(r"Path\.\{[^}]*\bap\b", said):
                keep.append("use mathlib.Core.Path.{ap}")
            if not re.search(r"Bool\.\{[^}]*\bnot\b", said):
                keep.append("use mathlib.Core.Bool.{not}")
        words = set(re.findall(r"[^\s(){}\[\].,;:`\"«»]+", body)) | set(re.findall(r"[^\s(){}\[\],;:`\"«».]+(?:\.[^\s(){}\[\],;:`\"«».]+)*", body))
        dotted = {w.split(".")[0] for w in words}
        for u in uses:
            if re.search(r"\.(Tie|Statement|Reads|Kinds|Lts(-\S+)?)(\.\{[^}]*\})?( as \S+)?$", u.strip()) or "borrow.Fn." in u or re.search(r"proofs\.\+?\w+\.\{statement\}", u):
                continue
            m = re.match(r"use (\S+)\.\{([^}]*)\}$", u.strip())
            if not m:
                keep.append(u)
                continue
            names = []
            for n in [x.strip() for x in m.group(2).split(",") if x.strip()]:
                local = n.split(" as ")[-1].strip()
                hit = local in words or local in dotted
                if "◌" in local:
                    parts = [x for x in local.replace("◌", " ").split() if x]
                    hit = hit or all(x in body for x in parts)
                if hit:
                    names.append(n)
            if names:
                keep.append(f"use {m.group(1)}.{{{', '.join(names)}}}")
        return keep

    def pub(t):
        return t if re.match(r"((abbrev|unfoldable)\s+)?pub\b", t) else re.sub(r"^((abbrev|unfoldable)\s+)?", lambda q: (q.group(0) or "") + "pub ", t, count=1)

    def render(groups):
        return "\n\n".join("\n".join([x for x in c if x.strip()] + [t]) for c, t, _ in groups) + "\n"

    F = f"Rattle.{fn.crate}.proofs.{fn.name}"
    made = []
    for old in ("Proof.antt",):
        pass
    inv_groups = [(c, pub(t), n) for c, t, n in in_inv] + out_inv
    ans_groups = []
    order = {id(x): i for i, x in enumerate(in_ans + out_ans)}
    ans_groups = in_ans + out_ans
    if inv_groups:
        body = render(inv_groups)
        text = "\n".join(header + imports(body, True) + [f"use {F}.Given as goal", "", body])
        with open(os.path.join(folder, "Invariants.antt"), "w") as f:
            f.write(text)
        made.append("Invariants")
    if ans_groups:
        body = render(ans_groups)
        shared = [n for _, _, n in inv_groups if n and n not in [x[2] for x in out_inv] and re.search(r"(?<![\w'-])" + re.escape(n) + r"(?![\w'-])", body)]
        head = [] if inv_groups else header
        extra = [f"use {F}.Invariants.{{{', '.join(shared)}}}"] if shared else []
        text = "\n".join(head + imports(body, False) + extra + [f"use {F}.Goals as goal"] + ([f"use {F}.Goals.{{{', '.join(sorted(fn.used))}}}"] if fn.used else []) + ["", body])
        with open(os.path.join(folder, "Answers.antt"), "w") as f:
            f.write(text)
        made.append("Answers")
    os.remove(os.path.join(folder, "Proof.antt"))
    return made


def main(argv):
    crate, only = argv[0], argv[1:]
    where = os.path.join("crates", crate)
    gen = f"/tmp/gen/{crate}"
    if not only or not os.path.exists(os.path.join(gen, "names.json")):
        r = subprocess.run(["rt", "check", "--generated", gen, "--old-names"], cwd=where, stdout=subprocess.PIPE, stderr=subprocess.STDOUT, text=True)
        if not os.path.exists(os.path.join(gen, "names.json")):
            print(r.stdout[-3000:])
            raise SystemExit(1)
    d = json.load(open(os.path.join(gen, "names.json")))
    CLAUSES.update(clauses())
    proofs = os.path.join(where, "proofs")
    n = 0
    for f in sorted(os.listdir(proofs)):
        p = os.path.join(proofs, f, "Proof.antt")
        if not os.path.exists(p) or only and f not in only:
            continue
        key = f"Rattle-{crate}-proofs.{f}.Lts" + (f"-{f[1:]}" if f.startswith("+") else "")
        if key not in d:
            print(f"{crate}/{f}: no names")
            continue
        fn = Function(crate, f, d[key])
        source = open(p).read()
        try:
            convert(fn, source, os.path.join(proofs, f))
            n += 1
        except Exception as e:
            print(f"{crate}/{f}: {type(e).__name__}: {e}")
            if "-v" in os.environ.get("CONVERT", ""):
                raise
        for w in fn.warn:
            print(f"{crate}/{f}: {w}")
    print(f"{crate}: {n} converted")


main(sys.argv[1:])
