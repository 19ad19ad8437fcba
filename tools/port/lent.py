#!/usr/bin/env python3
"""Turns `was x` and `after x` in the clauses of .rt files, words that words/specs/Lent had, to today's `x.now`, `x.old` and `x.new`.

usage: python3 tools/port/lent.py      at the top, once
"""

import glob
import re

FN = re.compile(r"\bfn (\w+)(?:<[^>]*>)?\(((?:[^()]|\([^()]*\))*)\)")


def main():
    for p in sorted(glob.glob("crates/*/src/*.rt")):
        text = open(p, encoding="utf-8").read()
        if "specs.Lent" not in text:
            continue
        lines, kinds, depth = [], {}, 0
        at = 0
        starts = [(m.start(), dict((k, bool(re.match(r"&(?:'\w+ )?mut\b", v.strip()))) for k, v in re.findall(r"(\w+)\s*:\s*([^,]+)", m.group(2)))) for m in FN.finditer(text)]
        for line in text.split("\n"):
            size = len(line) + 1
            while starts and starts[0][0] < at + size:
                kinds = starts.pop(0)[1]
            clause = depth > 0 or re.match(r"\s+(ensures|requires)\b", line)
            if clause:
                depth += line.count("{") - line.count("}")
                def turn(m):
                    word, x = m.group(1), m.group(2)
                    if x not in kinds:
                        raise SystemExit(f"{p}: {x}: {line}")
                    return f"{x}." + (("old" if word == "was" else "new") if kinds[x] else "now")
                # the words of compiler/specs/Added take lists
                line = re.sub(r"\b(appending|copying|targeted|methods)((?: (?:ws|text|abi|labels|refs|flags|lasts)){7})(?= )", lambda m: m.group(1) + "".join(f" {x}." + ("old" if kinds[x] else "now") for x in m.group(2).split()), line)
                line = re.sub(r"\((was|after) (\w+)\)", turn, line)
                line = re.sub(r"\b(was|after) (\w+)", turn, line)
            at += size
            lines.append(line)
        new = "\n".join(lines)
        new = re.sub(r"\nghost use Rattle\.words\.specs\.Lent\.\{(?:was|after|, )+\};", "", new)
        open(p, "w", encoding="utf-8").write(new)


main()
