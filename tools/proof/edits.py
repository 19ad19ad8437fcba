#!/usr/bin/env python3
"""Whether each must-fail edit was refused because a fact fails. It reads what `rt ci` or `rt must-fail` printed.

    python3 tools/proof/edits.py [--list] LOG [CRATE..]

`rt` counts an edit as refused where the prover says no for any reason. An edit that breaks the shape of the code only makes the proof file
unfit for it, and shows nothing. This takes what `rt` says of each edit of the crates, which is the first error that speaks of a contract:
  fact       what is to be proved does not follow (`omega`, `search`, or a proof that rattle made by itself)
  term       a term of the proof has another type than the goal
  limit      the prover gave up at a limit and has no verdict
  shape      a name that is not there, or a text that does not parse
  bad        the edit cannot be applied, or its text cannot be read
  not tried  nothing was said of it
It fails where one is of the last three kinds or was not refused. With --list it prints what was said of each.
"""
import glob
import os
import re
import sys

LINE = re.compile(r"^rt: must-fail (\w+)/(\S+)\.edit: (.*)$")
PLACE = re.compile(r"^(note: )?(\S+?:\d+):\d+: (error: )?(.*)$")
SHAPE = re.compile("|".join([
    r"that can be named from here", r"not in scope", r"has no field", r"has no `", r"does not parse", r"unexpected (token|closing)",
    r"exports no such name", r"no such (name|child|piece)", r"is not a constructor", r"is not declared", r"arguments? (is|are) (missing|left over)",
]))
FACT = re.compile(r"^(`[^`]*`: )*`(search|omega|cc|grind|simp)`|^it is not proved that")
FAILS = ("shape", "bad", "not tried", "not refused")


def kind(said):
    """Of which kind an edit is by what is said of it, and where, and why."""
    for start, name in (("BAD EDIT", "bad"), ("NOT TRIED", "not tried"), ("NOT REFUSED", "not refused")):
        if said.startswith(start):
            return name, said
    how = said.removeprefix("refused, as it must be")
    if how.startswith(" (only because"):
        return "shape", said
    if how.startswith(" (only by a limit"):
        return "limit", said
    found = PLACE.match(how.removeprefix(": "))
    told = found[4] if found else how.removeprefix(": ")
    place = f"{found[2].removeprefix('./')}: {told}" if found else told
    if SHAPE.search(told.split(". ")[0]):
        return "shape", place
    return ("fact" if FACT.match(told) else "term"), place


def main(words):
    names = [word for word in words if not word.startswith("--")]
    if not names:
        print(__doc__, file=sys.stderr)
        return 2
    with open(names[0], encoding="utf-8", errors="replace") as file:
        told = {(match[1], match[2]): match[3] for match in map(LINE.match, file) if match}
    found = {name: [] for name in ("fact", "term", "limit", *FAILS)}
    for edit in sorted(path for crate in names[1:] or ["*"] for path in glob.glob(f"crates/{crate}/must-fail/*.edit")):
        crate, label = edit.split("/")[1], os.path.basename(edit).removesuffix(".edit")
        name, why = kind(told.get((crate, label), "NOT TRIED: there is no line of it"))
        found[name].append(f"{crate}/{label} at {why[:150]}")
    for name, edits in found.items():
        if "--list" in words or name in FAILS:
            for edit in edits:
                print(f"{name}: {edit}")
    print("must-fail edits: " + ", ".join(f"{len(edits)} {name}" for name, edits in found.items()))
    return 1 if any(found[name] for name in FAILS) else 0


if __name__ == "__main__":
    sys.exit(main(sys.argv[1:]))
