#!/usr/bin/env python3
"""Which proof files are hard to read. Run it in the repository root; it reports and never fails.

    python3 tools/proof/proof_report.py [--json] [--top N] [CRATE..]

It reads crates/*/proofs/*/*.antt, the files of functions, and counts in each:
  words     whether the file opens with a comment that states the idea
  long      lines of more than 160 characters, and the longest
  answers   goals that it answers
  searched  answers that are `search rules` alone: rattle finds these by itself
  lets      pairs of answers that bind the same chain of three or more `let` lines
  unused    modules brought in by `use .. as` that the file never names
"""
import glob
import json
import re
import sys
from collections import Counter

LONG, LETS = 160, 3
ANSWER = re.compile(r"^(?:pub )?\S+ : goal\.", re.M)
SEARCHED = re.compile(r"^(?:pub )?(\S+) : goal\.[^\n]*\n\1 [^\n=]*= search rules$", re.M)
ALIAS = re.compile(r"^use (\S+) as (\S+)$", re.M)
COUNTED = ("bytes", "long", "answers", "searched", "lets", "unused")


def let_chain(block):
    """The let lines of a block."""
    return tuple(re.sub(r"\s+", " ", line).strip() for line in block.split("\n") if line.strip().startswith("let "))


def read(path):
    with open(path, encoding="utf-8") as file:
        text = file.read()
    lines = text.split("\n")
    tails = Counter()
    for block in re.split(r"\n\s*\n", text):
        lets = let_chain(block)
        for start in range(len(lets) - LETS + 1):
            tails[lets[start:start + LETS]] += 1
    body = "\n".join(line for line in lines if not line.startswith("use "))
    unused = [alias for _, alias in ALIAS.findall(text) if not re.search(r"(?<![\w-])" + re.escape(alias) + r"\.", body)]
    return {
        "file": path,
        "bytes": len(text.encode()),
        "words": text.startswith("--"),
        "long": sum(len(line) > LONG for line in lines),
        "longest": max(map(len, lines)),
        "answers": len(ANSWER.findall(text)),
        "searched": len(SEARCHED.findall(text)),
        "lets": sum(n - 1 for n in tails.values() if n > 1),
        "unused": len(unused),
    }


def weight(row):
    """How hard a file is to read: a long line weighs by its length, a missing sentence by one."""
    return 2 * row["long"] + row["lets"] + row["longest"] // 400 + (not row["words"])


def main(words):
    top = int(words[words.index("--top") + 1]) if "--top" in words else 25
    crates = [w for i, w in enumerate(words) if not w.startswith("--") and not (i and words[i - 1] == "--top")]
    rows = [read(path) for crate in crates or ["*"] for path in sorted(glob.glob(f"crates/{crate}/proofs/*/**/*.antt", recursive=True))]
    rows.sort(key=lambda row: (-weight(row), row["file"]))
    total = {key: sum(row[key] for row in rows) for key in COUNTED}
    total["files"] = len(rows)
    total["no_words"] = sum(not row["words"] for row in rows)
    total["files_long"] = sum(row["long"] > 0 for row in rows)
    total["longest"] = max((row["longest"] for row in rows), default=0)
    if "--json" in words:
        print(json.dumps({"total": total, "files": rows}, indent=1, ensure_ascii=False))
        return
    columns = ("bytes", "words", "long", "longest", "answers", "searched", "lets", "unused")
    print("  ".join(f"{name:>8}" for name in columns) + "  file")
    for row in rows[:top]:
        print("  ".join(f"{('yes' if row[name] else 'no') if name == 'words' else row[name]:>8}" for name in columns) + "  " + row["file"])
    print()
    print(f"{total['files']} proof files, {total['bytes']} bytes, {total['answers']} answers; "
          f"{total['searched']} of them by `search rules` alone, {total['unused']} aliases that nothing uses")
    print(f"{total['no_words']} files open without a sentence; {total['long']} lines over {LONG} characters in {total['files_long']} files, "
          f"the longest {total['longest']}; {total['lets']} repeated let chains")


if __name__ == "__main__":
    main(sys.argv[1:])
