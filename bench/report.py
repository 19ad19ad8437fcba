#!/usr/bin/env python3
"""Tables and plot from the bench's figures.

report.py FIGURES PAGE: growth.md and growth.svg in the folder FIGURES, and the tables between the marks of PAGE.
report.py --counts DUMPS FIGURES: counts.csv and functions.csv in FIGURES, from callgrind's dumps.
"""

import csv
import pathlib
import re
import sys
from collections import defaultdict

SIDES = ("ours", "original")
COLOURS = {"ours": "#0b62a4", "original": "#c1440e"}
NAMES = {"ours": "this linker", "original": "the Rust"}
SETS = ("Card", "middle", "chains of 8", "chain of 64", "long names")
BEGIN, END = "<!-- made by bench/report.py: begin -->", "<!-- made by bench/report.py: end -->"


def read(path):
    """The rows of a CSV file; none if it is missing."""
    if not path.is_file():
        return []
    with path.open(newline="") as file:
        return list(csv.DictReader(file))


def write(path, header, rows):
    with path.open("w", newline="") as file:
        writer = csv.writer(file, lineterminator="\n")
        writer.writerow(header)
        writer.writerows(rows)


# Callgrind's dumps.


def functions(dump):
    """Instructions of each function in a dump: alone, and with what its outermost calls call. A recursion's inner calls
    have a function of their own there, NAME'2."""
    names, alone, whole = {}, defaultdict(int), defaultdict(int)
    current, in_call = "", False
    for line in dump.open():
        if found := re.match(r"c?fn=\((\d+)\)(?: (.*))?$", line):
            name = names.setdefault(found[1], found[2])
            current = current if line.startswith("c") else name
        elif line.startswith("calls="):
            in_call = True
        elif found := re.match(r"[+*\-\d]\S* (\d+)$", line):
            alone[current.removesuffix("'2")] += 0 if in_call else int(found[1])
            whole[current] += int(found[1])
            in_call = False
    return alone, whole


def take_counts(dumps, figures):
    counts, tops = defaultdict(dict), []
    for position, label in enumerate(read(dumps / "labels.csv"), 1):
        alone, whole = functions(dumps / f"dump.{position}")
        counts[label["set"], label["job"]][label["side"]] = sum(alone.values())
        if label["job"] == "link all" and label["side"] == "ours" and label["set"] in SETS:
            best = sorted(alone, key=alone.get, reverse=True)[:8]
            tops += [(label["set"], name, alone[name], whole[name]) for name in best]
    write(figures / "counts.csv", ("set", "job", *SIDES), [(*key, *(found.get(side, "") for side in SIDES)) for key, found in counts.items()])
    write(figures / "functions.csv", ("set", "function", "alone", "whole"), tops)


# Tables.


def table(header, rows):
    lines = [header, ["---"] * len(header), *rows]
    return "\n".join("| " + " | ".join(str(cell) for cell in line) + " |" for line in lines)


def duration(nanoseconds):
    if nanoseconds == "":
        return ""
    value = float(nanoseconds)
    for unit, size in (("ms", 1e6), ("µs", 1e3), ("ns", 1)):
        if value >= size:
            break
    return f"{value / size:.3g} {unit}"


def short(value):
    """A ratio with three digits or more."""
    return f"{value:,.0f}" if value >= 100 else f"{value:.3g}"


def ratio(row):
    return short(float(row["ours"]) / float(row["original"])) if row.get("original") and row.get("ours") else ""


def number(text):
    return f"{int(text):,}" if text else ""


def times_table(times, counts):
    rows = []
    for row in times:
        count = counts.get((row["set"], row["job"]), {})
        spread = [short(float(row[key])) if row[key] else "" for key in ("ratio", "least", "most")]
        instructions = [number(count.get(side, "")) for side in SIDES] + [ratio(count)]
        rows.append([row["set"], row["job"], duration(row["ours"]), duration(row["original"]), *spread, *instructions])
    header = ["set", "job", "this", "Rust", "ratio", "least", "most", "instructions, this", "Rust", "ratio"]
    return table(header, rows)


def functions_table(tops, counts):
    rows = []
    for row in tops:
        share = 100 * int(row["alone"]) / int(counts[row["set"], "link all"]["ours"])
        rows.append([row["set"], f"`{row['function']}`", number(row["alone"]), f"{share:.1f}%", number(row["whole"])])
    return table(["set", "function", "instructions of its own", "of all", "with what it calls"], rows)


def dearest(tops):
    """A line a set: its three most expensive functions."""
    sets = dict.fromkeys(row["set"] for row in tops)
    first = {name: [f"`{row['function']}`" for row in tops if row["set"] == name][:3] for name in sets}
    return "\n".join(f"- {name}: {', '.join(three)}" for name, three in first.items())


def stack_table(stack):
    return table(["function", "on the sets", "on generated calls"], [[f"`{row['function']}`", number(row["sets"]), number(row["generated"])] for row in stack])


def growth_table(growth, counts):
    rows = []
    for row in growth:
        count = counts.get((f"{row['series']} {row['value']}", "link all"), {})
        sizes = [row[key] for key in ("series", "value", "classes", "methods", "ABI slots", "largest table")]
        instructions = [number(count.get(side, "")) for side in SIDES] + [ratio(count)]
        rows.append([*sizes, duration(row["ours"]), duration(row["original"]), ratio(row), *instructions])
    header = ["grows", "to", "classes", "methods", "ABI slots", "largest table", "this", "Rust", "ratio"]
    return table([*header, "instructions, this", "Rust", "ratio"], rows)


# The plot: a panel for each number that grows, times above instructions.

WIDTH, HEIGHT, LEFT, TOP = 200, 150, 50, 50
STEP_X, STEP_Y = WIDTH + 75, HEIGHT + 75


def step_below(most):
    """A round step of which at most five fit below `most`."""
    step = 1
    while True:
        for factor in (1, 2, 5):
            if most / (step * factor) <= 5:
                return step * factor
        step *= 10


def panel(x, y, title, unit, points):
    """One panel at (x, y): points are (value, ours, original)."""
    across, up = max(point[0] for point in points), max(max(point[1:]) for point in points)
    place = lambda value, cost: (x + WIDTH * value / across, y + HEIGHT * (1 - cost / up))
    parts = [f'<rect x="{x}" y="{y}" width="{WIDTH}" height="{HEIGHT}" fill="none" stroke="#999"/>']
    parts.append(f'<text x="{x + WIDTH / 2}" y="{y + HEIGHT + 32}" text-anchor="middle">{title}</text>')
    parts.append(f'<text x="{x}" y="{y - 8}">{unit}</text>')
    for cost in range(0, int(up) + 1, step_below(up)):
        height = place(0, cost)[1]
        parts.append(f'<path d="M{x - 4} {height:.1f}h4" stroke="#999"/><text x="{x - 7}" y="{height + 4:.1f}" text-anchor="end">{cost}</text>')
    for value in (points[0][0], points[(len(points) - 1) // 2][0], points[-1][0]):
        parts.append(f'<text x="{place(value, 0)[0]:.1f}" y="{y + HEIGHT + 16}" text-anchor="middle">{value}</text>')
    for side, name in enumerate(SIDES, 1):
        line = [place(point[0], point[side]) for point in points]
        path = " ".join(f"{a:.1f},{b:.1f}" for a, b in line)
        dash = "" if name == "ours" else ' stroke-dasharray="6 3"'
        parts.append(f'<polyline points="{path}" fill="none" stroke="{COLOURS[name]}" stroke-width="2"{dash}/>')
        parts += [f'<circle cx="{a:.1f}" cy="{b:.1f}" r="2.5" fill="{COLOURS[name]}"/>' for a, b in line]
    return parts


def plot(growth, counts):
    series = list(dict.fromkeys(row["series"] for row in growth))
    parts = []
    for column, name in enumerate(series):
        rows = [row for row in growth if row["series"] == name]
        times = [(int(row["value"]), float(row["ours"]) / 1e3, float(row["original"]) / 1e3) for row in rows]
        parts += panel(LEFT + column * STEP_X, TOP, name, "microseconds", times)
        found = [counts.get((f"{name} {row['value']}", "link all")) for row in rows]
        if all(found):
            instructions = [(time[0], int(count["ours"]) / 1e6, int(count["original"]) / 1e6) for time, count in zip(times, found)]
            parts += panel(LEFT + column * STEP_X, TOP + STEP_Y, name, "million instructions", instructions)
    for place, side in enumerate(SIDES):
        x = LEFT + 160 * place
        parts.append(f'<path d="M{x} 14h24" stroke="{COLOURS[side]}" stroke-width="2"/><text x="{x + 30}" y="18">{NAMES[side]}</text>')
    size = f'width="{LEFT + len(series) * STEP_X}" height="{TOP + 2 * STEP_Y}"'
    style = 'font-family="sans-serif" font-size="11"'
    return "\n".join([f'<svg xmlns="http://www.w3.org/2000/svg" {size} {style}>', '<rect width="100%" height="100%" fill="white"/>', *parts, "</svg>\n"])


def report(figures, page):
    counts = {(row["set"], row["job"]): row for row in read(figures / "counts.csv")}
    growth, tops = read(figures / "growth.csv"), read(figures / "functions.csv")
    note = "Time to link all classes while one number grows; made by bench/report.py from growth.csv and counts.csv.\n"
    (figures / "growth.md").write_text(f"# Growth\n\n{note}\n{growth_table(growth, counts)}\n")
    (figures / "growth.svg").write_text(plot(growth, counts))
    tables = [
        "### Times and instructions\n",
        times_table(read(figures / "times.csv"), counts),
        "\n### The three most expensive functions, and the next, when all classes are linked\n",
        f"{dearest(tops)}\n",
        functions_table(tops, counts),
        "\n### Bytes of stack\n",
        stack_table(read(figures / "stack.csv")),
    ]
    before, rest = page.read_text().split(BEGIN)
    after = rest.split(END)[1]
    page.write_text(before + BEGIN + "\n\n" + "\n".join(tables) + "\n\n" + END + after)


def main(arguments):
    if arguments[:1] == ["--counts"] and len(arguments) == 3:
        take_counts(pathlib.Path(arguments[1]), pathlib.Path(arguments[2]))
    elif len(arguments) == 2:
        report(pathlib.Path(arguments[0]), pathlib.Path(arguments[1]))
    else:
        sys.exit(__doc__)


main(sys.argv[1:])
