"""Class sheets whose classes come in any order: which class goes where, and the sheet with every number changed.

Written from docs/SPECIFICATION.md and the readings in docs/DECISIONS.md, not from the Rattle code,
so that each can show the other's faults.
"""

from sheetlib import CLASS_SHEET, Fault, faults, label, said


def parents_of(sheet):
    return [sheet.get("class", i, "parent") for i in range(len(sheet.records["class"]))]


def order_of(parents):
    """The old class numbers in new order: of the classes without a parent or with a placed one, the smallest goes next. Where nobody is
    ready before all are placed, only those placed."""
    order = []
    for _ in parents:
        ready = [i for i, parent in enumerate(parents, 1) if i not in order and (parent == 0 or parent in order)]
        order += ready[:1]
    return order


def rings(parents):
    """Each ring of classes that are their own ancestors, from its smallest number on, each before its parent."""
    found = []
    for number in range(1, len(parents) + 1):
        passed, at = [], number
        while 1 <= at <= len(parents) and at not in passed:
            passed.append(at)
            at = parents[at - 1]
        if at == number:  # back at its start: each ring is met once from each of its classes
            found += [passed] if number == min(passed) else []
    return found


def renumbered(sheet, order):
    """The sheet with its class records in this order; parents and interface words follow, all else stays where it is."""
    new = {old: number for number, old in enumerate(order, 1)}
    out = sheet.copy()
    out.records["class"] = [sheet.records["class"][old - 1][:] for old in order]
    for i, parent in enumerate(parents_of(out)):
        out.put("class", i, "parent", new.get(parent, 0))
    out.records["interface word"] = [[new[number]] for [number] in sheet.records["interface word"]]
    return out


def in_order(sheet):
    """The renumbered sheet, or None where a row refuses that."""
    return None if next(step_faults(sheet), None) else renumbered(sheet, order_of(parents_of(sheet)))


def loose_faults(data, lent):
    """What refuses a reading by rows 1 to 3 alone."""
    return [fault for fault in faults(CLASS_SHEET, data, lent) if fault.row <= 3]


def step_faults(sheet):
    """What refuses the renumbering of a sheet that was read by rows 1 to 3: parents and interface words that name no class, then rings."""
    classes = len(sheet.records["class"])
    for i, parent in enumerate(parents_of(sheet)):
        if parent > classes:
            yield Fault(4, "class parent: a class", f"{said(sheet, 'class', i, 'parent')}, and the classes are 1 to {classes}",
                        ("class", i, "parent"))
    for i, [number] in enumerate(sheet.records["interface word"]):
        if not 1 <= number <= classes:
            yield Fault(4, "interface word: a class", f"{said(sheet, 'interface word', i, 'class number')}, and the classes are 1 to {classes}",
                        ("interface word", i, "class number"))
    for ring in rings(parents_of(sheet)):
        first, *rest = [label(sheet, "class", number - 1) for number in ring + ring[:1]]
        told = " is its own parent" if len(ring) == 1 else f" extends {', which extends '.join(rest)}"
        yield Fault(19, "ring", first + told, ("class", ring[0] - 1, "ring"), [number - 1 for number in ring])
