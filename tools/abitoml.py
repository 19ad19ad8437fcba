"""The emulator's ABI file as an ABI sheet: TOML as its `JavaAbi` reads it, for `sheet abi-from-toml`."""

import tomllib

import sheetform
from sheetlib import ABI_SHEET, WORD

# The keys of a class and of a row: the TOML type, and whether the emulator demands them.
CLASS_KEYS = {"name": (str, True), "vtable_size": (int, False), "instance_field_word_count": (int, False), "vtable": (list, False),
              "field": (list, False)}
ROW_KEYS = {"name": (str, True), "descriptor": (str, True), "index": (int, True)}
TYPES = {str: "a string", int: "a whole number", list: "an array", dict: "a table"}


def read_toml(text):
    """The form with its sheet, what is wrong, and what is ignored, each in sentences."""
    form, found, ignored = sheetform.Form(ABI_SHEET), [], []
    try:
        tables = tomllib.loads(text)
    except tomllib.TOMLDecodeError as error:
        return form, [f"this is no TOML: {error}"], ignored
    ignored += [f"the key {key} is ignored, as the emulator does" for key in tables if key != "class"]
    classes = tables.get("class", [])
    if of_type(classes, list, "class", found):
        sheetform.add_abi_classes(form, [made for i, one in enumerate(classes, 1) if (made := read_class(one, i, found, ignored))])
    if not found:
        found = [what for _, what in sheetform.form_faults(form)]
    return form, found, ignored


def of_type(value, kind, what, found):
    """Whether a value is of a type (a truth value is no number); tells where not."""
    right = isinstance(value, kind) and not isinstance(value, bool)
    if not right:
        found.append(f"{what} is {TYPES[kind]}, and not {value!r}")
    return right


def fields_of(table, keys, where, found, ignored):
    """The values of a table by its keys, None where one is missing; None where something is wrong."""
    if not of_type(table, dict, where, found):
        return None
    faults = len(found)
    ignored += [f"{where}: the key {key} is ignored, as the emulator does" for key in table if key not in keys]
    for key, (kind, demanded) in keys.items():
        if key not in table:
            if demanded:
                found.append(f"{where} has no {key}")
        elif of_type(table[key], kind, f"{where}: {key}", found) and kind is int and not 0 <= table[key] < WORD - 1:
            found.append(f"{where}: {key} {table[key]}, which is not from 0 to {WORD - 2}")
    return {key: table.get(key) for key in keys} if len(found) == faults else None


def read_class(table, number, found, ignored):
    """A class as sheetform.add_abi_classes takes it."""
    name = table.get("name") if isinstance(table, dict) else None
    where = f"class {name}" if isinstance(name, str) else f"class {number}"
    one = fields_of(table, CLASS_KEYS, where, found, ignored)
    if one is None:
        return None
    return {"line": 1, "name": one["name"].encode(), "size": plus_1(one["vtable_size"]), "words": plus_1(one["instance_field_word_count"]),
            "slot": read_rows(one["vtable"] or [], f"{where}, vtable", found, ignored),
            "field": read_rows(one["field"] or [], f"{where}, field", found, ignored)}


def plus_1(given):
    return 0 if given is None else given + 1


def read_rows(rows, where, found, ignored):
    out = []
    for i, table in enumerate(rows):
        row = fields_of(table, ROW_KEYS, f"{where} row {i}", found, ignored)
        if row is not None:
            out.append([1, row["name"].encode(), row["descriptor"].encode(), row["index"]])
    return out
