"""What docs/RULES.md says, read from its tables: acts and their fields, domains and bits, rules, codes, tags and
their values."""
from __future__ import annotations

import re

from keystore.harness import TOP

PAGE = TOP / "docs/RULES.md"
NAMED = re.compile(r"([A-Z][A-Z0-9_-]*) ([0-9]+)")
OWN_TYPE = {"key", "params", "forced"}
FIELD = re.compile(r"`(\w+)`(?: (u32|u64|bytes|text|32 bytes)| as `(key|params)`)?")


def cells_of(line: str) -> list[str]:
    return [it.strip() for it in line.strip().strip("|").split("|")]


def tables_in(text: str) -> dict[tuple[str, ...], list[list[str]]]:
    """The rows of each table by its first row's cells; several tables with the same cells are one."""
    tables: dict[tuple[str, ...], list[list[str]]] = {}
    rows: list[list[str]] | None = None
    for line in text.splitlines():
        if not line.startswith("|"):
            rows = None
        elif rows is None:
            rows = tables.setdefault(tuple(cells_of(line)), [])
        elif not line.startswith("|---"):
            rows.append(cells_of(line))
    return tables


def fields_in(cell: str) -> dict[str, str | None]:
    """The fields of an act, each with its type: of several behind which one type stands each has it, `key`, `params`
    and `forced` have their own, and one may have that of `key` or `params`."""
    fields: dict[str, str | None] = {}
    found = FIELD.findall(cell)
    for place, (name, _, other) in enumerate(found):
        own = name if name in OWN_TYPE else other
        fields[name] = own or next((it for _, it, _ in found[place:] if it), None)
    return fields


def numbers_in(text: str) -> dict[str, int]:
    return {name: int(number) for name, number in NAMED.findall(text)}


TEXT = PAGE.read_text(encoding="utf-8")
TABLES = tables_in(TEXT)
ACTS = {name: fields_in(fields) for names, fields in TABLES["Name in a script", "Fields"] for name in names.split(", ")}
DOMAINS = {row[0]: int(row[1]) for row in TABLES["Domain", "Number", "Finds", "What the caller may do"]}
BITS = numbers_in(TEXT.split("The bits are ", 1)[1].split(";", 1)[0].replace("\n", " "))
RULES = {row[0]: row[1] for heads, rows in TABLES.items() if heads[:2] == ("Rule", "Holds where") for row in rows}
RULES["L1"] = "the line is a JSON object of an act and its fields (`docs/FORMATS.md`)"
CODES = {int(number): (name, meaning) for number, name, meaning in TABLES["Code", "Name", "Meaning"]}
CODES[0] = "OK", "the call was admitted"
TAGS = {row[0]: (row[1], int(row[2])) for row in TABLES["Name", "Type", "Number", "In a list", "Used"]}
USES = {row[0]: row[4] for row in TABLES["Name", "Type", "Number", "In a list", "Used"]}
VALUES = {row[0]: numbers_in(row[1]) for row in TABLES["Values of", "Name and number"] if row[0] in TAGS}
FORMATS = next(numbers_in(row[1]) for row in TABLES["Values of", "Name and number"] if row[0].startswith("`format`"))
