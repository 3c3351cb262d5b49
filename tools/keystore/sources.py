"""The sources of the crates as text: without comments, and what stands in a bracket."""
from __future__ import annotations

import re

OPEN, CLOSE = "([{<", ")]}>"


def without_comments(text: str) -> str:
    return re.sub(r"//[^\n]*", "", text)


def without_attributes(text: str) -> str:
    return re.sub(r"#\[[^\]]*\]", "", text)


def step_at(text: str, place: int) -> int:
    """By how much the depth of brackets grows at a place; `->` and `=>` close none."""
    it = text[place]
    return (it in OPEN) - (it in CLOSE and text[place - 1 : place] not in ("-", "="))


def split(text: str) -> list[str]:
    """The parts of a text between commas that stand in no bracket."""
    parts, depth = [""], 0
    for place, it in enumerate(text):
        depth += step_at(text, place)
        if it == "," and depth == 0:
            parts.append("")
        else:
            parts[-1] += it
    return [it.strip() for it in parts if it.strip()]


def inside(text: str, place: int) -> str:
    """What stands in the bracket that opens at a place."""
    depth = 0
    for end in range(place, len(text)):
        depth += step_at(text, end)
        if depth == 0:
            return text[place + 1 : end]
    return text[place + 1 :]


def in_braces(text: str, place: int) -> str:
    """What stands in the braces that open at a place; no other bracket counts."""
    depth = 0
    for end in range(place, len(text)):
        depth += (text[end] == "{") - (text[end] == "}")
        if depth == 0:
            return text[place + 1 : end]
    return text[place + 1 :]


def offered(root: str) -> set[str]:
    """The names that a crate's lib.rt, without comments, offers by `pub use`."""
    rows = re.findall(r"\bpub use ([^;]+);", root)
    return {name for row in rows for name in re.findall(r"\w+", row.split("::", 1)[-1])}
