"""What the modules of `checks/` are made of: cases of `unittest`, which pytest collects too, one for each row of a
table by its name.

A case has the program that was chosen, and a folder of its own that goes with it."""
from __future__ import annotations

import functools
import importlib.util
import itertools
import os
import re
import shutil
import unittest
from collections.abc import Callable, Iterable
from pathlib import Path
from typing import Any, TypeVar

from keystore.harness import chosen_program
from keystore.scratch import scratch_folder

# How many times as much is drawn and repeated as the gate does.
TIMES = "KEYSTORE2_TIMES"
HAS_CIPHERS = importlib.util.find_spec("cryptography") is not None
needs_ciphers = unittest.skipUnless(HAS_CIPHERS, "the Python package cryptography is not there")
needs_compiler = unittest.skipUnless(shutil.which("cc"), "no C compiler, cc, is there")
Cases = TypeVar("Cases", bound="type[unittest.TestCase]")


def times() -> int:
    return int(os.environ.get(TIMES) or 1)


class Case(unittest.TestCase):
    """A case over the program."""

    maxDiff = None

    @functools.cached_property
    def program(self) -> Path:
        return chosen_program()

    @functools.cached_property
    def folder(self) -> Path:
        """An empty folder, in memory where there is such a place."""
        return Path(self.enterContext(scratch_folder()))


def named(text: str) -> str:
    """The name of a case, by what a row says of itself."""
    return "test_" + re.sub(r"\W+", "_", text).strip("_")[:100]


def each(rows: Iterable[tuple[Any, ...]], method: str = "show") -> Callable[[Cases], Cases]:
    """Gives a class of cases one for each row: its name is the first of the row, and the class's method gets the
    others."""

    def given(cases: Cases) -> Cases:
        for name, *row in rows:
            add(cases, named(name), method, row)
        return cases

    return given


def add(cases: type[unittest.TestCase], name: str, method: str, row: list[Any]) -> None:
    """Adds a case to a class; of several rows with one name each further one has its number."""
    count = next(it for it in itertools.count(1) if not hasattr(cases, name + f"_{it}" * (it > 1)))
    name += f"_{count}" * (count > 1)

    def case(self: unittest.TestCase) -> None:
        getattr(self, method)(*row)

    case.__name__, case.__qualname__ = name, f"{cases.__qualname__}.{name}"
    setattr(cases, name, case)
