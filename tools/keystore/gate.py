"""The checks of the gate behind `rt ci`, in its order, and how they are run: by the runner of the standard library,
with a line for each."""
from __future__ import annotations

import importlib
import time
import traceback
import unittest
from collections.abc import Iterable, Iterator, Sequence
from pathlib import Path

from keystore.harness import TOOLS

CHECKS = [
    "scripts",
    "makers",
    "held_orders",
    "long_inputs",
    "every_cut",
    "full_store",
    "full_slots",
    "refused_stores",
    "older_store",
    "compaction",
    "power_cuts",
    "device",
    "served_device",
    "two_processes",
    "moved_store",
    "lost_syncs",
    "order_of_calls",
    "every_call",
    "closed_streams",
    "protocol",
    "client",
    "wrap_key",
    "slips",
    "service",
    "silent_clients",
    "hostile_clients",
    "fuzz_frames",
    "c_client",
    "turn_orders",
    "turn_waits",
    "thread_book",
    "help",
    "man_page",
    "layers",
    "wrong_uses",
    "erasing",
    "explain",
    "calls",
    "public_calls",
    "release",
    "docs",
    "style",
]


def path_of(check: str) -> Path:
    return TOOLS / f"checks/test_{check}.py"


def each_case(tests: Iterable[unittest.TestCase | unittest.TestSuite]) -> Iterator[unittest.TestCase]:
    for test in tests:
        if isinstance(test, unittest.TestSuite):
            yield from each_case(test)
        else:
            yield test


def name_of(test: unittest.TestCase) -> str:
    """A case's name without its module; of one for part of whose rows something is wrong the row too."""
    return test.id().split(".", 2)[-1]


def cases_of(name: str) -> list[unittest.TestCase]:
    """The cases of a check; with a dot behind it those whose names begin with the rest."""
    check, _, wanted = name.partition(".")
    suite = unittest.defaultTestLoader.loadTestsFromModule(importlib.import_module(f"checks.test_{check}"))
    cases = [it for it in each_case(suite) if wanted in name_of(it)]
    if not cases:
        raise LookupError(f"the check {check} has no case {wanted}".rstrip())
    return cases


class Count:
    """How many cases passed, failed and were skipped."""

    def __init__(self) -> None:
        self.passed = self.failed = self.skipped = 0

    def line(self) -> str:
        return f"{self.passed} passed, {self.failed} failed" + (f", {self.skipped} skipped" if self.skipped else "")


class Result(unittest.TestResult):
    """What came of cases: those that passed are counted one by one, so that none passes which did not run."""

    def __init__(self) -> None:
        super().__init__()
        self.passed = 0

    def addSuccess(self, test: unittest.TestCase) -> None:
        super().addSuccess(test)
        self.passed += 1

    def wrong(self) -> list[tuple[unittest.TestCase, str]]:
        return [*self.failures, *self.errors]

    def failed(self) -> int:
        """How many cases failed, each of which may have failed in several rows."""
        return len({getattr(test, "test_case", test).id() for test, _ in self.wrong()})


def tell(check: str, wrong: list[tuple[unittest.TestCase, str]]) -> None:
    """Says what is wrong in which case; where it is the same as before, as where no program is there, with its last
    line alone."""
    told = set()
    for test, fault in wrong:
        last = fault.rstrip().rpartition("\n")[2]
        print(f"{check}.{name_of(test)}:", last if last in told else f"\n{fault}", flush=True)
        told.add(last)


def run_check(name: str, count: Count) -> None:
    """Runs a check, and says on one line how it ended; what is wrong stands behind it."""
    start, result = time.monotonic(), Result()
    try:
        unittest.TestSuite(cases_of(name)).run(result)
    except Exception:
        count.failed += 1
        print(f"{name}: it does not load", traceback.format_exc(), sep="\n", flush=True)
        return
    failed, skipped = result.failed(), len(result.skipped)
    count.passed, count.failed, count.skipped = (
        count.passed + result.passed,
        count.failed + failed,
        count.skipped + skipped,
    )
    reasons = "; ".join(sorted({reason for _, reason in result.skipped}))
    said = f", {failed} FAILED" * (failed > 0) + f", {skipped} skipped ({reasons})" * (skipped > 0)
    print(f"{name}: {result.passed} passed{said}, {time.monotonic() - start:.1f} s", flush=True)
    tell(name.split(".")[0], result.wrong())


def run(names: Sequence[str], lists: bool, proofs: int | None = None) -> int:
    """Runs checks in turn, or lists their cases; the status of the proofs before them counts as one more. Ends with
    how many passed."""
    if lists:
        for name in names:
            print(*(f"{name.split('.')[0]}.{name_of(it)}" for it in cases_of(name)), sep="\n")
        return 0
    count = Count()
    for name in names:
        run_check(name, count)
    if proofs is not None:
        count.passed, count.failed = count.passed + (proofs == 0), count.failed + (proofs != 0)
        if proofs:
            print(f"rt ci: it ended with status {proofs}")
    print(count.line(), flush=True)
    return 1 if count.failed else 0
