"""What the tools share: their help, which program they run, busy loops beside it, the processor time of a run, and
how a difference is told."""
from __future__ import annotations

import argparse
import contextlib
import os
import pathlib
import resource
import subprocess
import sys
from collections.abc import Iterator, Sequence
from typing import Any, TypeVar

TOP = pathlib.Path(__file__).resolve().parents[2]
TOOLS = TOP / "tools"
# The program as it was built, and the script that builds it where it is not.
PROGRAM, COMMAND = TOP / "crates/keystore_program/out/keystore_program", TOP / "keystore2"
# The program of the checks, where it is not the one that was built.
CHOSEN = "KEYSTORE2_PROGRAM"
# How many times as long is waited as for the proved program.
SLOWER = "KEYSTORE2_PATIENCE"
Text = TypeVar("Text", str, bytes)
Word = str | os.PathLike[str]


def parser_of(text: str | None) -> argparse.ArgumentParser:
    """What reads a tool's words, by the text at the tool's head, whose first part is its help."""
    return argparse.ArgumentParser(description=(text or "").split("\n\n", maxsplit=1)[0])


def program_at(path: str) -> pathlib.Path:
    found = pathlib.Path(path).resolve()
    if not os.access(found, os.X_OK):
        raise argparse.ArgumentTypeError(f"{found} is no program; ./keystore2 builds it")
    return found


def chosen_program() -> pathlib.Path:
    """The program that the checks run: the one that was chosen, or else the proved one."""
    return program_at(os.environ.get(CHOSEN) or str(PROGRAM))


def folder_at(path: str) -> pathlib.Path:
    found = pathlib.Path(path)
    if not found.is_dir():
        raise argparse.ArgumentTypeError(f"{found} is no folder")
    return found


def add_program(parser: argparse.ArgumentParser, default: pathlib.Path = PROGRAM) -> None:
    """Gives a tool the option --program: which program it runs."""
    parser.add_argument("--program", type=program_at, default=str(default), metavar="PATH")


# It ends with the tool that started it, also where that is killed.
BUSY_LOOP = """
import os
while os.getppid() == %d:
    for _ in range(1_000_000):
        pass
"""


def add_busy(parser: argparse.ArgumentParser, default: int = 0) -> None:
    """Gives a tool the option --busy: how many busy loops run beside what it runs."""
    parser.add_argument("--busy", type=int, default=default, metavar="N")


@contextlib.contextmanager
def busy_loops(count: int) -> Iterator[None]:
    """Runs so many processes that do nothing but keep a processor busy, and ends each by its id."""
    with contextlib.ExitStack() as stack:
        for _loop in range(count):
            loop = subprocess.Popen([sys.executable, "-c", BUSY_LOOP % os.getpid()])
            stack.callback(loop.wait)
            stack.callback(loop.kill)
        yield


def processor_seconds(words: Sequence[Word], script: Word, folder: Word) -> tuple[float, bytes]:
    """Seconds of processor of a run over a script in a folder, which must end with status 0, and what it printed."""
    with open(script, "rb") as lines:
        before = resource.getrusage(resource.RUSAGE_CHILDREN)
        said = subprocess.run(words, stdin=lines, stdout=subprocess.PIPE, cwd=folder, check=True).stdout
        after = resource.getrusage(resource.RUSAGE_CHILDREN)
    return after.ru_utime + after.ru_stime - before.ru_utime - before.ru_stime, said


# What the program says of a run and of a service beside the status: of the device, of its replies, and where it
# listens.
NOTICES = ("keystore2: device.key: ", "keystore2: replies ", "keystore2: listening on ")


def without_notices(fault: Text) -> Text:
    """What a run told on standard error, a text or bytes, without its notices: the status with its cause in words."""
    if isinstance(fault, bytes):
        return without_notices(fault.decode()).encode()
    return "".join(line for line in fault.splitlines(keepends=True) if not line.startswith(NOTICES))


MOST_SHOWN = 2000


def cut(value: Any, most: int = MOST_SHOWN) -> str:
    """A value as it is shown: its front, where it is long."""
    shown = str(value)
    return shown if len(shown) <= most else f"{shown[:most]}.. of {len(shown)}"


def check(name: str, found: Any, wanted: Any) -> None:
    """Fails where something is otherwise than wanted, and says what."""
    if found != wanted:
        raise AssertionError(f"{name} gave {cut(found)} and not {cut(wanted)}")
