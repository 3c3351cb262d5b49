"""The calls by which the program reaches the file of a store, noted by the library `checks/store_calls.c` that stands
before the C library: in their order, with the replies between them. One of them, or each from it on, ends as it is
asked to."""
from __future__ import annotations

import mmap
import struct
import subprocess
from enum import IntEnum
from pathlib import Path
from typing import NamedTuple

from keystore.harness import TOOLS

SOURCE = TOOLS / "checks/store_calls.c"
NUMBERS, NOTE, MOST_NOTES = struct.Struct("4Q"), struct.Struct("3Q"), 1 << 16
NO_CALL = (1 << 64) - 1
NAMES = {
    "o": "opening",
    "k": "lock",
    "l": "length",
    "p": "look at the path",
    "r": "read",
    "w": "write",
    "s": "sync",
    "f": "sync of the folder",
    "c": "cut",
    "a": "reply",
}


class How(IntEnum):
    """How a call ends."""

    GOES_WELL = 0
    FAILS = 1
    FAILS_ON = 2
    HAS_NO_ROOM = 3
    IS_SHORT = 4
    DIES_BEFORE = 5
    DIES_BEHIND = 6


class Note(NamedTuple):
    """A call of the store, with its place and its count of bytes where it has them, or a reply."""

    kind: str
    place: int
    size: int

    def __str__(self) -> str:
        told = f" of {self.size} bytes at {self.place}" if self.kind in "rw" else ""
        return NAMES[self.kind] + told


class StoreCalls:
    """The library over a file of notes, in a folder."""

    def __init__(self, folder: Path) -> None:
        self.library, self.path, self.kept = folder / "store_calls.so", folder / "notes", folder / "bytes"
        subprocess.run(["cc", "-shared", "-fPIC", "-O1", "-o", self.library, SOURCE], check=True)
        self.path.write_bytes(bytes(NUMBERS.size + MOST_NOTES * NOTE.size))
        with open(self.path, "r+b") as file:
            self.shared = mmap.mmap(file.fileno(), 0)

    def environment(self) -> dict[str, str]:
        """What a process that is to be noted has besides."""
        return {"LD_PRELOAD": str(self.library), "STORE_CALLS": str(self.path), "STORE_BYTES": str(self.kept)}

    def begin(self, at: int = NO_CALL, how: How = How.GOES_WELL) -> None:
        """Has noted nothing; the call of this number, from 0, is to end so."""
        self.shared[: NUMBERS.size] = NUMBERS.pack(0, 0, at, how)
        self.kept.write_bytes(b"")

    def count(self) -> int:
        """How many calls reached the store by now."""
        calls: int = NUMBERS.unpack(self.shared[: NUMBERS.size])[0]
        return calls

    def notes(self) -> list[Note]:
        notes = NUMBERS.unpack(self.shared[: NUMBERS.size])[1]
        rows = self.shared[NUMBERS.size : NUMBERS.size + notes * NOTE.size]
        return [Note(chr(kind), place, count) for kind, place, count in NOTE.iter_unpack(rows)]

    def written(self) -> list[bytes]:
        """The bytes of each write."""
        kept, at = self.kept.read_bytes(), 0
        pieces = []
        for it in self.notes():
            if it.kind == "w":
                pieces.append(kept[at : at + it.size])
                at += it.size
        return pieces

    def calls(self) -> list[Note]:
        return [it for it in self.notes() if it.kind != "a"]
