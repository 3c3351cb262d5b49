"""The bytes of a store's file by its blocks, without those that are all 00: a store is longer than what stands in it,
and most of its file is a hole."""
from __future__ import annotations

import errno
import os
from collections.abc import Iterator

from keystore.harness import Word

BLOCK = 4096
ZEROS = bytes(BLOCK)


def extents_of(file: int) -> Iterator[tuple[int, int]]:
    """The ranges of a file in which its system keeps bytes."""
    at, size = 0, os.fstat(file).st_size
    while at < size:
        try:
            at = os.lseek(file, at, os.SEEK_DATA)
        except OSError as fault:
            if fault.errno != errno.ENXIO:
                raise
            return
        end = os.lseek(file, at, os.SEEK_HOLE)
        yield at, end
        at = end


class StoreBytes:
    """The bytes of a file, of which each change makes others."""

    def __init__(self, size: int = 0, blocks: dict[int, bytes] | None = None) -> None:
        self.size, self.blocks = size, blocks or {}

    @classmethod
    def of(cls, data: bytes) -> StoreBytes:
        return cls().put(0, data)

    @classmethod
    def read(cls, path: Word) -> StoreBytes:
        with open(path, "rb", buffering=0) as file:
            it = cls(os.fstat(file.fileno()).st_size)
            for start, end in list(extents_of(file.fileno())):
                for place in range(start - start % BLOCK, end, BLOCK):
                    block = os.pread(file.fileno(), BLOCK, place).ljust(BLOCK, b"\0")
                    if block != ZEROS:
                        it.blocks[place] = block
        return it

    def write(self, path: Word) -> None:
        """Makes the file these bytes, with holes."""
        with open(path, "wb", buffering=0) as file:
            for place, block in self.blocks.items():
                os.pwrite(file.fileno(), block[: self.size - place], place)
            file.truncate(self.size)

    def take(self, at: int, count: int) -> bytes:
        """So many bytes from a place on, or fewer where the file ends."""
        end = min(at + count, self.size)
        if at >= end:
            return b""
        first = at - at % BLOCK
        taken = b"".join(self.blocks.get(place, ZEROS) for place in range(first, end, BLOCK))
        return taken[at - first : end - first]

    def put(self, at: int, data: bytes) -> StoreBytes:
        """The same with these bytes at a place."""
        end, first = at + len(data), at - at % BLOCK
        last = -end % BLOCK
        whole = self.padded(first, at - first) + data + self.padded(end, last)
        blocks = dict(self.blocks)
        for place in range(0, len(whole), BLOCK):
            blocks[first + place] = whole[place : place + BLOCK]
            if blocks[first + place] == ZEROS:
                del blocks[first + place]
        return StoreBytes(max(self.size, end), blocks)

    def padded(self, at: int, count: int) -> bytes:
        return self.take(at, count).ljust(count, b"\0")

    def cut(self, size: int) -> StoreBytes:
        """The same without what stands from a place on."""
        blocks = {place: block for place, block in self.blocks.items() if place < size}
        last = size - size % BLOCK
        if last in blocks:
            blocks[last] = blocks[last][: size - last].ljust(BLOCK, b"\0")
            if blocks[last] == ZEROS:
                del blocks[last]
        return StoreBytes(size, blocks)

    def __eq__(self, other: object) -> bool:
        return isinstance(other, StoreBytes) and (self.size, self.blocks) == (other.size, other.blocks)

    def __hash__(self) -> int:
        return hash((self.size, *sorted(self.blocks.items())))

    def __repr__(self) -> str:
        pieces = sorted(self.blocks.items())
        shown = "".join(f", {place}: {block[:48].rstrip(bytes(1)).hex()}.." for place, block in pieces)
        return f"<{self.size} bytes{shown}>"
