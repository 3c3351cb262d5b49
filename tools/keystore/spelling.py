"""Numbers, counted bytes and what may be absent, as every byte format of docs/FORMATS.md spells them: the highest byte
first.

Only `keystore_client.py`, which runs alone, spells them once more: so the check of the client compares two
spellings."""
from __future__ import annotations


def number(value: int, size: int) -> bytes:
    return value.to_bytes(size, "big")


def u32(value: int) -> bytes:
    return number(value, 4)


def u64(value: int) -> bytes:
    return number(value, 8)


def counted(data: bytes, size: int = 4) -> bytes:
    """Bytes behind their count, which has so many bytes."""
    return number(len(data), size) + data


def optional(data: bytes | None, size: int = 4) -> bytes:
    """Bytes that may be absent: a 0, or a 1 and the counted bytes."""
    return b"\x00" if data is None else b"\x01" + counted(data, size)


class Short(Exception):
    """There are fewer bytes than are to be taken, or a flag is no flag."""


class Reader:
    """Takes bytes apart from the front on."""

    def __init__(self, data: bytes) -> None:
        self.data = data

    def take(self, count: int) -> bytes:
        if len(self.data) < count:
            raise Short()
        taken, self.data = self.data[:count], self.data[count:]
        return taken

    def number(self, size: int) -> int:
        return int.from_bytes(self.take(size), "big")

    def counted(self, size: int = 4) -> bytes:
        return self.take(self.number(size))

    def flag(self) -> bool:
        byte = self.number(1)
        if byte > 1:
            raise Short()
        return byte == 1

    def optional(self, size: int = 4) -> bytes | None:
        return self.counted(size) if self.flag() else None
