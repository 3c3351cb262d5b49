"""The entropy of second_model.py: what it draws, and which draws fail."""
from __future__ import annotations

from collections.abc import Collection

from model.values import Denied


class Entropy:
    """Bytes that count up; the draws with the numbers `failing`, counted from 1, fail."""

    def __init__(self, failing: Collection[int]) -> None:
        self.failing = failing
        self.draws = 0
        self.next_byte = 0
        self.drawn = b""

    def draw(self, count: int) -> bytes:
        self.draws += 1
        if self.draws in self.failing:
            raise Denied(1005)
        drawn = bytes((self.next_byte + i) % 256 for i in range(count))
        self.next_byte = (self.next_byte + count) % 256
        self.drawn += drawn
        return drawn

    def taken(self) -> bytes:
        """The bytes that were drawn since this was last asked."""
        drawn, self.drawn = self.drawn, b""
        return drawn
