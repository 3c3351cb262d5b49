"""The tokens of second_model.py: their macs, which keys they fit, and the last ones that are kept.

A token is its fields by name, with its mac.
"""
from __future__ import annotations

from typing import Any

from keystore.lists import Params
from keystore.tokens import mac_of
from model.rules import is_timed
from model.values import DEMO_TOKEN_KEY, MOST_TRIPLES, Denied, one

# A token, its fields by name.
Token = dict[str, Any]
# What a key without USER_AUTH_TYPE takes.
EVERY_KIND = 0xFFFFFFFF
MILLISECONDS = 1000


def fits(token: Token, kept: Params) -> bool:
    """Whether a token is of a user or an authenticator of a key, and of a kind that the key takes."""
    secure_ids = kept.get("USER_SECURE_ID", [])
    kinds = one(kept, "USER_AUTH_TYPE") if "USER_AUTH_TYPE" in kept else EVERY_KIND
    return (token["user"] in secure_ids or token["authenticator"] in secure_ids) and token["kind"] & kinds != 0


def triple_of(token: Token) -> tuple[int, int, int]:
    return token["user"], token["authenticator"], token["kind"]


class Tokens:
    """The last token of each user, authenticator and kind."""

    def __init__(self, key: bytes = DEMO_TOKEN_KEY) -> None:
        self.key = key
        self.last: dict[tuple[int, int, int], Token] = {}

    def is_right(self, token: Token) -> bool:
        return bool(token["mac"] == mac_of(self.key, token))

    def add(self, token: Token) -> None:
        """Keeps a token in place of the last one of its triple."""
        if triple_of(token) not in self.last and len(self.last) >= MOST_TRIPLES:
            raise Denied(1004)
        self.last[triple_of(token)] = token

    def is_timely(self, kept: Params, boot: int) -> bool:
        """Whether a key with a timeout has a token that is neither of the future nor too old."""
        if not is_timed(kept):
            return False
        longest = MILLISECONDS * one(kept, "AUTH_TIMEOUT")
        return any(fits(token, kept) and 0 <= boot - token["time"] <= longest for token in self.last.values())
