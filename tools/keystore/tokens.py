"""Authentication tokens, as an authenticator makes them: the text under the mac of docs/FORMATS.md, and the mac
itself."""
from __future__ import annotations

import hashlib
import hmac
import struct
from collections.abc import Mapping
from typing import Any

DEMO_KEY = b"\x02" * 32


def mac_input(challenge: int, user: int, authenticator: int, kind: int, time: int) -> bytes:
    """The text under the mac: 00, three numbers with the lowest byte first, and two with the highest first."""
    return b"\x00" + struct.pack("<QQQ", challenge, user, authenticator) + struct.pack(">IQ", kind, time)


def mac_of(key: bytes, token: Mapping[str, Any]) -> bytes:
    """The mac of a token, which is its numbers by name."""
    text = mac_input(token["challenge"], token["user"], token["authenticator"], token["kind"], token["time"])
    return hmac.digest(key, text, hashlib.sha256)
