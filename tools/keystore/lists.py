"""Encoded lists, by docs/FORMATS.md: the tags, what bytes of a list spell, and a list's one spelling.

A list becomes the values of each tag by the tag's name, equal ones once, and is spelled in its one order."""
from __future__ import annotations

from typing import Any

from keystore.spelling import counted, number

# Tags: the type and the number of each.

ENUM, ENUM_REP, UINT, UINT_REP, ULONG, DATE, BOOL, BIGNUM, BYTES, ULONG_REP = range(1, 11)

TAGS = {
    "PURPOSE": (ENUM_REP, 1),
    "ALGORITHM": (ENUM, 2),
    "KEY_SIZE": (UINT, 3),
    "BLOCK_MODE": (ENUM_REP, 4),
    "DIGEST": (ENUM_REP, 5),
    "PADDING": (ENUM_REP, 6),
    "CALLER_NONCE": (BOOL, 7),
    "MIN_MAC_LENGTH": (UINT, 8),
    "EARLY_BOOT_ONLY": (BOOL, 305),
    "ACTIVE_DATETIME": (DATE, 400),
    "ORIGINATION_EXPIRE_DATETIME": (DATE, 401),
    "USAGE_EXPIRE_DATETIME": (DATE, 402),
    "MAX_USES_PER_BOOT": (UINT, 404),
    "USAGE_COUNT_LIMIT": (UINT, 405),
    "USER_ID": (UINT, 501),
    "USER_SECURE_ID": (ULONG_REP, 502),
    "NO_AUTH_REQUIRED": (BOOL, 503),
    "USER_AUTH_TYPE": (ENUM, 504),
    "AUTH_TIMEOUT": (UINT, 505),
    "UNLOCKED_DEVICE_REQUIRED": (BOOL, 509),
    "APPLICATION_ID": (BYTES, 601),
    "APPLICATION_DATA": (BYTES, 700),
    "CREATION_DATETIME": (DATE, 701),
    "ORIGIN": (ENUM, 702),
    "OS_VERSION": (UINT, 705),
    "OS_PATCHLEVEL": (UINT, 706),
    "NONCE": (BYTES, 1001),
    "MAC_LENGTH": (UINT, 1003),
}
NAMES = {number: name for name, (_, number) in TAGS.items()}
REPEATING = {ENUM_REP, UINT_REP, ULONG_REP}
VALUE_BYTES = {ENUM: 4, ENUM_REP: 4, UINT: 4, UINT_REP: 4, ULONG: 8, ULONG_REP: 8, DATE: 8, BOOL: 1}


# The values of each tag by its name: numbers, or bytes.
Params = dict[str, list[Any]]


class ListFault(Exception):
    """Bytes spell no list; the code is that of the fault of least offset."""

    def __init__(self, code: int) -> None:
        super().__init__(code)
        self.code = code


# Authorization lists.


def value_end(data: bytes, tag_type: int, start: int) -> int:
    """Where the value ends that begins at `start`."""
    if tag_type != BYTES:
        return start + VALUE_BYTES[tag_type]
    if len(data) < start + 2:
        raise ListFault(-40)
    return start + 2 + int.from_bytes(data[start : start + 2], "big")


def read_parameter(data: bytes, start: int, found: Params) -> tuple[str, Any, int]:
    """The parameter at `start`, behind those that were found, as its name, its value and its end."""
    if len(data) < start + 4:
        raise ListFault(-40)
    tag = int.from_bytes(data[start : start + 4], "big")
    tag_type = tag >> 28
    name = NAMES.get(tag & 0x0FFFFFFF)
    if name is None or TAGS[name][0] != tag_type:
        raise ListFault(-40)
    if tag_type == BOOL and data[start + 4 : start + 5] not in (b"", b"\1"):
        raise ListFault(-40)
    if name in found and tag_type not in REPEATING:
        raise ListFault(-38)
    end = value_end(data, tag_type, start + 4)
    if len(data) < end:
        raise ListFault(-40)
    if tag_type == BYTES:
        return name, data[start + 6 : end], end
    return name, int.from_bytes(data[start + 4 : end], "big"), end


def read_list(data: bytes) -> Params:
    """The list that bytes spell."""
    if len(data) < 2:
        raise ListFault(-40)
    found: Params = {}
    end = 2
    for _ in range(int.from_bytes(data[:2], "big")):
        name, value, end = read_parameter(data, end, found)
        values = found.setdefault(name, [])
        if value not in values:
            values.append(value)
    if end != len(data):
        raise ListFault(-40)
    return found


def write_list(values: Params) -> bytes:
    """The one spelling of a list: its tags by their numbers, the values of each by their size."""
    encoded: list[bytes] = []
    for name in sorted(values, key=lambda name: TAGS[name][1]):
        encoded += [encoded_value(name, value) for value in sorted(values[name])]
    return number(len(encoded), 2) + b"".join(encoded)


def encoded_value(name: str, value: Any) -> bytes:
    """The bytes of a tag and its value."""
    tag_type, tag_number = TAGS[name]
    tag = number(tag_type << 28 | tag_number, 4)
    if tag_type == BYTES:
        return tag + counted(value, 2)
    return tag + number(int(value), VALUE_BYTES[tag_type])
