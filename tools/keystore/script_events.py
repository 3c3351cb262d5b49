"""What a script's lines spell, by docs/FORMATS.md: the part of the second model that reads.

A line becomes an event, which is its act, the clocks' readings, its client and its fields by name.
"""
from __future__ import annotations

import json
import math
import re
from collections.abc import Callable
from typing import Any

from keystore.lists import BOOL, BYTES, TAGS, VALUE_BYTES, encoded_value

Members = dict[str, Any]


class Malformed(Exception):
    """A line spells no event."""


# The lines of a script.

STRING_OR_BRACKET = re.compile(r'"[^"\\]*(?:\\.[^"\\]*)*"|[\[\]{}]')
MOST_LEVELS = 127
# The numbers of a token, with their bits.
TOKEN_NUMBERS = {"challenge": 64, "user": 64, "authenticator": 64, "kind": 32, "time": 64}
MAC_BYTES = 32
ROOT_BYTES = 32
NO_WHOLE_NUMBER = object()


def whole_number(text: str) -> Any:
    """A number without fraction and exponent."""
    if len(text) <= 20 and not text.startswith("-") and int(text) < 1 << 64:
        return int(text)
    return other_number(text)


def other_number(text: str) -> object:
    """A number that no field takes; one that is too great for a float is no JSON."""
    if math.isinf(float(text)):
        raise ValueError(text)
    return NO_WHOLE_NUMBER


def no_number(text: str) -> Any:
    """NaN and the infinities, which Python takes and JSON does not."""
    raise ValueError(text)


def check_texts(value: Any) -> None:
    """No text has half a surrogate pair. Objects were looked at before."""
    if isinstance(value, str):
        value.encode()
    elif isinstance(value, (list, tuple)):
        for part in value:
            check_texts(part)


def object_of(pairs: list[tuple[str, Any]]) -> Members:
    """An object of its members; of several with one name the last counts."""
    check_texts(pairs)
    return dict(pairs)


def check_levels(text: str) -> None:
    """The arrays and objects of a JSON text stand within each other no deeper than is read."""
    level = 0
    for found in STRING_OR_BRACKET.finditer(text):
        if found.group() in ("[", "{"):
            level += 1
        elif found.group() in ("]", "}"):
            level -= 1
        if level > MOST_LEVELS:
            raise Malformed()


def members_of(line: bytes) -> Members:
    """The members of the JSON object that a line spells."""
    try:
        text = line.decode()
        value = json.loads(
            text,
            parse_int=whole_number,
            parse_float=other_number,
            parse_constant=no_number,
            object_pairs_hook=object_of,
        )
    except (ValueError, RecursionError):
        raise Malformed()
    check_levels(text)
    if not isinstance(value, dict):
        raise Malformed()
    return value


def needed(members: Members, name: str) -> Any:
    if name not in members:
        raise Malformed()
    return members[name]


def number_of(value: Any, bits: int) -> int:
    if type(value) is not int or value >= 1 << bits:
        raise Malformed()
    return value


def bytes_of(value: Any) -> bytes:
    if type(value) is not str or not re.fullmatch("(?:[0-9a-fA-F]{2})*", value):
        raise Malformed()
    return bytes.fromhex(value)


def text_of(value: Any) -> bytes:
    if type(value) is not str:
        raise Malformed()
    return value.encode()


def flag_of(members: Members, name: str) -> bool:
    """A truth value that is false where it is absent."""
    value = members.get(name, False)
    if type(value) is not bool:
        raise Malformed()
    return value


def reading_of(members: Members) -> list[int]:
    """The clocks' reading, its boot time and its wall time."""
    reading = needed(members, "t")
    if type(reading) is not list or len(reading) != 2:
        raise Malformed()
    return [number_of(clock, 64) for clock in reading]


def descriptor_of(members: Members, name: str = "key") -> Members:
    key = needed(members, name)
    if not isinstance(key, dict):
        raise Malformed()
    return {
        "domain": number_of(needed(key, "domain"), 32),
        "nspace": number_of(key.get("nspace", 0), 64),
        "alias": text_of(key["alias"]) if "alias" in key else None,
        "blob": bytes_of(key["blob"]) if "blob" in key else None,
    }


def encoded_parameter(pair: Any) -> bytes:
    """The bytes of a pair of a tag's name and a value."""
    if type(pair) is not list or len(pair) != 2 or type(pair[0]) is not str or pair[0] not in TAGS:
        raise Malformed()
    name, value = pair
    tag_type = TAGS[name][0]
    if tag_type == BOOL:
        if value is not True:
            raise Malformed()
        return encoded_value(name, value)
    if tag_type == BYTES:
        data = bytes_of(value)
        if len(data) >= 1 << 16:
            raise Malformed()
        return encoded_value(name, data)
    return encoded_value(name, number_of(value, 8 * VALUE_BYTES[tag_type]))


def encoded_list(params: Any) -> bytes:
    """The encoded list that a line's `params` spells."""
    if type(params) is str:
        return bytes_of(params)
    if type(params) is not list or len(params) >= 1 << 16:
        raise Malformed()
    return len(params).to_bytes(2, "big") + b"".join(encoded_parameter(pair) for pair in params)


def connect_fields(members: Members) -> Members:
    return {"uid": number_of(needed(members, "uid"), 32)}


def key_fields(members: Members) -> Members:
    return {"key": descriptor_of(members), "params": encoded_list(members.get("params", []))}


def import_fields(members: Members) -> Members:
    return {
        **key_fields(members),
        "format": number_of(needed(members, "format"), 32),
        "material": bytes_of(needed(members, "material")),
    }


def wrapped_fields(members: Members) -> Members:
    return {
        **key_fields(members),
        "wrapping": descriptor_of(members, "wrapping"),
        "wrapped": bytes_of(needed(members, "wrapped")),
        "unwrapping": encoded_list(members.get("unwrapping", [])),
    }


def begin_fields(members: Members) -> Members:
    return {**key_fields(members), "forced": flag_of(members, "forced")}


def named_fields(members: Members) -> Members:
    return {"key": descriptor_of(members)}


def ungrant_fields(members: Members) -> Members:
    return {**named_fields(members), "uid": number_of(needed(members, "uid"), 32)}


def grant_fields(members: Members) -> Members:
    return {**ungrant_fields(members), "bits": number_of(needed(members, "bits"), 32)}


def owner_fields(members: Members) -> Members:
    return {"domain": number_of(needed(members, "domain"), 32), "nspace": number_of(members.get("nspace", 0), 64)}


def listing_fields(members: Members) -> Members:
    return {**owner_fields(members), "past": text_of(members["past"]) if "past" in members else None}


def user_fields(members: Members) -> Members:
    return {"user": number_of(needed(members, "user"), 32)}


def mac_of(members: Members) -> bytes:
    mac = bytes_of(needed(members, "mac"))
    if len(mac) != MAC_BYTES:
        raise Malformed()
    return mac


def token_fields(members: Members) -> Members:
    token = {name: number_of(needed(members, name), bits) for name, bits in TOKEN_NUMBERS.items()}
    return {"token": {**token, "mac": mac_of(members)}}


def operation_fields(members: Members) -> Members:
    return {"op": number_of(needed(members, "op"), 64)}


def step_fields(members: Members) -> Members:
    return {**operation_fields(members), "input": bytes_of(members.get("input", "")), "hold": flag_of(members, "hold")}


def finish_fields(members: Members) -> Members:
    signature = bytes_of(members["signature"]) if "signature" in members else None
    return {**step_fields(members), "signature": signature}


def leave_fields(members: Members) -> Members:
    return {"ticket": number_of(needed(members, "ticket"), 64)}


def restart_fields(members: Members) -> Members:
    root = bytes_of(members["root"]) if "root" in members else None
    if root is not None and len(root) != ROOT_BYTES:
        raise Malformed()
    return {"root": root}


def no_fields(members: Members) -> Members:
    return {}


# The acts, and what reads the fields of each.
FIELDS: dict[str, Callable[[Members], Members]] = {
    "connect": connect_fields,
    "disconnect": no_fields,
    "generateKey": key_fields,
    "importKey": import_fields,
    "importWrappedKey": wrapped_fields,
    "createOperation": begin_fields,
    "updateAad": step_fields,
    "update": step_fields,
    "finish": finish_fields,
    "leave": leave_fields,
    "abort": operation_fields,
    "upgradeKey": key_fields,
    "getKeyEntry": named_fields,
    "deleteKey": named_fields,
    "grant": grant_fields,
    "ungrant": ungrant_fields,
    "getNumberOfEntries": owner_fields,
    "listEntriesBatched": listing_fields,
    "clearNamespace": owner_fields,
    "userRemoved": user_fields,
    "addAuthToken": token_fields,
    "deviceLocked": user_fields,
    "deviceUnlocked": user_fields,
    "earlyBootEnded": no_fields,
    "restart": restart_fields,
}


def event_of(line: bytes) -> Members:
    """The event that a line spells, without its LF: the act, the clocks, its client and its fields by name."""
    members = members_of(line)
    boot, wall = reading_of(members)
    act = needed(members, "do")
    if type(act) is not str or act not in FIELDS:
        raise Malformed()
    event = {"act": act, "boot": boot, "wall": wall, **FIELDS[act](members)}
    if act not in ("connect", "leave", "restart"):
        event["client"] = number_of(needed(members, "c"), 64)
    return event
