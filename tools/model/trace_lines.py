"""The lines of a trace, by docs/FORMATS.md: one entry of a history as a compact JSON object, with the members in
byte order.

An event and a reply are those of second_model.py: fields by name, with bytes as bytes in an event and as text in a
reply."""
from __future__ import annotations

import json
import re
from typing import Any

from keystore.rules_page import CODES
from keystore.script_events import FIELDS, Malformed, bytes_of, number_of, object_of

# An event and a reply, by their members; an entry that is a truth value is a change that was settled, and kept.
Event = dict[str, Any]
Reply = dict[str, Any]
Acted = tuple[Event, bytes, Reply]

# The acts that name no client.
UNCALLED = {"connect", "leave", "restart"}
# What an event has beside the fields of its act, and what a line has of none: a trace tells every enter apart from its
# leave.
OUTSIDE = {"act", "boot", "wall", "client", "hold", "root"}
# The fields that name keys.
DESCRIPTORS = ("key", "wrapping")


def compact(value: Any) -> bytes:
    return json.dumps(value, ensure_ascii=False, separators=(",", ":"), sort_keys=True).encode()


def text_of(data: bytes) -> Any:
    """An alias as text, or where it is no UTF-8 an object with its hex."""
    try:
        return data.decode()
    except UnicodeDecodeError:
        return {"hex": data.hex()}


def descriptor_of(key: Event) -> Event:
    told = {"domain": key["domain"], "nspace": key["nspace"]}
    if key["alias"] is not None:
        told["alias"] = text_of(key["alias"])
    if key["blob"] is not None:
        told["blob"] = key["blob"].hex()
    return told


def field_of(name: str, value: Any) -> Any:
    if name in DESCRIPTORS:
        return descriptor_of(value)
    if name == "past":
        return text_of(value)
    return value.hex() if isinstance(value, bytes) else value


def event_data(event: Event) -> Event:
    """The object of an event; fields that are absent are left out."""
    act = event["act"]
    fields = {name: value for name, value in event.items() if name not in OUTSIDE and value is not None}
    token = fields.pop("token", {})
    if act == "restart" and event["root"] is not None:
        fields["root"] = event["root"]
    told = {name: field_of(name, value) for name, value in (fields | token).items()}
    if act not in UNCALLED:
        told["c"] = event["client"]
    return {"do": act, "t": [event["boot"], event["wall"]], **told}


def acted_line(event: Event, drawn: bytes, reply: Reply) -> bytes:
    """The line of an act's entry, without its LF."""
    return compact({"drawn": drawn.hex(), "event": event_data(event), "reply": reply})


def settled_line(is_kept: bool) -> bytes:
    """The line of a settling's entry, without its LF."""
    return compact({"settled": "kept" if is_kept else "lost"})


# ---- Lines read back

LONG = ("client", "key", "op", "challenge", "ticket", "pruned", "grant", "count", "nspace")
NUMBERS = {name: 64 for name in LONG} | {"uses": 32, "domain": 32}
HEX = {"nonce", "out", "blob", "list"}
RULE = re.compile(r"[KBSAL](0|[1-9][0-9]{0,2})")
MOST_RULE = 255


def text_in(value: Any) -> bytes:
    """The bytes of an alias, which is a text, or an object with hex of bytes that are no UTF-8."""
    if isinstance(value, dict):
        return bytes_of(value["hex"])
    if not isinstance(value, str):
        raise Malformed()
    return value.encode()


def event_in(members: Event) -> Event:
    """The event of an object, as event_of of script_events.py gives one."""
    act = members["do"]
    boot, wall = (number_of(clock, 64) for clock in members["t"])
    aliases, texts = {}, {}
    for name in DESCRIPTORS:
        key = members.get(name)
        if isinstance(key, dict) and "alias" in key:
            aliases[name] = text_in(key["alias"])
            members = members | {name: key | {"alias": ""}}
    if "past" in members:
        texts["past"] = text_in(members["past"])
        members = members | {"past": ""}
    event = {"act": act, "boot": boot, "wall": wall, **FIELDS[act](members)}
    for name, alias in aliases.items():
        if name in event:
            event[name]["alias"] = alias
    if "past" in event and "past" in texts:
        event["past"] = texts["past"]
    if act not in UNCALLED:
        event["client"] = number_of(members["c"], 64)
    return event


def is_field(name: str, value: Any) -> bool:
    if name in NUMBERS:
        return type(value) is int and value < 1 << NUMBERS[name]
    if name in HEX:
        return bytes_of(value) is not None
    if name == "alias":
        return isinstance(value, str)
    return name == "entries" and all(isinstance(alias, str) and number_of(key, 64) is not None for alias, key in value)


def is_reply(reply: Reply) -> bool:
    """Whether an object is a reply: a code of the table; with fields where it is 0, and else perhaps a rule."""
    fields = {name: value for name, value in reply.items() if name != "code"}
    if type(reply["code"]) is not int or reply["code"] not in CODES:
        return False
    if reply["code"] == 0:
        return all(is_field(*field) for field in fields.items())
    rule = fields.pop("rule", None)
    return not fields and (rule is None or RULE.fullmatch(rule) is not None and int(rule[1:]) <= MOST_RULE)


def same(line: bytes, spelled: bytes | None, entry: bool | Acted) -> bool | Acted:
    """The entry, where the line that it has is this."""
    if spelled != line:
        raise Malformed()
    return entry


def entry_of(line: bytes) -> bool | Acted:
    """The entry of a line without its LF: whether a change was kept, or an event, its drawn bytes and its reply.
    Exactly the lines that an entry has are read."""
    try:
        members = json.loads(line.decode(), object_pairs_hook=object_of)
        if set(members) == {"settled"}:
            kept = members["settled"] == "kept"
            return same(line, settled_line(kept), kept)
        acted = event_in(members["event"]), bytes_of(members["drawn"]), members["reply"]
        return same(line, acted_line(*acted) if is_reply(acted[2]) else None, acted)
    except (AttributeError, KeyError, TypeError, ValueError, RecursionError) as fault:
        raise Malformed() from fault
