#!/usr/bin/env python3
"""Says what is wrong with the lines of a script, and what the codes and rules of its replies mean.

    python3 tools/explain.py SCRIPT             of each line that is no event: which member, what is wrong, known names
    python3 tools/explain.py SCRIPT REPLIES     also of each reply that refuses: the names of code and rule, and why
    python3 tools/explain.py SCRIPT --write     prints the script with numbers in place of names for values
    python3 tools/explain.py --names [--json]   prints the acts, tags, values, domains, bits, codes and rules

`-` in place of a file is standard input:

    ./keystore2 run --fresh < letter.jsonl | python3 tools/explain.py letter.jsonl -

The program takes numbers alone for values. With --write `["PURPOSE","SIGN"]` becomes `["PURPOSE",2]`; so do the
values of the other tags, `"domain":"APP"`, `"format":"RAW"`, and the bits of a grant, of which there may be several:
`"bits":["USE","GET_INFO"]`. All names and sentences are those of docs/RULES.md. A member that no act has is told
too, since nothing looks at it. The exit status is 1 where a line is no event or a reply refuses, and 2 where a file
is not to be had."""
import difflib
import itertools
import json
import os
import re
import sys

from keystore import lists
from keystore.harness import parser_of
from keystore.lists import VALUE_BYTES
from keystore.rules_page import ACTS, BITS, CODES, DOMAINS, FORMATS, RULES, TAGS, USES, VALUES
from keystore.script_events import Malformed, check_levels, check_texts

MOST_LINE, MOST_PARAMS, MOST_BYTES = 262_144, (1 << 16) - 1, (1 << 16) - 1
ALONE = {"connect", "leave", "restart"}
MAY_BE_ABSENT = {
    "nspace",
    "params",
    "unwrapping",
    "input",
    "forced",
    "hold",
    "alias",
    "blob",
    "past",
    "signature",
    "root",
}
HOLDING = {"update", "updateAad", "finish"}
DESCRIPTOR = {"domain": "u32", "nspace": "u64", "alias": "text", "blob": "bytes"}
# The members that name keys, and those that are lists.
KEYS, LISTS = (
    sorted({name for fields in ACTS.values() for name, its in fields.items() if its == form})
    for form in ("key", "params")
)
TYPES = {kind: getattr(lists, kind) for kind, _ in TAGS.values()}


class Number:
    """A number of JSON, as it is spelled."""

    def __init__(self, text):
        self.text = text


class Wrong(Exception):
    """What makes a line no event, in words."""


def nearest(word, known):
    """What may have been meant: the name that is nearest, and else all names."""
    alike = {it.lower(): it for it in known}
    found = difflib.get_close_matches(word.lower(), alike, 1, 0.5)
    return f"the nearest is {alike[found[0]]}" if found else f"known are {', '.join(known)}"


def shown(value):
    """A value of JSON as a line has it, shortened."""
    text = (
        value.text
        if isinstance(value, Number)
        else json.dumps(value, default=lambda it: json.loads(it.text), ensure_ascii=False)
    )
    return text if len(text) <= 40 else f"{text[:40]}.."


def kind_of(value):
    names = {
        type(None): "no value (what may be absent is left out)",
        bool: "a truth value",
        str: "a text",
        list: "a list",
        dict: "an object",
        Number: "a number",
    }
    return names[type(value)]


# ---- One value


def number_fault(value, bits, names=None):
    if isinstance(value, str) and names is not None:
        return (
            f"{shown(value)} is a name: the program takes its number, {names[value]}"
            if value in names
            else f"{shown(value)} is no number; {nearest(value, names)}"
        )
    if isinstance(value, str) and value.isascii() and value.isdigit():
        return f"{shown(value)} is a text: a number stands without quotes"
    if not isinstance(value, Number):
        return f"{shown(value)} is {kind_of(value)}, where a whole number of {bits} bits is wanted"
    if value.text.startswith("-"):
        return f"{value.text} has a sign: a whole number from 0 on is wanted"
    if not value.text.isdigit():
        return f"{value.text} has a fraction or an exponent: a whole number is wanted, digit by digit"
    if int(value.text) >= 1 << bits:
        return f"{value.text} is too great: the greatest is {(1 << bits) - 1}"
    return None


def bytes_fault(value, size=None):
    if not isinstance(value, str):
        return f"{shown(value)} is {kind_of(value)}, where hex text is wanted"
    if value[:2].lower() == "0x":
        return f"{shown(value)} begins with 0x: hex is digits alone"
    wrong = re.search("[^0-9a-fA-F]", value)
    if wrong:
        return (
            f"{shown(value)} is no hex at {wrong.group()!r}; as hex that text "
            f"is {value.encode(errors='replace').hex()[:64]}"
        )
    if len(value) % 2:
        return f"{shown(value)} has an odd count of hex digits, {len(value)}"
    if size is not None and len(value) != 2 * size:
        return f"{shown(value)} has {len(value) // 2} bytes, where {size} are wanted"
    return None


def text_fault(value):
    return None if isinstance(value, str) else f"{shown(value)} is {kind_of(value)}, where a text is wanted"


def flag_fault(value):
    return None if isinstance(value, bool) else f"{shown(value)} is {kind_of(value)}, where true or false is wanted"


def pair_fault(pair):
    if not isinstance(pair, list) or len(pair) != 2:
        return f"{shown(pair)} is no pair of a tag and its value"
    tag, value = pair
    if not isinstance(tag, str):
        return f"{shown(tag)} is {kind_of(tag)}, where a tag's name is wanted"
    if tag not in TAGS:
        return f"{shown(tag)} is no tag; {nearest(tag, TAGS)}"
    kind = TYPES[TAGS[tag][0]]
    if kind == lists.BOOL:
        return None if value is True else f"{tag} has {shown(value)}: such a tag has true, or is left out"
    if kind != lists.BYTES:
        fault = number_fault(value, 8 * VALUE_BYTES[kind], VALUES.get(tag))
    else:
        fault = bytes_fault(value) or (
            f"{len(value) // 2} bytes are more than {MOST_BYTES}" if len(value) // 2 > MOST_BYTES else None
        )
    return fault and f"{tag}: {fault}"


def params_faults(value):
    if isinstance(value, dict):
        yield f"an object, where a list of pairs is wanted: {shown([list(it) for it in value.items()])}"
    elif isinstance(value, str):
        yield bytes_fault(value)
    elif not isinstance(value, list):
        yield f"{shown(value)} is {kind_of(value)}, where a list of pairs is wanted"
    elif len(value) > MOST_PARAMS:
        yield f"{len(value)} pairs are more than {MOST_PARAMS}"
    else:
        for place, pair in enumerate(value, 1):
            fault = pair_fault(pair)
            yield fault and f"pair {place}: {fault}"


def descriptor_faults(value):
    if not isinstance(value, dict):
        yield f'{shown(value)} is {kind_of(value)}, where an object is wanted, as {{"domain":0,"alias":"m"}}'
        return
    for name, form in DESCRIPTOR.items():
        for fault in member_faults(value, name, form):
            yield fault


def value_faults(name, value, form):
    """What is wrong with a value of a type."""
    if form == "key":
        yield from descriptor_faults(value)
    elif form == "params":
        yield from params_faults(value)
    elif form in ("u32", "u64"):
        yield number_fault(value, int(form[1:]), {"domain": DOMAINS, "format": FORMATS, "bits": BITS}.get(name))
    elif form in ("forced", "hold"):
        yield flag_fault(value)
    else:
        yield text_fault(value) if form == "text" else bytes_fault(
            value, None if form == "bytes" else int(form.split()[0])
        )


def member_faults(members, name, form):
    if name in members:
        yield from (f"`{name}`: {fault}" for fault in value_faults(name, members[name], form) if fault)
    elif name not in MAY_BE_ABSENT:
        yield f"`{name}` is missing"


# ---- One line


def no_json(text, error):
    """What is likely wrong with a text that is no JSON."""
    where = f"character {error.pos + 1}" + (f", {text[error.pos]!r}" if error.pos < len(text) else ", its end")
    fault = f"no JSON: {error.msg[0].lower()}{error.msg[1:]} at {where}"
    if text.startswith("\ufeff"):
        return "a byte order mark stands at its front: a script is UTF-8 without one"
    if text.strip() in ("{", "}", "[", "]", "},", "],") or text.rstrip().endswith((",", "{", "[")):
        return f"{fault}; an object stands on one line, whole"
    if "'" in text and '"' not in text:
        return f"{fault}; names and texts stand in double quotes"
    if re.search(r"[{,]\s*[A-Za-z]\w*\s*:", text):
        return f"{fault}; a member's name stands in double quotes"
    return fault


def refused_constant(text):
    raise Wrong(f"{text} is no JSON")


def members_of(line):
    """The members of a line, with its numbers as they are spelled."""
    if len(line) > MOST_LINE:
        raise Wrong(f"{len(line)} bytes are more than {MOST_LINE}")
    if not line.strip():
        raise Wrong("it is empty")
    try:
        text = line.decode()
    except UnicodeDecodeError as error:
        raise Wrong(f"byte {error.start + 1} is no UTF-8") from None
    numbers = []

    def number(spelled):
        numbers.append(spelled)
        return Number(spelled)

    try:
        value = json.loads(text, parse_int=number, parse_float=number, parse_constant=refused_constant)
    except json.JSONDecodeError as error:
        raise Wrong(no_json(text, error)) from None
    except RecursionError:
        raise Wrong("it is too deep") from None
    too_great = next((it for it in numbers if abs(float(it)) == float("inf")), None)
    if too_great:
        raise Wrong(f"{too_great[:40]} is beyond the range of a number")
    try:
        check_levels(text)
    except Malformed:
        raise Wrong("arrays and objects stand in each other too deep") from None
    try:
        json.loads(text, object_pairs_hook=lambda pairs: check_texts(pairs) or dict(pairs))
        check_texts(json.loads(text))
    except UnicodeEncodeError:
        raise Wrong("a text has half of a surrogate pair") from None
    if not isinstance(value, dict):
        raise Wrong(f"it is {kind_of(value)}, where an object is wanted")
    return value


def reading_fault(members):
    reading = members.get("t")
    if "t" not in members:
        return "`t` is missing: [milliseconds since the start, milliseconds since 1970]"
    if not isinstance(reading, list) or len(reading) != 2:
        return f"`t`: {shown(reading)} is no list of two numbers, milliseconds since the start and since 1970"
    return next((f"`t`: {fault}" for fault in (number_fault(it, 64) for it in reading) if fault), None)


def act_fault(members):
    act = members.get("do")
    if "do" not in members:
        return "`do` is missing, the act's name"
    if not isinstance(act, str):
        return f"`do`: {shown(act)} is {kind_of(act)}, where an act's name is wanted"
    return None if act in ACTS else f"`do`: {shown(act)} is no act; {nearest(act, ACTS)}"


def fields_of(act):
    """The members of an act behind `t` and `do`, with their types."""
    client = {} if act in ALONE else {"c": "u64"}
    return {**client, **ACTS[act], **({"hold": "hold"} if act in HOLDING else {})}


def faults_of(line):
    """What makes a line, without its LF, no event: nothing where it is one."""
    try:
        members = members_of(line)
    except Wrong as wrong:
        return [str(wrong)]
    faults = [it for it in (reading_fault(members), act_fault(members)) if it]
    if act_fault(members) is None:
        faults += [
            fault for name, form in fields_of(members["do"]).items() for fault in member_faults(members, name, form)
        ]
    return faults


def notes_of(line):
    """What a line has that nothing looks at."""
    try:
        members = members_of(line)
    except Wrong:
        return []
    if act_fault(members) is not None:
        return []
    known = ["t", "do", *fields_of(members["do"])]
    notes = [
        f"`{it}` is no member of {members['do']}, and is not looked at; {nearest(it, known)}"
        for it in members
        if it not in known
    ]
    keys = (members.get(name) for name, form in ACTS[members["do"]].items() if form == "key")
    return notes + [
        f"`{it}` is no member of a key, and is not looked at; {nearest(it, DESCRIPTOR)}"
        for key in keys
        if isinstance(key, dict)
        for it in key
        if it not in DESCRIPTOR
    ]


# ---- Replies


def meaning_of(reply):
    """What a reply that refuses says, in words; None where it does not refuse."""
    code, rule = reply.get("code"), reply.get("rule")
    if code == 0 or "settled" in reply:
        return None
    name, meaning = CODES.get(code, ("UNKNOWN", "no code of docs/RULES.md"))
    return f"{code} {name}" + (
        f"; rule {rule} holds where {RULES.get(rule, 'no page says')}" if rule else f": {meaning}"
    )


def replies_in(data):
    """The replies of a run, each without the settled line before it."""
    for line in data.splitlines():
        try:
            reply = json.loads(line)
        except ValueError:
            sys.exit(f"explain: {line[:80]!r} is no reply")
        if "settled" not in reply:
            yield reply


def explained(lines, replies):
    """What there is to tell of a script, and whether a line was refused."""
    refused = False
    for number, (line, reply) in enumerate(itertools.zip_longest(lines, replies), 1):
        told = [meaning_of(reply)] if reply is not None and meaning_of(reply) else []
        faults = faults_of(line) if line is not None else ["a reply, and no line"]
        refused |= bool(told or faults)
        for text in told + faults + (notes_of(line) if line is not None else []):
            yield f"line {number}: {text}", refused


# ---- Names


def number_named(value, names):
    """The number of a name, or the sum of those of a list of names; all else as it is."""
    if isinstance(value, list) and value and all(it in names for it in value):
        return sum({names[it] for it in value})
    return names[value] if isinstance(value, str) and value in names else value


def pair_written(pair):
    """A pair of a list with a number in place of a value's name; all else as it is."""
    if isinstance(pair, list) and len(pair) == 2 and isinstance(pair[0], str):
        return [pair[0], number_named(pair[1], VALUES.get(pair[0], {}))]
    return pair


def written(line):
    """A line with numbers in place of names; one that has none, and one that is no JSON, as it is."""
    try:
        members = json.loads(line)
        keys, before = [members.get(name) for name in KEYS], json.dumps(members)
    except (ValueError, AttributeError, RecursionError):
        return line
    for name, names in (("domain", DOMAINS), ("format", FORMATS), ("bits", BITS)):
        if name in members:
            members[name] = number_named(members[name], names)
    for key in keys:
        if isinstance(key, dict) and "domain" in key:
            key["domain"] = number_named(key["domain"], DOMAINS)
    for name in LISTS:
        if isinstance(members.get(name), list):
            members[name] = [pair_written(it) for it in members[name]]
    return (
        line
        if json.dumps(members) == before
        else json.dumps(members, ensure_ascii=False, separators=(",", ":")).encode()
    )


def names():
    """All names, as one object."""
    return {
        "acts": {name: {it: form for it, form in fields_of(name).items()} for name in ACTS},
        "tags": {
            name: {"type": kind, "number": number, "used": USES[name], "values": VALUES.get(name, {})}
            for name, (kind, number) in TAGS.items()
        },
        "domains": DOMAINS,
        "bits": BITS,
        "formats": FORMATS,
        "codes": {str(number): {"name": name, "meaning": meaning} for number, (name, meaning) in CODES.items()},
        "rules": RULES,
    }


def print_names(as_json):
    if as_json:
        print(json.dumps(names(), indent=1, ensure_ascii=False))
        return
    for name in ACTS:
        print(
            f"act     {name:26} "
            + ", ".join(f"{it} {form}" if form != it else it for it, form in fields_of(name).items())
        )
    for name, (kind, number) in TAGS.items():
        print(f"tag     {name:26} {kind} {number}: {USES[name]}")
    for heading, table in [*VALUES.items(), ("domain", DOMAINS), ("format", FORMATS), ("bits", BITS)]:
        print(
            "\n".join(f"value   {heading:26} {name} {number}" for name, number in table.items())
            or f"value   {heading:26} a number"
        )
    for number, (name, meaning) in CODES.items():
        print(f"code    {number:<5} {name:20} {meaning}")
    for name, sentence in RULES.items():
        print(f"rule    {name:5} {sentence}")


def read_file(name):
    if name == "-":
        return sys.stdin.buffer.read()
    with open(name, "rb") as file:
        return file.read()


def main():
    parser = parser_of(__doc__)
    parser.add_argument("script", nargs="?", metavar="SCRIPT")
    parser.add_argument("replies", nargs="?", metavar="REPLIES")
    ways = parser.add_mutually_exclusive_group()
    ways.add_argument("--write", action="store_true", help="print the script with numbers in place of names")
    ways.add_argument("--names", action="store_true", help="print all names")
    parser.add_argument("--json", action="store_true", help="the names as one JSON object")
    given = parser.parse_args()
    if given.names:
        print_names(given.json)
        return 0
    if given.script is None or given.script == given.replies == "-":
        parser.error("which script?")
    try:
        lines = read_file(given.script).removesuffix(b"\n").split(b"\n")
        replies = list(replies_in(read_file(given.replies))) if given.replies else []
    except OSError as error:
        print(f"explain: {error}", file=sys.stderr)
        return 2
    if given.write:
        lines = [written(line) for line in lines]
        sys.stdout.buffer.write(b"".join(line + b"\n" for line in lines))
    status = 0
    for text, refused in explained(lines, replies):
        print(text, file=sys.stderr if given.write else sys.stdout)
        status |= refused
    return int(status)


if __name__ == "__main__":
    try:
        sys.exit(main())
    except BrokenPipeError:
        # Who reads has seen enough.
        os.dup2(os.open(os.devnull, os.O_WRONLY), 1)
        sys.exit(1)
