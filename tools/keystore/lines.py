"""The lines and replies of which the makers of checks/ put their scripts together."""
from __future__ import annotations

import json
import pathlib
from collections.abc import Iterable, Iterator
from typing import Any

from keystore.harness import TOP, folder_at, parser_of

# A line, a key of one or a reply, by its members.
Line = dict[str, Any]
FOLDER = TOP / "checks"
APP, GRANT, SELINUX, BLOB, KEY_ID = range(5)
MAC_LIST = [["PURPOSE", 2], ["PURPOSE", 3], ["ALGORITHM", 128], ["DIGEST", 4], ["MIN_MAC_LENGTH", 64]]
PARAMS = [*MAC_LIST, ["NO_AUTH_REQUIRED", True]]
ASKED = [["PURPOSE", 2], ["MAC_LENGTH", 256]]
OK = {"code": 0}


def named(alias: str | None, domain: int = APP, nspace: int | None = None) -> Line:
    key: Line = {"domain": domain} if nspace is None else {"domain": domain, "nspace": nspace}
    return key if alias is None else {**key, "alias": alias}


def numbered(domain: int, number: int) -> Line:
    return {"domain": domain, "nspace": number}


def call(client: int, name: str, **fields: Any) -> Line:
    return {"t": [0, 1000], "c": client, "do": name, **fields}


def at(boot: int, wall: int, line: Line) -> Line:
    """A line at other readings."""
    return {**line, "t": [boot, wall]}


def connect(uid: int) -> Line:
    return {"t": [0, 1000], "do": "connect", "uid": uid}


def made(client: int, key: Line, params: Any = PARAMS, material: str = "0b" * 20) -> Line:
    return call(client, "importKey", key=key, params=params, format=3, material=material)


def sealed(blob: str, nspace: int = 100) -> Line:
    """The key of a blob."""
    return {"domain": BLOB, "nspace": nspace, "blob": blob}


def begin(client: int, key: Line, params: Any = ASKED, **fields: Any) -> Line:
    return call(client, "createOperation", key=key, params=params, **fields)


def broken(code: int, rule: str) -> Line:
    return {"code": code, "rule": rule}


def clients(uids: Iterable[int]) -> Iterator[tuple[Line, Line]]:
    for number, uid in enumerate(uids, 1):
        yield connect(uid), {"code": 0, "client": number}


class Rows:
    """Lines with their replies, which count the keys and the operations."""

    def __init__(self, uids: Iterable[int]) -> None:
        self.rows = list(clients(uids))
        self.keys = 0
        self.begun = 0

    def put(self, line: Line, reply: Line) -> None:
        self.rows.append((line, reply))

    def key(self, client: int, alias: str, params: Any, **fields: Any) -> None:
        """A new key of an app under an alias."""
        self.keys += 1
        self.put(made(client, named(alias), params, **fields), {"code": 0, "key": self.keys})

    def begins(self, line: Line, **told: Any) -> int:
        """A begin that is admitted, which gives the number of its operation."""
        self.begun += 1
        self.put(line, {"code": 0, "op": self.begun, **told})
        return self.begun

    def works(self, line: Line) -> None:
        """A begin that is admitted, and its operation's end."""
        number = self.begins(line)
        self.put(call(line["c"], "abort", op=number), OK)


def text_of(members: Line, order: bool = False) -> str:
    """A line of JSON; a number that is drawn, which no text spells, is a `?` by itself."""
    text = json.dumps(members, ensure_ascii=False, separators=(",", ":"), sort_keys=order)
    return text.replace('"challenge":"?"', '"challenge":?') + "\n"


def folder_of(text: str | None) -> pathlib.Path:
    """The folder into which a maker writes, by its words; checks/ where they name none."""
    parser = parser_of(text)
    parser.add_argument("--folder", type=folder_at, default=FOLDER, help="where it writes in place of checks/")
    folder: pathlib.Path = parser.parse_args().folder
    return folder


def write(folder: pathlib.Path, name: str, rows: Iterable[tuple[Line, Line]], words: str | None = None) -> None:
    both = list(rows)
    for suffix, place, order in [(".jsonl", 0, False), (".expected", 1, True)]:
        (folder / (name + suffix)).write_text("".join(text_of(row[place], order) for row in both), encoding="utf-8")
    if words is not None:
        (folder / (name + ".words")).write_text(words + "\n", encoding="utf-8")
