"""A script in which each act that writes a record comes, with looks at what it left, held work and two restarts; and
which of its lines write. It follows a run on an older system, which made a key."""
from __future__ import annotations

from typing import Any, NamedTuple

from keystore.device import DEMO_OS, DEMO_PATCH
from keystore.lines import APP, GRANT, PARAMS, begin, call, connect, made, named, numbered

OWNER, OTHER, SYSTEM, FAR = 10001, 10002, 1000, 110001
MESSAGE = "4869205468657265"
# A key that wraps, and 16 bytes 0b wrapped under its bytes 00 to 0f.
WRAPPING, WRAPPING_KEY = [["PURPOSE", 5], ["ALGORITHM", 32], ["NO_AUTH_REQUIRED", True]], bytes(range(16)).hex()
WRAPPED = "4bfcdf431a6e8520e80c37265f00139117989610f0a27695"


class Line(NamedTuple):
    """A line, and whether it writes a record where it is admitted."""

    members: dict[str, Any]
    writes: bool = False


def writing(members: dict[str, Any]) -> Line:
    return Line(members, True)


def with_limit(limit: int) -> list[Any]:
    return [*PARAMS, ["USAGE_COUNT_LIMIT", limit]]


def limited(client: int, alias: str, limit: int) -> Line:
    return writing(made(client, named(alias), with_limit(limit)))


def comes_wrapped(client: int, key: dict[str, Any], params: list[Any], wrapping: dict[str, Any]) -> dict[str, Any]:
    return call(client, "importWrappedKey", key=key, params=params, wrapping=wrapping, wrapped=WRAPPED)


def finish(client: int, number: int, **members: Any) -> dict[str, Any]:
    return call(client, "finish", op=number, input=MESSAGE, **members)


def look(client: int, alias: str) -> Line:
    return Line(call(client, "getKeyEntry", key=named(alias)))


CONNECTS = [Line(connect(uid)) for uid in (OWNER, OTHER, SYSTEM, FAR)]
# The older system, and what an app makes on it.
OLDER = DEMO_OS, DEMO_PATCH - 1
MADE_BEFORE = [CONNECTS[0], writing(made(1, named("old")))]
RESTART = Line({"t": [0, 1000], "do": "restart"})
ROOT = "5a" * 32
EVERY_ACT = [
    *CONNECTS,
    writing(made(1, named("free"))),
    limited(1, "once", 1),
    limited(1, "twice", 2),
    writing(call(1, "generateKey", key=named("drawn"), params=[*PARAMS, ["KEY_SIZE", 256]])),
    writing(call(1, "grant", key=named("twice"), uid=OTHER, bits=256)),
    Line(begin(1, named("once"))),
    writing(finish(1, 1)),
    look(1, "once"),
    Line(begin(2, numbered(GRANT, 1))),
    writing(finish(2, 2, hold=True)),
    look(1, "twice"),
    Line({"t": [0, 1000], "do": "leave", "ticket": 2}),
    writing(made(1, named("free"))),
    writing(call(1, "deleteKey", key=named("drawn"))),
    writing(call(1, "grant", key=named("twice"), uid=OTHER, bits=260)),
    writing(call(1, "ungrant", key=named("twice"), uid=OTHER)),
    Line(begin(1, named("old"))),
    writing(call(1, "upgradeKey", key=named("old"))),
    Line(call(1, "upgradeKey", key=named("old"))),
    look(1, "old"),
    writing(made(1, named("wrap"), WRAPPING, WRAPPING_KEY)),
    writing(comes_wrapped(1, named("came"), with_limit(2), named("wrap"))),
    writing(call(1, "deleteKey", key=named("wrap"))),
    Line(begin(1, named("came"))),
    writing(finish(1, 3)),
    look(1, "came"),
    RESTART,
    *CONNECTS,
    look(5, "twice"),
    Line(begin(5, named("twice"))),
    writing(finish(5, 4)),
    look(5, "twice"),
    Line(begin(5, named("came"))),
    writing(finish(5, 5)),
    look(5, "came"),
    writing(made(6, named("own"))),
    writing(call(7, "clearNamespace", domain=APP, nspace=OTHER)),
    writing(made(8, named("far"))),
    writing(call(7, "userRemoved", user=1)),
    Line({"t": [0, 1000], "do": "restart", "root": ROOT}),
    *CONNECTS,
    look(9, "free"),
]
