"""Writes the scripts of checks/ on keys that come wrapped, each with its expected replies beside it.

The wrapped texts are made by the Python package `cryptography` or are those of RFC 3394, and the replies stand here as
the rules of docs/RULES.md give them, each at its line. Those of wrapped-rules stand in `make/wrapped_rules.py`."""
from __future__ import annotations

import hashlib
import hmac
from collections.abc import Callable, Iterator
from typing import Any

from cryptography.hazmat.primitives.keywrap import aes_key_wrap

from keystore.blobs import blob_of, list_of
from keystore.device import DEMO_OS, DEMO_PATCH
from keystore.lines import (
    APP,
    ASKED,
    BLOB,
    GRANT,
    KEY_ID,
    MAC_LIST,
    OK,
    PARAMS,
    SELINUX,
    Line,
    Rows,
    begin,
    broken,
    call,
    connect,
    folder_of,
    made,
    named,
    numbered,
    sealed,
    write,
)
from make.blob_checks import TEXT, of_system, with_ids
from make.wrapped_rules import FREE, IDS, KEY, OTHER, OWN, PLAIN, SYSTEM, UIDS, WRAPPING, rules, wrapped_import

# What the text of the standard's first vector is wrapped.
WRAPPED = "1fa68b0a8112b447aef34bd8fb5a7b829d3e862371d2cfe5"
CIPHER = [
    ["PURPOSE", 0],
    ["PURPOSE", 1],
    ["ALGORITHM", 32],
    ["BLOCK_MODE", 1],
    ["BLOCK_MODE", 2],
    ["BLOCK_MODE", 3],
    ["BLOCK_MODE", 32],
    ["PADDING", 1],
    ["PADDING", 64],
    ["MIN_MAC_LENGTH", 96],
    ["CALLER_NONCE", True],
    FREE,
]
GET_INFO, USE = 4, 256
# The text of the key that most scripts bring, and the mac of `Hi There` under it.
SIGNING = b"\x0b" * 16
MAC = "492ce020fe2534a5789dc3848806c78f4f6711397f08e7e7a12ca5a4483c8aa6"
# The vectors of RFC 3394 section 4: how many bytes the wrapping key 00, 01 .. has, the text, and what it is wrapped.
VECTORS = [
    (16, PLAIN, WRAPPED),
    (24, PLAIN, "96778b25ae6ca435f92b5b97c050aed2468ab8a17ad84e5d"),
    (32, PLAIN, "64e8c3f9ce0f5ba263e9777905818a2a93c8191e7d6e8ae7"),
    (24, PLAIN + bytes(range(8)), "031d33264e15d33268f24ec260743edce1c6c7ddee725a936ba814915c6762d2"),
    (32, PLAIN + bytes(range(8)), "a8f9bc1612c68b3ff6e6f4fbe30e71e4769c8b80a32cb8958cd5d17d6b254da1"),
    (
        32,
        PLAIN + bytes(range(16)),
        "28c9f404c4b810f4cbccb35cfb87f8263f5786e2d80ed326cbc7f0e71a99f43bfb988b9b7a02dd21",
    ),
]
# What no key has that wraps others, and a value of each.
KEPT_FROM_WRAPPING: list[tuple[str, Any]] = [
    ("EARLY_BOOT_ONLY", True),
    ("ACTIVE_DATETIME", 0),
    ("ORIGINATION_EXPIRE_DATETIME", 5000),
    ("USAGE_EXPIRE_DATETIME", 5000),
    ("MAX_USES_PER_BOOT", 1),
    ("USAGE_COUNT_LIMIT", 1),
    ("USER_ID", 0),
    ("USER_SECURE_ID", 7),
    ("USER_AUTH_TYPE", 1),
    ("AUTH_TIMEOUT", 1),
    ("UNLOCKED_DEVICE_REQUIRED", True),
]


def under(key: bytes, text: bytes) -> str:
    return aes_key_wrap(key, text).hex()


# What comes of keys that came wrapped, and of what is no such key.


class Keys(Rows):
    """Lines with their replies, which count the keys that come wrapped too."""

    def comes(self, client: int, key: Line, params: Any, wrapping: Line, wrapped: str, **fields: Any) -> None:
        self.keys += 1
        line = wrapped_import(client, key, params, wrapping, wrapped, **fields)
        self.put(line, {"code": 0, "key": self.keys})

    def refuses(self, wrapping: Line, reply: Line, wrapped: str = WRAPPED, params: Any = CIPHER, **fields: Any) -> None:
        """An import of client 1 under the alias x."""
        self.put(wrapped_import(fields.pop("client", OWN), named("x"), params, wrapping, wrapped, **fields), reply)

    def entry(self, client: int, key: Line, number: int, alias: str, encoded: bytes, owner: tuple[int, int]) -> None:
        told = {"code": 0, "key": number, "domain": owner[0], "nspace": owner[1], "alias": alias}
        self.put(call(client, "getKeyEntry", key=key), {**told, "list": encoded.hex()})

    def signs(self, client: int, key: Line, material: bytes = SIGNING) -> None:
        """The mac of `Hi There`, by Python's own library."""
        number = self.begins(begin(client, key))
        mac = hmac.new(material, bytes.fromhex(TEXT), hashlib.sha256).hexdigest()
        self.put(call(client, "finish", op=number, input=TEXT), {"code": 0, "out": mac})

    def enciphers(self, client: int, key: Line, text: str, out: str) -> None:
        """By ECB, without padding."""
        asked = [["PURPOSE", 0], ["BLOCK_MODE", 1], ["PADDING", 1]]
        number = self.begins(begin(client, key, asked))
        self.put(call(client, "update", op=number, input=text), {"code": 0, "out": out})
        self.put(call(client, "finish", op=number), {"code": 0, "out": ""})


def kept(params: list[Any], bits: int) -> bytes:
    """What is kept of a key that came wrapped."""
    more = [["KEY_SIZE", bits], ["ORIGIN", 4], ["CREATION_DATETIME", 1000], *of_system(DEMO_OS, DEMO_PATCH)]
    return list_of([*params, *more])


MAC_TEXT = under(KEY, SIGNING)
# AES of 16 bytes 00 under the key that comes wrapped, by the package.
BLOCK = "fde4fbae4a09e020eff722969f83832b"


def keys() -> Keys:
    rows = Keys(UIDS)
    rows.key(OWN, "w", WRAPPING, material=KEY.hex())
    rows.comes(OWN, named("k"), CIPHER, named("w"), WRAPPED)
    parts = [works, without_place, named_otherwise, under_ids, without_text]
    for part in [*parts, of_wrapping_keys, over_namespaces, behind_the_end]:
        part(rows)
    return rows


def works(rows: Keys) -> None:
    """The key that came works as the same one in the clear; its list says where it comes from."""
    rows.entry(OWN, named("k"), 2, "k", kept(CIPHER, 128), (APP, 10001))
    rows.key(OWN, "p", CIPHER, material=PLAIN.hex())
    for name in ("k", "p"):
        rows.enciphers(OWN, named(name), "00" * 16, BLOCK)
    rows.comes(OWN, named("m"), PARAMS, named("w"), MAC_TEXT)
    number = rows.begins(begin(OWN, named("m")))
    rows.put(call(OWN, "finish", op=number, input=TEXT), {"code": 0, "out": MAC})
    rows.entry(OWN, named("m"), 4, "m", kept(PARAMS, 128), (APP, 10001))
    rows.comes(OWN, named("sized"), [*PARAMS, ["KEY_SIZE", 128], ["ORIGIN", 0]], named("w"), MAC_TEXT.upper())
    rows.signs(OWN, named("sized"))
    for size in range(16, 65, 8):
        rows.comes(OWN, named(f"of {size}"), PARAMS, named("w"), under(KEY, bytes(range(size))))
        rows.signs(OWN, named(f"of {size}"), bytes(range(size)))
    for size, text, wrapped in VECTORS:
        rows.key(OWN, "of the vectors", WRAPPING, material=bytes(range(size)).hex())
        rows.comes(OWN, named("vector"), PARAMS, named("of the vectors"), wrapped)
        rows.signs(OWN, named("vector"), text)


def without_place(rows: Keys) -> None:
    """K1 to K3, whatever the wrapping key is."""
    blob = {"domain": BLOB, "nspace": 100}
    refused = [
        (9, named("x"), broken(20, "K1")),
        *((OWN, key, broken(20, "K2")) for key in [named(None), named(""), named("a" * 257), named("x", 5)]),
        *((OWN, key, broken(20, "K2")) for key in [numbered(GRANT, 1), numbered(KEY_ID, 1)]),
        (OWN, {**named("x"), "blob": ""}, broken(20, "K2")),
        (SYSTEM, named(None, SELINUX, 100), broken(20, "K2")),
        (SYSTEM, {**blob, "blob": "00"}, broken(20, "K2")),
        *((OWN, key, broken(6, "K3")) for key in [named("x", SELINUX, 100), blob]),
        *((SYSTEM, named("x", SELINUX, nspace), broken(6, "K3")) for nspace in (0, 101)),
        *((SYSTEM, {**blob, "nspace": nspace}, broken(6, "K3")) for nspace in (0, 101)),
    ]
    for client, key, reply in refused:
        rows.put(wrapped_import(client, key, PARAMS, named("w"), MAC_TEXT), reply)
        rows.put(wrapped_import(client, key, "00", named(None), ""), reply)


def named_otherwise(rows: Keys) -> None:
    """K18 to K20, each by every domain."""
    for key in [
        named(None),
        named(""),
        named("a" * 257),
        named("w", 5),
        named("w", 4294967295),
        named("w", BLOB),
        sealed(""),
        sealed("00"),
        named("", SELINUX, 101),
    ]:
        rows.refuses(key, broken(20, "K18"))
        rows.refuses(key, broken(20, "K18"), client=SYSTEM)
    for client, key in [(OWN, named("w", SELINUX, 100)), (SYSTEM, named("w", SELINUX, 101))]:
        rows.refuses(key, broken(6, "K18"), client=client)
    rows.put(call(OWN, "grant", key=named("w"), uid=10002, bits=GET_INFO), {"code": 0, "grant": 1})
    for client, key in [
        (OWN, named("none")),
        (OTHER, named("w")),
        (OWN, numbered(GRANT, 1)),
        (OTHER, numbered(GRANT, 2)),
        (OWN, numbered(KEY_ID, 0)),
        (OWN, numbered(KEY_ID, 99)),
        (SYSTEM, named("w", SELINUX, 100)),
        (SYSTEM, named("w", SELINUX, 0)),
    ]:
        rows.refuses(key, broken(7, "K19"), client=client)
    for client, key in [(OTHER, numbered(GRANT, 1)), (OTHER, numbered(KEY_ID, 1)), (SYSTEM, numbered(KEY_ID, 1))]:
        rows.refuses(key, broken(6, "K20"), client=client)
        rows.refuses(key, broken(6, "K20"), client=client, unwrapping="00", wrapped="")
    rows.put(call(OWN, "grant", key=named("w"), uid=10002, bits=USE), {"code": 0, "grant": 1})
    for client, key in [
        (OTHER, numbered(GRANT, 1)),
        (OTHER, numbered(KEY_ID, 1)),
        (OWN, numbered(KEY_ID, 1)),
        (OWN, {**named("w"), "nspace": 7, "blob": "00"}),
    ]:
        rows.comes(client, named("by another name"), CIPHER, key, WRAPPED)


def under_ids(rows: Keys) -> None:
    """K21: the ids of the wrapping key are asked for, and those of the new key are its own."""
    for unwrapping, code in [
        ("0000" + "00" * 4095, -21),
        ([["APPLICATION_ID", "61" * 1025]], -21),
        ([["APPLICATION_DATA", "61" * 1025]], -21),
        ("", -40),
        ("00", -40),
        ("000000", -40),
        ("0001f0000001", -40),
        ([FREE, FREE], -38),
        ([["ORIGIN", 0], ["ORIGIN", 2]], -38),
        (IDS, -33),
        (IDS[:1], -33),
        (with_ids([], "", None), -33),
    ]:
        rows.refuses(named("w"), broken(code, "K21"), unwrapping=unwrapping)
        rows.refuses(named("w"), broken(code, "K21"), unwrapping=unwrapping, wrapped="", params="00")
    for unwrapping in [[], "0000", [["PURPOSE", 9], ["OS_VERSION", 7], ["KEY_SIZE", 1], ["NONCE", ""]]]:
        rows.comes(OWN, named("other tags"), CIPHER, named("w"), WRAPPED, unwrapping=unwrapping)
    rows.key(OWN, "i", [*WRAPPING, *IDS], material=KEY.hex())
    for unwrapping in [[], IDS[:1], IDS[1:], with_ids([], "6163", ""), with_ids([], "6162", "00")]:
        rows.refuses(named("i"), broken(-33, "K21"), unwrapping=unwrapping)
    rows.refuses(named("i"), broken(-33, "K21"), params=[*CIPHER, *IDS])
    rows.comes(OWN, named("plain"), CIPHER, named("i"), WRAPPED, unwrapping=IDS)
    rows.enciphers(OWN, named("plain"), "00" * 16, BLOCK)
    rows.comes(OWN, named("for ids"), [*PARAMS, *with_ids([], "6364", None)], named("i"), MAC_TEXT, unwrapping=IDS)
    for asked in [[], IDS, with_ids([], "6364", "")]:
        rows.put(begin(OWN, named("for ids"), [*ASKED, *asked]), broken(-33, "B8"))
    rows.works(begin(OWN, named("for ids"), [*ASKED, *with_ids([], "6364", None)]))
    rows.entry(OWN, named("for ids"), rows.keys, "for ids", kept(PARAMS, 128), (APP, 10001))


def without_text(rows: Keys) -> None:
    """K22 and K23, and the rules of a new list behind them."""
    for name in ("k", "m"):
        rows.refuses(named(name), broken(-3, "K22"))
        rows.refuses(named(name), broken(-3, "K22"), wrapped="", params="00")
    zeros = [(size, -30 if size in (24, 32, 72) else -21) for size in (0, 8, 16, 23, 24, 25, 32, 72, 73, 80)]
    for size, code in zeros:
        rows.refuses(named("w"), broken(code, "K23"), wrapped="00" * size)
        rows.refuses(named("w"), broken(code, "K23"), wrapped="00" * size, params="00")
    for wrapped, code in [
        (WRAPPED[:-2] + "e4", -30),
        (WRAPPED[:-2], -21),
        ("0" + WRAPPED[1:], -30),
        (WRAPPED[:16] + "80" + WRAPPED[18:], -30),
        (under(KEY[::-1], PLAIN), -30),
        (WRAPPED + "00" * 8, -30),
        (PLAIN.hex() + "a6" * 8, -30),
    ]:
        rows.refuses(named("w"), broken(code, "K23"), wrapped=wrapped)
    for params, reply in [
        ("0000" + "00" * 4095, broken(-21, "K4")),
        ("00", broken(-40, "K4")),
        ([*CIPHER, FREE], broken(-38, "K4")),
        ([["APPLICATION_ID", "61" * 1025]], broken(-21, "K4")),
        ([], broken(-4, "K5")),
    ]:
        rows.refuses(named("w"), reply, params=params)
    rows.refuses(named("w"), broken(-6, "K7"), wrapped=under(KEY, bytes(40)))
    rows.refuses(named("w"), broken(-44, "K7"), wrapped=under(KEY, bytes(24)), params=[*CIPHER, ["KEY_SIZE", 128]])
    rows.refuses(named("w"), broken(-6, "K7"), wrapped=under(KEY, bytes(40)), params=[*CIPHER, ["KEY_SIZE", 320]])
    rows.comes(OWN, named("counted"), [*PARAMS, ["USAGE_COUNT_LIMIT", 2]], named("w"), MAC_TEXT)
    for _ in range(2):
        rows.signs(OWN, named("counted"))
    rows.put(begin(OWN, named("counted")), broken(7, "B4"))


def of_wrapping_keys(rows: Keys) -> None:
    """What a key that wraps may have and do."""
    rows.put(begin(OWN, named("w"), [["PURPOSE", 0]]), broken(-3, "B9"))
    rows.put(begin(OWN, named("w"), [["PURPOSE", 5]]), broken(-2, "B9"))
    limited = [*WRAPPING, ["USAGE_COUNT_LIMIT", 1]]
    both = [["PURPOSE", 0], *WRAPPING]
    for params in [limited, both, *([*WRAPPING[:2], list(pair)] for pair in KEPT_FROM_WRAPPING)]:
        rows.put(made(OWN, named("x"), params, KEY.hex()), broken(-39, "K17"))
        sized = [*params, ["KEY_SIZE", 128]]
        rows.put(call(OWN, "generateKey", key=named("x"), params=sized), broken(-39, "K17"))
        rows.refuses(named("w"), broken(-39, "K17"), params=params)
    rows.put(made(OWN, named("x"), [["PURPOSE", 5], *MAC_LIST]), broken(-2, "K8"))
    rows.key(OWN, "with id", [*WRAPPING, *IDS[:1]], material=KEY.hex())
    rows.key(OWN, "twice", [WRAPPING[0], *WRAPPING], material=KEY.hex())
    modes = [["BLOCK_MODE", 1], ["PADDING", 64], ["CALLER_NONCE", True]]
    rows.key(OWN, "with modes", [*WRAPPING, *modes], material="00" * 16)
    rows.keys += 1
    drawn = call(OWN, "generateKey", key=named("drawn"), params=[*WRAPPING, ["KEY_SIZE", 256]])
    rows.put(drawn, {"code": 0, "key": rows.keys})
    rows.refuses(named("drawn"), broken(-30, "K23"))
    for size in (16, 24, 32):
        rows.comes(OWN, named("second"), WRAPPING, named("w"), under(KEY, bytes(range(size))))
        rows.comes(OWN, named("third"), PARAMS, named("second"), under(bytes(range(size)), SIGNING))
        rows.signs(OWN, named("third"))


def over_namespaces(rows: Keys) -> None:
    """In domain BLOB the reply has the blob; over SELINUX both keys stand in one namespace."""
    rows.keys += 1
    rows.put(made(SYSTEM, named("w", SELINUX, 100), WRAPPING, KEY.hex()), {"code": 0, "key": rows.keys})
    rows.comes(SYSTEM, named("m", SELINUX, 100), PARAMS, named("w", SELINUX, 100), MAC_TEXT)
    rows.signs(SYSTEM, named("m", SELINUX, 100))
    rows.entry(SYSTEM, named("m", SELINUX, 100), rows.keys, "m", kept(PARAMS, 128), (SELINUX, 100))
    for key in [{"domain": BLOB, "nspace": 100}, {"domain": BLOB, "nspace": 100, "alias": ""}]:
        size = 4 + 12 + 32 + 1 + 1 + 4 + len(kept(PARAMS, 128)) + 1 + 16 + 16
        told = {"code": 0, "blob": "4b534231" + "?" * (2 * size - 8)}
        rows.put(wrapped_import(SYSTEM, key, PARAMS, named("w", SELINUX, 100), MAC_TEXT), told)
        rows.signs(SYSTEM, sealed(f"line {len(rows.rows)}"))
    blob = blob_of(list_of([*WRAPPING, *of_system(DEMO_OS, DEMO_PATCH)]), KEY)
    rows.refuses(sealed(blob.hex()), broken(20, "K18"), client=SYSTEM)
    for params in [[*PARAMS, ["USAGE_COUNT_LIMIT", 1]], [*PARAMS, ["MAX_USES_PER_BOOT", 1]]]:
        line = wrapped_import(SYSTEM, {"domain": BLOB, "nspace": 100}, params, named("w", SELINUX, 100), MAC_TEXT)
        rows.put(line, broken(-39, "K14"))


def behind_the_end(rows: Keys) -> None:
    """The new key goes on without the one under which it came, and ends the one that had its name; a key that is gone
    wraps no more, and none of another device does."""
    rows.put(call(OWN, "deleteKey", key=named("w")), OK)
    rows.refuses(named("w"), broken(7, "K19"))
    rows.refuses(numbered(GRANT, 1), broken(7, "K19"), client=OTHER)
    rows.enciphers(OWN, named("k"), "00" * 16, BLOCK)
    rows.key(OWN, "w", WRAPPING, material=KEY.hex())
    rows.put(call(OWN, "grant", key=named("k"), uid=10002, bits=USE), {"code": 0, "grant": 2})
    number = rows.begins(begin(OWN, named("k"), [["PURPOSE", 0], ["BLOCK_MODE", 1], ["PADDING", 1]]))
    rows.comes(OWN, named("k"), PARAMS, named("w"), MAC_TEXT)
    rows.put(call(OWN, "update", op=number, input="00" * 16), broken(-33, "S4"))
    rows.put(begin(OTHER, numbered(GRANT, 2)), broken(7, "B4"))
    rows.signs(OWN, named("k"))
    rows.comes(OWN, named("w"), PARAMS, named("w"), MAC_TEXT)
    rows.signs(OWN, named("w"))
    rows.refuses(named("w"), broken(-3, "K22"))
    rows.key(OWN, "w", WRAPPING, material=KEY.hex())
    rows.put({"t": [0, 1000], "do": "restart"}, OK)
    rows.put(connect(10001), {"code": 0, "client": 4})
    rows.comes(4, named("k"), PARAMS, named("w"), MAC_TEXT)
    rows.put({"t": [0, 1000], "do": "restart", "root": "04" * 32}, OK)
    rows.put(connect(10001), {"code": 0, "client": 5})
    rows.refuses(named("w"), broken(-33, "K21"), client=5)
    rows.refuses(named("w"), broken(-33, "K21"), client=5, wrapped="", params="00")
    rows.key(5, "w", WRAPPING, material=KEY.hex())
    rows.comes(5, named("k"), PARAMS, named("w"), MAC_TEXT)
    rows.signs(5, named("k"))


# Lines that spell no event.


def lines() -> Iterator[tuple[Line, Line]]:
    """A line of the act whose members are missing or of another kind is none; behind them it still is one."""
    yield connect(10001), {"code": 0, "client": 1}
    yield made(1, named("w"), WRAPPING, KEY.hex()), {"code": 0, "key": 1}
    whole = wrapped_import(1, named("k"), PARAMS, named("w"), MAC_TEXT, unwrapping=[])
    malformed = broken(20, "L1")
    for name in ("key", "wrapping", "wrapped"):
        yield {member: value for member, value in whole.items() if member != name}, malformed
    for name in ("key", "params", "wrapping", "wrapped", "unwrapping"):
        for value in (None, True, 0, {}):
            yield {**whole, name: value}, malformed
    for name in ("key", "wrapping"):
        for key in [
            "w",
            [],
            {"alias": "w"},
            {"domain": None, "alias": "w"},
            {"domain": -1, "alias": "w"},
            {"domain": 4294967296, "alias": "w"},
            {"domain": 0, "alias": None},
            {"domain": 0, "alias": 1},
            {"domain": 0, "nspace": None, "alias": "w"},
            {"domain": 0, "nspace": 18446744073709551616, "alias": "w"},
            {"domain": 0, "alias": "w", "blob": None},
            {"domain": 0, "alias": "w", "blob": "0"},
        ]:
            yield {**whole, name: key}, malformed
    for wrapped in ("0", MAC_TEXT[:-1], "zz", [], MAC_TEXT + " "):
        yield {**whole, "wrapped": wrapped}, malformed
    for params in ("0", "zz", [["PURPOSE"]], [["PURPOSE", 1, 2]], [[1, 1]], [["NONE", 1]], [["PURPOSE", 4294967296]]):
        yield {**whole, "params": params}, malformed
        yield {**whole, "unwrapping": params}, malformed
    for number, line in enumerate(
        [
            whole,
            {member: value for member, value in whole.items() if member != "unwrapping"},
            {**whole, "unwrapping": "0000"},
            {**whole, "format": None, "material": None, "hold": 7, "forced": 0},
        ],
        2,
    ):
        yield line, {"code": 0, "key": number}
    yield {member: value for member, value in whole.items() if member != "params"}, broken(-4, "K5")


# Keys of older and newer systems.


class Runs(Keys):
    """The runs over one store: each with its system, and how many lines it has."""

    def __init__(self) -> None:
        super().__init__([])
        self.systems: list[tuple[int, int, int]] = []

    def run(self, os_version: int, patch: int, some: Callable[[Keys], None]) -> None:
        before, self.begun = len(self.rows), 0
        self.put(connect(10001), {"code": 0, "client": 1})
        some(self)
        self.systems.append((os_version, patch, len(self.rows) - before))


def versions() -> Runs:
    """Three keys that wrap, of which two are of an older system; one has ids."""
    rows = Runs()

    def first(rows: Keys) -> None:
        rows.key(OWN, "w", WRAPPING, material=KEY.hex())
        rows.key(OWN, "i", [*WRAPPING, *IDS], material=KEY.hex())
        rows.key(OWN, "p", CIPHER, material=KEY.hex())
        rows.comes(OWN, named("k"), PARAMS, named("w"), MAC_TEXT)

    def is_old(rows: Keys) -> None:
        for wrapped, params in [(WRAPPED, CIPHER), ("", "00")]:
            rows.refuses(named("w"), broken(-62, "K21"), wrapped=wrapped, params=params)
            rows.refuses(named("i"), broken(-62, "K21"), wrapped=wrapped, params=params, unwrapping=IDS)
            rows.refuses(named("i"), broken(-33, "K21"), wrapped=wrapped, params=params)
            rows.refuses(named("p"), broken(-62, "K21"), wrapped=wrapped, params=params)
            rows.refuses(named("w"), broken(-40, "K21"), wrapped=wrapped, params=params, unwrapping="00")

    def second(rows: Keys) -> None:
        is_old(rows)
        rows.put(call(OWN, "upgradeKey", key=named("w")), OK)
        rows.comes(OWN, named("k"), PARAMS, named("w"), MAC_TEXT)
        rows.signs(OWN, named("k"))

    def is_new(rows: Keys) -> None:
        for wrapped, params in [(WRAPPED, CIPHER), ("", "00")]:
            rows.refuses(named("w"), broken(-33, "K21"), wrapped=wrapped, params=params)

    def last(rows: Keys) -> None:
        is_new(rows)
        rows.comes(OWN, named("k"), PARAMS, named("i"), MAC_TEXT, unwrapping=IDS)
        rows.signs(OWN, named("k"))

    rows.run(DEMO_OS, DEMO_PATCH - 1, first)
    rows.run(DEMO_OS, DEMO_PATCH, second)
    rows.run(DEMO_OS + 1, DEMO_PATCH - 1, is_new)
    rows.run(DEMO_OS + 1, DEMO_PATCH, is_old)
    rows.run(DEMO_OS, DEMO_PATCH - 1, last)
    return rows


def main() -> None:
    into, runs = folder_of(__doc__), versions()
    write(into, "wrapped-rules", rules().rows)
    write(into, "wrapped-keys", keys().rows)
    write(into, "wrapped-lines", lines())
    write(into, "wrapped-versions", runs.rows)
    systems = "".join(" ".join(map(str, system)) + "\n" for system in runs.systems)
    (into / "wrapped-versions.systems").write_text(systems, encoding="utf-8")
