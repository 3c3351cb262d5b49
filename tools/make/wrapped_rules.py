"""The rules of importWrappedKey, each broken alone, and each two that can be broken at once: the rows of the script
wrapped-rules, of which `wrapped_checks.py` has the others. The earlier rule is told."""
from __future__ import annotations

import itertools
from collections.abc import Callable, Iterator
from dataclasses import dataclass, field, replace
from typing import Any

from cryptography.hazmat.primitives.keywrap import aes_key_wrap

from keystore.lines import APP, BLOB, KEY_ID, OK, SELINUX, Line, Rows, broken, call, made, named, numbered
from keystore.script_events import encoded_list
from make.blob_checks import with_ids

OWN, OTHER, SYSTEM = range(1, 4)
UIDS = [10001, 10002, 1000]
FREE = ["NO_AUTH_REQUIRED", True]
WRAPPING = [["PURPOSE", 5], ["ALGORITHM", 32], FREE]
# The wrapping key of the standard's first vector (RFC 3394 section 4.1), and its text.
KEY, PLAIN = bytes(range(16)), bytes.fromhex("00112233445566778899aabbccddeeff")
IDS = with_ids([], "6162", "")
RAW = 3


def wrapped_import(client: int, key: Line, params: Any, wrapping: Line, wrapped: str, **fields: Any) -> Line:
    return call(client, "importWrappedKey", key=key, params=params, wrapping=wrapping, wrapped=wrapped, **fields)


@dataclass
class Wish:
    """A wrapped import, by its parts: a fault is a change of some of them."""

    client: int = OWN
    key: Line = field(default_factory=lambda: named("k"))
    params: list[Any] = field(default_factory=list)
    text: bytes = PLAIN
    wrapping: frozenset[str] = frozenset()
    unwrapping: Any = None
    is_turned: bool = False
    is_short: bool = False
    is_cut: bool = False

    def line(self) -> Line:
        wrapped = bytearray(aes_key_wrap(KEY, self.text))
        wrapped[-1] ^= self.is_turned
        wrapping = WRAPPING_KEYS[self.wrapping]
        more = {} if self.unwrapping is None else {"unwrapping": self.unwrapping}
        text = wrapped[: len(wrapped) - self.is_short].hex()
        return wrapped_import(self.client, self.key, self.spelled(), wrapping, text, **more)

    def spelled(self) -> Any:
        """Its list, as pairs, or cut as hex text."""
        return encoded_list(self.params)[:-1].hex() if self.is_cut else self.params

    def in_the_clear(self, form: int) -> Line:
        """The same key as an importKey of a format."""
        return {**made(self.client, self.key, self.spelled(), self.text.hex()), "format": form}


# The keys of wrapped-rules: own ones of an app, of the same names with the system, and those of another app, which
# nobody else may use, by their numbers.
NAMES = ["w", "i", "p", "pi"]
FOREIGN = {name: numbered(KEY_ID, 2 * len(NAMES) + place) for place, name in enumerate(NAMES, 1)}
# The wrapping key by what is wrong with it.
WRAPPING_KEYS: dict[frozenset[str], Line] = {
    frozenset(wrong): key
    for wrong, key in [
        ((), named("w")),
        (("form",), named(None)),
        (("row",), named("w", SELINUX, 101)),
        (("form", "row"), named(None, SELINUX, 101)),
        (("absent",), named("none")),
        (("row", "absent"), named("none", SELINUX, 101)),
        (("form", "absent"), named("")),
        (("foreign",), FOREIGN["w"]),
        (("ids",), named("i")),
        (("plain",), named("p")),
        (("foreign", "ids"), FOREIGN["i"]),
        (("foreign", "plain"), FOREIGN["p"]),
        (("ids", "plain"), named("pi")),
    ]
}
AES = [["PURPOSE", 0], ["ALGORITHM", 32], ["BLOCK_MODE", 32], ["PADDING", 1], ["MIN_MAC_LENGTH", 128], FREE]
HMAC = [["PURPOSE", 2], ["ALGORITHM", 128], ["DIGEST", 4], ["MIN_MAC_LENGTH", 64], FREE]
Change = Callable[[Wish], Wish]


def adds(*pairs: list[Any]) -> Change:
    return lambda wish: replace(wish, params=[*wish.params, *pairs])


def lacks(*names: str) -> Change:
    return lambda wish: replace(wish, params=[pair for pair in wish.params if pair[0] not in names])


def has(**parts: Any) -> Change:
    return lambda wish: replace(wish, **parts)


def wraps_wrong(wrong: str) -> Change:
    return lambda wish: replace(wish, wrapping=wish.wrapping | {wrong})


def without_right(wish: Wish) -> Wish:
    """In a namespace in which nobody may make a key."""
    domain = SELINUX if wish.key["domain"] == APP else BLOB
    return replace(wish, key={**wish.key, "domain": domain, "nspace": 101})


def counted_blob(wish: Wish) -> Wish:
    """A blob with a count of its uses, of the system."""
    params = [*wish.params, ["MAX_USES_PER_BOOT", 1]]
    return replace(wish, client=SYSTEM, key={"domain": BLOB, "nspace": 100}, params=params)


def least_length(bits: int) -> Change:
    return lambda wish: adds(["MIN_MAC_LENGTH", bits])(lacks("MIN_MAC_LENGTH")(wish))


@dataclass
class Fault:
    """What breaks a rule: the rule, its code, the change of a wish, and the lists in which it can be."""

    rule: str
    code: int
    change: Change
    lists: tuple[str, ...] = ("AES", "HMAC")
    # Faults that change the same part, of which one alone can be.
    part: str | None = None


LISTS = {"AES": AES, "HMAC": HMAC}
LONG_ID = ["APPLICATION_ID", "61" * 1025]
# In the table's order.
FAULTS = [
    Fault("K1", 20, has(client=9)),
    Fault("K2", 20, lambda wish: replace(wish, key={**wish.key, "blob": "00"})),
    Fault("K3", 6, without_right),
    Fault("K18", 20, wraps_wrong("form")),
    Fault("K18", 6, wraps_wrong("row")),
    Fault("K19", 7, wraps_wrong("absent")),
    Fault("K20", 6, wraps_wrong("foreign")),
    Fault("K21", -21, has(unwrapping=[LONG_ID]), part="unwrapping"),
    Fault("K21", -40, has(unwrapping="00"), part="unwrapping"),
    Fault("K21", -38, has(unwrapping=[FREE, FREE]), part="unwrapping"),
    Fault("K21", -33, wraps_wrong("ids")),
    Fault("K22", -3, wraps_wrong("plain")),
    Fault("K23", -21, has(is_short=True)),
    Fault("K23", -30, has(is_turned=True)),
    Fault("K4", -40, has(is_cut=True), part="reading"),
    Fault("K4", -38, adds(FREE), part="reading"),
    Fault("K4", -21, adds(LONG_ID)),
    Fault("K5", -4, lambda wish: adds(["ALGORITHM", 1])(lacks("ALGORITHM")(wish))),
    Fault("K7", -6, has(text=bytes(40)), ("AES",)),
    Fault("K7", -44, adds(["KEY_SIZE", 192])),
    Fault("K8", -2, adds(["PURPOSE", 4])),
    Fault("K9", -7, adds(["BLOCK_MODE", 4]), ("AES",)),
    Fault("K10", -10, adds(["PADDING", 2]), ("AES",)),
    Fault("K11", -12, lacks("DIGEST"), ("HMAC",)),
    Fault("K12", -58, lacks("MIN_MAC_LENGTH"), part="least"),
    Fault("K12", -59, least_length(97), part="least"),
    Fault("K13", -38, adds(["USER_SECURE_ID", 7])),
    Fault("K14", -38, adds(["USAGE_COUNT_LIMIT", 0])),
    Fault("K14", -39, counted_blob),
    Fault("K15", -73, adds(["EARLY_BOOT_ONLY", True])),
    Fault("K17", -39, adds(["PURPOSE", 5]), ("AES",)),
]


def broken_by(*faults: Fault) -> Wish | None:
    """A wish in which these rules are broken, or None where they cannot be so at once. The later ones are changed
    first: what they change, the earlier ones find."""
    lists = [name for name in LISTS if all(name in it.lists for it in faults)]
    parts = [it.part for it in faults if it.part is not None]
    if not lists or len(parts) > len(set(parts)):
        return None
    wish = Wish(params=LISTS[lists[0]])
    for fault in reversed(faults):
        wish = fault.change(wish)
    return wish if wish.wrapping in WRAPPING_KEYS else None


OF_WRAPPING = ("K18", "K19", "K20", "K21", "K22", "K23")


def in_the_clear() -> Iterator[tuple[Line, Line]]:
    """The last rule, of a key that wraps, and each other one of an importKey besides."""
    last = FAULTS[-1]
    wish = broken_by(last)
    assert wish is not None
    yield wish.in_the_clear(RAW), broken(last.code, last.rule)
    yield wish.in_the_clear(1), broken(-17, "K6")
    for fault in FAULTS[:-1]:
        wish = broken_by(fault, last)
        if fault.rule not in OF_WRAPPING and wish is not None:
            yield wish.in_the_clear(RAW), broken(fault.code, fault.rule)


def rules() -> Rows:
    rows = Rows(UIDS)
    lists = {"w": WRAPPING, "i": [*WRAPPING, *IDS], "p": AES, "pi": [*AES, *IDS]}
    for client in (OWN, SYSTEM, OTHER):
        for name in NAMES:
            rows.key(client, name, lists[name], material=KEY.hex())
    rows.put(call(SYSTEM, "earlyBootEnded"), OK)
    for name, params in LISTS.items():
        rows.keys += 1
        rows.put(Wish(key=named(name), params=params).line(), {"code": 0, "key": rows.keys})
    for count in (1, 2):
        for faults in itertools.combinations(FAULTS, count):
            wish = broken_by(*faults)
            if wish is not None:
                rows.put(wish.line(), broken(faults[0].code, faults[0].rule))
    rows.rows += in_the_clear()
    return rows
