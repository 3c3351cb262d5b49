"""A store, by docs/FORMATS.md ("Store"), beside the program and without its code: the records of its bytes, where they
end or are broken off, and what lasts behind them."""
from __future__ import annotations

from collections.abc import Callable
from typing import Any

from keystore.spelling import Reader, Short, counted, number
from keystore.store_bytes import StoreBytes

# What a store begins with: seven bytes, and the version, which is that of a journal or of a store of areas.
MAGIC, JOURNAL, NEWEST = b"KSJRNL0", b"1", b"2"
HEADER = MAGIC + JOURNAL
# The place behind a journal's last, where a store of areas has its selector; and where the areas begin.
SELECTOR = 268_435_456
AREAS = {"A": 268_439_552, "B": 1_342_181_376}
AREA_BYTES = 1_073_741_824
SELECTS = {"A": b"A", "B": b"B"}
# What stands over the first gate of an area that is left, or behind the front of a store of areas.
SEAL = b"\x4b\xff\xff\xff\xff"
GATE = 0x4B
# How many bytes of an area are read at once.
PIECE = 65_536
# Beside twice its snapshot, so many bytes of records a store may have before it is written anew.
SLACK = 65_536
MOST_KEYS = MOST_GRANTS = 65_536
# Numbers of keys and grants stay below it.
NUMBERS_END = 2**63

# The fields of each kind: numbers by their width in bytes, and counted bytes.
COUNTED = 0
Fields = list[tuple[str, int]]
NAMED: Fields = [("id", 8), ("domain", 1), ("nspace", 8), ("alias", COUNTED), ("blob", COUNTED), ("list", COUNTED)]
GRANTED: Fields = [("grant", 8), ("key", 8), ("uid", 4), ("bits", 4)]
# The kinds of changes that a journal has; those of the rows of a snapshot; and the change that stands in areas alone.
KINDS: dict[int, tuple[str, Fields]] = {
    1: ("Create", [*NAMED, ("limit", 4)]),
    2: ("Delete", [("id", 8)]),
    3: ("Use", [("id", 8)]),
    4: ("Grant", GRANTED),
    5: ("Ungrant", [("grant", 8)]),
    6: ("Clear", [("domain", 1), ("nspace", 8)]),
    7: ("Removed", [("user", 4)]),
}
ROWS: dict[int, tuple[str, Fields]] = {
    8: ("Next", [("key", 8), ("grant", 8)]),
    9: ("Held", [*NAMED, ("limit", 4), ("left", 4)]),
    10: ("HeldGrant", GRANTED),
}
UPGRADE = 11
AREA_KINDS = {**KINDS, **ROWS, UPGRADE: ("Upgrade", [("id", 8), ("blob", COUNTED), ("list", COUNTED)])}


def spelled_body(kind: int, values: list[Any]) -> bytes:
    out = bytes([kind])
    for (_, form), value in zip(AREA_KINDS[kind][1], values):
        out += counted(value) if form == COUNTED else number(value, form)
    return out


def framed(kind: int, values: list[Any]) -> bytes:
    return bytes([GATE]) + counted(spelled_body(kind, values))


def read_body(body: bytes, kinds: dict[int, tuple[str, Fields]]) -> tuple[int, list[Any]] | None:
    """The kind and the values of a body of one of these kinds, or None where it is none."""
    reader = Reader(body)
    try:
        kind = reader.number(1)
        if kind not in kinds:
            return None
        values = [reader.counted() if form == COUNTED else reader.number(form) for _, form in kinds[kind][1]]
    except Short:
        return None
    return None if reader.data else (kind, values)


# A record: the place of its gate, its kind and its values.
Record = tuple[int, int, list[Any]]


# The records of bytes, and where they end, or the place where they are broken off.
Read = tuple[list[Record], int | None, int | None]


def read_records(store: StoreBytes, start: int, limit: int, kinds: dict[int, tuple[str, Fields]]) -> Read:
    """The records of these kinds from a place on that stand before a limit."""
    end = min(limit, store.size)
    at = piece_at = start
    piece, records = b"", []

    def take(place: int, count: int) -> bytes:
        nonlocal piece_at, piece
        if place + count > piece_at + len(piece):
            piece_at, piece = place, store.take(place, min(max(count, PIECE), end - place))
        return piece[place - piece_at : place - piece_at + count]

    while at < end and take(at, 1)[0] == GATE:
        length = int.from_bytes(take(at + 1, 4), "big")
        record = read_body(take(at + 5, length), kinds) if at + 5 + length <= end else None
        if record is None:
            return records, None, at
        records.append((at, *record))
        at += 5 + length
    return (records, at, None) if at < end else (records, None, at)


def read_journal(store: bytes) -> Read:
    """The same of a store of the first format, a journal."""
    return read_store(StoreBytes.of(store)) if store[: len(HEADER)] == HEADER else ([], None, 0)


def area_of(store: StoreBytes) -> str | None:
    """Which area of a store is selected, or None where it is a journal."""
    if store.take(len(MAGIC), 1) == JOURNAL:
        return None
    return "A" if store.take(SELECTOR, 1) == SELECTS["A"] else "B"


def read_area(store: StoreBytes, area: str) -> Read:
    return read_records(store, AREAS[area], AREAS[area] + AREA_BYTES, AREA_KINDS)


def read_store(store: StoreBytes) -> Read:
    """The records of a journal, or of the area that is selected."""
    if store.take(0, len(MAGIC)) != MAGIC:
        return [], None, 0
    if store.size == len(MAGIC):
        return [], None, len(MAGIC)
    area = area_of(store)
    if area is None:
        return read_records(store, len(HEADER), SELECTOR, KINDS)
    if store.size <= SELECTOR:
        return [], None, SELECTOR
    return read_area(store, area)


def journal_of(records: bytes) -> StoreBytes:
    """A store of the first format with these records."""
    return StoreBytes.of(HEADER + records + b"\0")


def areas_of(records: bytes, area: str = "A") -> StoreBytes:
    """A store of two areas of which one is selected, with these records."""
    front = StoreBytes.of(MAGIC + NEWEST + SEAL).put(SELECTOR, SELECTS[area])
    return front.put(AREAS[area], records + b"\0")


EMPTY = areas_of(b"")


# A key or a grant, its fields by name.
Row = dict[str, Any]


def is_same(key: Row, other: Row) -> bool:
    """Whether two keys have one owner and one alias."""
    return all(key[name] == other[name] for name in ("domain", "nspace", "alias"))


def may_be_key(key: Row) -> bool:
    """Whether a key's owner, alias, blob and list are such as a new key has."""
    try:
        key["alias"].decode("utf-8")
    except UnicodeDecodeError:
        return False
    owner: bool = key["domain"] == 2 or (key["domain"] == 0 and key["nspace"] < 2**32)
    return owner and 1 <= len(key["alias"]) <= 256 and are_short(key["blob"], key["list"])


def are_short(blob: bytes, list: bytes) -> bool:
    """Whether a blob and a list are no longer than those of a key may be."""
    return len(blob) <= 6327 and len(list) <= 4140


class Lasting:
    """The keys, the grants and the next numbers, and which records there were: none, rows alone, or a change."""

    def __init__(self) -> None:
        self.keys: list[Row] = []
        self.grants: list[Row] = []
        self.next_key, self.next_grant = 1, 1
        self.rows, self.changed = 0, False

    def snapshot(self) -> bytes:
        """The rows that stand for the same."""
        rows = [(8, [self.next_key, self.next_grant])]
        for kind, held, number in ((9, self.keys, "id"), (10, self.grants, "grant")):
            names = [name for name, _ in ROWS[kind][1]]
            rows += [(kind, [row[name] for name in names]) for row in sorted(held, key=lambda row: row[number])]
        return b"".join(framed(kind, values) for kind, values in rows)

    def drop_keys(self, ends: Callable[[Row], object]) -> None:
        ended = {key["id"] for key in self.keys if ends(key)}
        self.keys = [key for key in self.keys if key["id"] not in ended]
        self.grants = [row for row in self.grants if row["key"] not in ended]

    def key(self, number: int) -> Row | None:
        return next((key for key in self.keys if key["id"] == number), None)

    def apply(self, kind: int, values: list[Any]) -> bool:
        """Takes a record, and tells whether its need was met."""
        name, forms = AREA_KINDS[kind]
        fields = dict(zip((name for name, _ in forms), values))
        is_row = kind in ROWS
        is_met: bool = not (is_row and self.changed) and getattr(self, name.lower())(**fields)
        if is_met:
            self.rows, self.changed = self.rows + is_row, self.changed or not is_row
        return is_met

    def next(self, key: int, grant: int) -> bool:
        if self.rows or not all(1 <= number <= NUMBERS_END for number in (key, grant)):
            return False
        self.next_key, self.next_grant = key, grant
        return True

    def held(
        self, id: int, domain: int, nspace: int, alias: bytes, blob: bytes, list: bytes, limit: int, left: int
    ) -> bool:
        key = {"id": id, "domain": domain, "nspace": nspace, "alias": alias, "blob": blob, "list": list}
        behind = all(held["id"] < id for held in self.keys) and not any(is_same(held, key) for held in self.keys)
        uses = left <= limit and (limit == 0 or left >= 1)
        if not (1 <= id < self.next_key and behind and uses and may_be_key(key) and len(self.keys) < MOST_KEYS):
            return False
        self.keys.append({**key, "limit": limit, "left": left})
        return True

    def heldgrant(self, grant: int, key: int, uid: int, bits: int) -> bool:
        behind = all(held["grant"] < grant for held in self.grants)
        other = not any((held["key"], held["uid"]) == (key, uid) for held in self.grants)
        place = len(self.grants) < MOST_GRANTS and self.key(key) is not None
        if not (1 <= grant < self.next_grant and behind and other and place):
            return False
        self.grants.append({"grant": grant, "key": key, "uid": uid, "bits": bits})
        return True

    def create(self, id: int, domain: int, nspace: int, alias: bytes, blob: bytes, list: bytes, limit: int) -> bool:
        key = {"id": id, "domain": domain, "nspace": nspace, "alias": alias, "blob": blob, "list": list}
        place = sum(not is_same(held, key) for held in self.keys) < MOST_KEYS
        if not (id == self.next_key and id < NUMBERS_END and may_be_key(key) and place):
            return False
        self.drop_keys(lambda held: is_same(held, key))
        self.keys.append({**key, "limit": limit, "left": limit})
        self.next_key += 1
        return True

    def delete(self, id: int) -> bool:
        if self.key(id) is None:
            return False
        self.drop_keys(lambda key: key["id"] == id)
        return True

    def use(self, id: int) -> bool:
        key = self.key(id)
        if key is None or key["left"] == 0:
            return False
        key["left"] -= 1
        if key["left"] == 0:
            self.drop_keys(lambda other: other["id"] == id)
        return True

    def grant(self, grant: int, key: int, uid: int, bits: int) -> bool:
        held = next((row for row in self.grants if (row["key"], row["uid"]) == (key, uid)), None)
        if self.key(key) is None:
            return False
        if held is not None:
            if held["grant"] != grant:
                return False
            held["bits"] = bits
            return True
        if grant != self.next_grant or grant >= NUMBERS_END or len(self.grants) >= MOST_GRANTS:
            return False
        self.grants.append({"grant": grant, "key": key, "uid": uid, "bits": bits})
        self.next_grant += 1
        return True

    def ungrant(self, grant: int) -> bool:
        left = [row for row in self.grants if row["grant"] != grant]
        met = len(left) < len(self.grants)
        self.grants = left
        return met

    def clear(self, domain: int, nspace: int) -> bool:
        if domain not in (0, 2):
            return False
        self.drop_keys(lambda key: (key["domain"], key["nspace"]) == (domain, nspace))
        return True

    def removed(self, user: int) -> bool:
        if user > 42949:
            return False
        self.drop_keys(lambda key: key["domain"] == 0 and key["nspace"] // 100000 == user)
        return True

    def upgrade(self, id: int, blob: bytes, list: bytes) -> bool:
        key = self.key(id)
        if key is None or not are_short(blob, list):
            return False
        key["blob"], key["list"] = blob, list
        return True


def lasting_in(store: StoreBytes) -> tuple[Lasting, int | None]:
    """What the records of a store leave, and the place of what is wrong first, or None where they stand for it."""
    records, _, broken = read_store(store)
    lasting = Lasting()
    unmet = next((at for at, kind, values in records if not lasting.apply(kind, values)), None)
    return lasting, unmet if broken is None else broken


def live_keys(store: StoreBytes) -> int | None:
    """How many keys live, in one pass, or None where the bytes are no store. The needs of records are not judged."""
    records, _, broken = read_store(store)
    live: dict[int, tuple[int, int, bytes, int]] = {}
    numbers: dict[tuple[int, int, bytes], int] = {}

    def end(number: int | None) -> None:
        key = None if number is None else live.pop(number, None)
        if key is not None and numbers.get(key[:3]) == number:
            del numbers[key[:3]]

    for _, kind, values in records:
        if kind in (1, 9):
            number, domain, nspace, alias, *_ = values
            end(numbers.get((domain, nspace, alias)))
            live[number], numbers[domain, nspace, alias] = (domain, nspace, alias, values[-1]), number
        elif kind == 2:
            end(values[0])
        elif kind == 3 and values[0] in live:
            domain, nspace, alias, left = live[values[0]]
            live[values[0]] = (domain, nspace, alias, left - 1)
            if left == 1:
                end(values[0])
        elif kind in (6, 7):
            ended = [it for it, key in live.items() if is_of(key, kind, values)]
            for number in ended:
                end(number)
    return len(live) if broken is None else None


def is_of(key: tuple[int, int, bytes, int], kind: int, values: list[int]) -> bool:
    """Whether a record that clears an owner's keys, or a user's, ends a key."""
    return list(key[:2]) == values if kind == 6 else key[0] == 0 and key[1] // 100000 == values[0]


# A store of three records: a key, a grant of it, one use.
THREE = [(1, [1, 0, 10001, b"m", b"\xaa\xbb\xcc", b"\0\0", 2]), (4, [1, 1, 10002, 256]), (3, [1])]
