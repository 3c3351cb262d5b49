"""The tables of made stores that stand in the tests of `use_journal` and `journal_records`.

    tools/ks make stores --stores    prints the digest of 1,000 stores
    tools/ks make stores --damage    prints the tables of damaged stores
    tools/ks make stores --records   prints a record of each kind of change
    tools/ks make stores --needs     prints records behind others, and whether their needs are met
    tools/ks make stores --snapshots prints the digest of 1,000 snapshots"""
from keystore.harness import parser_of
from keystore.store import (
    AREA_KINDS,
    COUNTED,
    HEADER,
    KINDS,
    NUMBERS_END,
    ROWS,
    THREE,
    UPGRADE,
    Lasting,
    framed,
    read_journal,
)


class Draws:
    """xorshift64*, of a seed that is not 0."""

    def __init__(self, seed):
        self.state = seed

    def next(self):
        x = self.state
        x ^= x >> 12
        x ^= (x << 25) % 2**64
        x ^= x >> 27
        self.state = x
        return x * 2685821657736338717 % 2**64

    def value(self, form):
        if form != COUNTED:
            return self.next() % 2 ** (8 * form)
        count = self.next() % 12
        return bytes(self.next() % 256 for _ in range(count))


def digest(bytes_, state):
    """FNV-1a of 64 bits."""
    for byte in bytes_:
        state = (state ^ byte) * 0x100000001B3 % 2**64
    return state


def random_stores(count=1000):
    """The digest of so many stores of random changes, each followed by what is read once one of its bytes was
    changed."""
    draws, state = Draws(1), 0xCBF29CE484222325
    for _ in range(count):
        store = HEADER
        for _ in range(draws.next() % 8):
            kind = 1 + draws.next() % 7
            store += framed(kind, [draws.value(form) for _, form in KINDS[kind][1]])
        store += b"\0"
        place, byte = draws.next() % len(store), draws.next() % 256
        state = digest(store, state)
        damaged = store[:place] + bytes([byte]) + store[place + 1 :]
        records, end, broken = read_journal(damaged)
        read = (len(records), end) if broken is None else (2**64 - 1, broken)
        state = digest(b"".join(number.to_bytes(8, "big") for number in read), state)
    return state


# What a drawn table is made of.
DRAWN_OWNERS = [(0, 10001), (0, 10002), (0, 110001), (2, 100)]
DRAWN_ALIASES = [b"m", b"n", "ö".encode(), b"key key key key"]
DRAWN_KINDS = [1, 1, 1, 1, 1, 3, 4, 11, 2, 5]


def drawn_change(draws, lasting):
    """A change whose need may not be met."""
    kind = DRAWN_KINDS[draws.next() % 10]
    if kind == 1:
        owner, alias = DRAWN_OWNERS[draws.next() % 4], DRAWN_ALIASES[draws.next() % 4]
        blob, params = draws.value(COUNTED), draws.value(COUNTED)
        return kind, [lasting.next_key, *owner, alias, blob, params, draws.next() % 3]
    if kind == 4:
        key = 1 + draws.next() % lasting.next_key
        return kind, [lasting.next_grant, key, 10002 + draws.next() % 2, 256]
    if kind == 5:
        return kind, [1 + draws.next() % lasting.next_grant]
    key = 1 + draws.next() % lasting.next_key
    return kind, [key, draws.value(COUNTED), draws.value(COUNTED)] if kind == 11 else [key]


def random_snapshots(count=1000):
    """The digest of the snapshots of so many tables of drawn changes, of which those are made whose need is met."""
    draws, state = Draws(3), 0xCBF29CE484222325
    for _ in range(count):
        lasting = Lasting()
        for _ in range(draws.next() % 24):
            lasting.apply(*drawn_change(draws, lasting))
        state = digest(lasting.snapshot(), state)
    return state


def letter(store, gates):
    """'.' for a journal, 'h' where the header is not there, and else the letter of the gate where it is broken off."""
    _, end, broken = read_journal(store)
    return "." if broken is None else "h" if broken == 0 else chr(ord("a") + gates.index(broken))


def print_damage():
    store, gates = HEADER, []
    for kind, values in THREE:
        gates.append(len(store))
        store += framed(kind, values)
    gates.append(len(store))
    store += b"\0"
    print("store", store.hex(), "gates", gates)
    for byte in (0x00, 0x4B, 0xFF):
        damaged = (store[:at] + bytes([byte]) + store[at + 1 :] for at in range(len(store)))
        print(f"{byte:02x}", "".join(letter(bytes_, gates) for bytes_ in damaged))
    print("cut", "".join(letter(store[:size], gates) for size in range(len(store) + 1)))


# The records of an area: its next numbers; key 2 of uid 10001, m, with two uses left of three; grant 3 of it to uid
# 10002; a use of it; the new key 5, n, of the same owner; and the end of key 2.
KEY = [2, 0, 10001, b"m", b"\xaa", b"", 3, 2]
NEW_KEY = [5, 0, 10001, b"n", b"\xaa", b"", 0]
FRONT = [(8, [5, 9]), (9, KEY), (10, [3, 2, 10002, 256]), (3, [2]), (1, NEW_KEY), (2, [2])]


def key_with(**fields):
    """A key that may be held behind the first, but for these fields."""
    names = [name for name, _ in AREA_KINDS[9][1]]
    values = [3, 0, 10001, b"n", b"\xaa", b"", 0, 0]
    return (9, [fields.get(name, value) for name, value in zip(names, values)])


OVER = NUMBERS_END + 1
NUMBERS = [(1, 1), (NUMBERS_END, NUMBERS_END), (0, 1), (1, 0), (OVER, 1), (1, OVER)]
OWNERS = [(0, 2**32 - 1), (0, 2**32), (1, 1), (2, 2**32)]
# How many of them stand before, and a record behind those.
NEEDS = [
    # the next numbers: first of all, from 1 to 2^63
    *((0, (8, [*numbers])) for numbers in NUMBERS),
    *((count, FRONT[0]) for count in (1, 2, 3, 4)),
    # a key: its number given, above the others; owner, alias, blob and list as a new key has them; and its uses
    (0, FRONT[1]),
    *((2, key_with(id=number)) for number in (0, 1, 2, 3, 4, 5)),
    *((2, key_with(domain=domain, nspace=nspace)) for domain, nspace in OWNERS),
    *((2, key_with(alias=alias)) for alias in (b"", b"\xff", b"m")),
    (2, key_with(domain=2, alias=b"m")),
    *((2, key_with(limit=limit, left=left)) for limit, left in ((0, 1), (1, 0), (1, 1), (2, 1), (2, 3))),
    (3, key_with()),
    (4, key_with()),
    # a grant: its number given, above the others; a live key that is not granted to that uid
    *((2, (10, [number, 2, 10002, 256])) for number in (0, 1, 8, 9)),
    (2, (10, [3, 3, 10002, 256])),
    *((3, (10, [number, 2, uid, 256])) for number, uid in ((2, 10003), (3, 10003), (4, 10002), (4, 10003))),
    (4, (10, [4, 2, 10003, 256])),
    # a change stands behind any of them
    *((count, (3, [2])) for count in (0, 1, 2, 3, 4)),
    # another blob and list: of a live key, behind the rows of a snapshot and behind a new key
    *((count, (UPGRADE, [2, b"\xbb\xcc", b"\0"])) for count in (0, 1, 2, 3, 4, 5, 6)),
    *((count, (UPGRADE, [5, b"", b""])) for count in (4, 5, 6)),
]


def print_needs():
    for kind, values in FRONT:
        print(framed(kind, values).hex())
    for count, (kind, values) in NEEDS:
        lasting = Lasting()
        assert all(lasting.apply(*record) for record in FRONT[:count])
        print(count, framed(kind, values).hex(), lasting.apply(kind, values))


def main():
    parser = parser_of(__doc__)
    ways = parser.add_mutually_exclusive_group(required=True)
    ways.add_argument("--stores", action="store_true", help="print the digest of 1,000 stores")
    ways.add_argument("--damage", action="store_true", help="print the tables of damaged stores")
    ways.add_argument("--records", action="store_true", help="print a record of each kind")
    ways.add_argument("--snapshots", action="store_true", help="print the digest of 1,000 snapshots")
    ways.add_argument("--needs", action="store_true", help="print records behind others, and whether they may stand")
    given = parser.parse_args()
    if given.needs:
        print_needs()
    elif given.stores:
        print(f"{random_stores():016x}")
    elif given.snapshots:
        print(f"{random_snapshots():016x}")
    elif given.damage:
        print_damage()
    else:
        draws = Draws(7)
        for kind, (name, fields) in AREA_KINDS.items():
            if kind in ROWS:
                continue
            print(name, framed(kind, [draws.value(form) for _, form in fields]).hex())
