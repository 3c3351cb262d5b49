"""Stores whose bytes stand for nothing are refused at their place, and one that is changed beside a run at a restart.

Each need of a change is broken alone, and met at its bound, in a journal of the first format and in both areas; one
key and one grant too many; and a store of three records has each of its bytes changed, and is cut at each byte, its
marks as its records. `keystore/store.py` reads them all besides. A store that is refused keeps its bytes. Then a run
whose store is changed beside it: a restart reads it again, so it is answered 8 over another lasting part and over a
journal, which leaves all as it was, and goes through once the bytes are back, or others that stand for the same."""
from keystore.cases import Case, each
from keystore.harness import check
from keystore.runs import Run, ended as ended_run
from keystore.store import (
    AREAS,
    EMPTY,
    HEADER,
    MAGIC,
    SEAL,
    SELECTOR,
    SELECTS,
    THREE,
    areas_of,
    framed,
    journal_of,
    lasting_in,
)
from keystore.store_bytes import StoreBytes

MOST = 65_536


def new_key(number=1, domain=0, nspace=10001, alias=b"m", blob=b"\xaa\xbb\xcc", params=b"\0\0", limit=2):
    return framed(1, [number, domain, nspace, alias, blob, params, limit])


def ended(number):
    return framed(2, [number])


def use(number=1):
    return framed(3, [number])


def grant(number=1, uid=10002, bits=256):
    return framed(4, [number, 1, uid, bits])


# PURPOSE 2, ALGORITHM 128, DIGEST 4, MIN_MAC_LENGTH 64 and NO_AUTH_REQUIRED.
HMAC_KEY = [["PURPOSE", 2], ["ALGORITHM", 128], ["DIGEST", 4], ["MIN_MAC_LENGTH", 64], ["NO_AUTH_REQUIRED", True]]

# Key 1, alias m, of uid 10001, with two uses; key 2, alias n, of the same uid, without a limit.
KEY = new_key()
OTHER_KEY = new_key(2, alias=b"n", limit=0)

# Stores by what they show, their records, and the offset of the gate whose record's need is not met, or none, in a
# journal. The gates behind a key stand at 53 there, and behind a grant of it at 83.
STORES = [
    ("no record", [], None),
    ("a key, a grant of it and both its uses", [KEY, grant(), use(), use()], None),
    ("two keys, a grant and a use", [KEY, OTHER_KEY, grant(), use()], None),
    ("a new key with a number ahead", [OTHER_KEY], 8),
    ("a new key with the number of a live one", [KEY, KEY], 53),
    ("a key of domain 1", [new_key(domain=1)], 8),
    ("an app of 33 bits", [new_key(nspace=1 << 32)], 8),
    ("a namespace of 33 bits", [new_key(domain=2, nspace=1 << 32)], None),
    ("no alias", [new_key(alias=b"")], 8),
    ("an alias that is no UTF-8", [new_key(alias=b"\xff")], 8),
    ("the longest alias", [new_key(alias=b"m" * 256)], None),
    ("an alias of 257 bytes", [new_key(alias=b"m" * 257)], 8),
    ("the longest blob", [new_key(blob=b"\xaa" * 6_327)], None),
    ("a blob of a byte more", [new_key(blob=b"\xaa" * 6_328)], 8),
    ("the longest list", [new_key(params=b"\0" * 4_140)], None),
    ("a list of a byte more", [new_key(params=b"\0" * 4_141)], 8),
    ("the end of a key that is not there", [KEY, ended(2)], 53),
    ("a use of a key that is not there", [use()], 8),
    ("a use of a key that is used up", [KEY, use(), use(), use()], 81),
    ("a use of a key without a limit", [KEY, OTHER_KEY, use(2)], 98),
    ("a grant of a key that is not there", [grant()], 8),
    ("a grant with a number ahead", [KEY, grant(2)], 53),
    ("a grant with another number than it has", [KEY, grant(), grant(2, bits=260)], 83),
    ("a grant once more", [KEY, grant(), grant()], None),
    ("the end of a grant that is not there", [KEY, framed(5, [1])], 53),
    ("all keys of domain 1", [framed(6, [1, 10001])], 8),
    ("all keys of user 42950", [framed(7, [42_950])], 8),
    ("all keys of user 42949", [framed(7, [42_949])], None),
    ("a grant of a key that ended with its last use", [KEY, use(), use(), grant()], 81),
    ("of two faults that which is no need though it stands behind", [use(), b"\x4b\x00\x00\x00\x05\x08"], 22),
]


def crowd(keys, aliases, grants):
    """The records of so many keys, with so many aliases in turn, and of so many grants of key 1."""
    return [new_key(key + 1, alias=b"%05x" % (key % aliases)) for key in range(keys)] + [
        grant(it + 1, it + 1) for it in range(grants)
    ]


def crowds():
    """One key and one grant too many; the last key but one takes the alias of the first."""
    length, other = len(new_key(alias=b"00000")), len(grant())
    yield "as many keys as there may be", crowd(MOST + 1, MOST, 0), None
    yield "one key too many", crowd(MOST + 1, MOST + 1, 0), 8 + MOST * length
    yield "as many grants as there may be", crowd(1, 1, MOST), None
    yield "one grant too many", crowd(1, 1, MOST + 1), 8 + length + MOST * other


# The ways in which a store has records: where they begin, and the store.
FORMATS = {
    "a journal": (len(HEADER), journal_of),
    "area A": (AREAS["A"], areas_of),
    "area B": (AREAS["B"], lambda records: areas_of(records, "B")),
}
RECORDS = b"".join(framed(*it) for it in THREE)


def places(start):
    """The places of a store that a reader looks at: those of its marks, and of its records from a place on."""
    marks = [] if start == len(HEADER) else [SELECTOR]
    return [*range(len(HEADER)), *marks, *range(start, start + len(RECORDS) + 1)]


def damaged(start, store):
    """A store of three records with each byte changed to 00, 31, 4b and ff, and cut at each byte."""
    for at in places(start):
        for byte in (0x00, 0x31, 0x4B, 0xFF):
            yield f"{byte:02x} at {at}", store.put(at, bytes([byte]))
    for size in [*places(start), store.size]:
        yield f"cut at {size}", store.cut(size)


def opened(program, store, folder):
    """Where the program finds that the bytes stand for nothing, which it then leaves alone; None where it opens the
    store."""
    path = folder / "store.ks"
    store.write(path)
    status, said, fault = ended_run(program, ["run"], folder)
    if (status, said, fault) == (0, b"", []):
        return None
    check("a store that is refused", StoreBytes.read(path), store)
    text, _, offset = (fault or [b""])[0].rpartition(b" ")
    return int(offset) if (status, text) == (7, b"keystore2: store corrupted at") else f"status {status}: {fault}"


# A client with a key; what tells that both are there.
MADE = [
    {"do": "connect", "uid": 10001},
    {
        "c": 1,
        "do": "importKey",
        "key": {"domain": 0, "nspace": 0, "alias": "m"},
        "params": HMAC_KEY,
        "format": 3,
        "material": "0b" * 32,
    },
]


def at(line):
    return {"t": [0, 1000], **line}


COUNTED = {"c": 1, "do": "getNumberOfEntries", "domain": 0}
IS_THERE, IS_ANOTHER, IS_AGAIN, IS_GONE = {"code": 0, "count": 1}, {"code": 8}, {"code": 0}, {"code": 20, "rule": "A1"}


# Stores that are not the one of a run.
OTHERS = [
    ("no store", lambda store: store.put(0, b"X")),
    ("one without a selector", lambda store: store.cut(SELECTOR)),
    ("one that is cut in its record", lambda store: store.cut(store.size - 2)),
    ("an empty one", lambda store: EMPTY),
    ("one with another key", lambda store: areas_of(KEY)),
    ("one of the first format", lambda store: journal_of(records_of(store))),
    ("one whose other area was sealed", lambda store: store.put(AREAS["B"], SEAL).put(SELECTOR, SELECTS["B"])),
]
# Stores that are another's bytes and stand for the same.
SAME = [
    ("another eighth byte", lambda store: store.put(len(MAGIC), b"X")),
    ("the other area", lambda store: areas_of(records_of(store), "B")),
    ("its snapshot", lambda store: areas_of(lasting_in(store)[0].snapshot())),
    ("its snapshot in the other area", lambda store: areas_of(lasting_in(store)[0].snapshot(), "B")),
]


def records_of(store):
    """The bytes of the records in area A, which has no more behind them than the byte that closes them."""
    return store.take(AREAS["A"], store.size - AREAS["A"] - 1)


class OfTheProgram(Case):
    def check_store(self, store, wanted):
        check(f"the place in {store}", opened(self.program, store, self.folder), wanted)


@each([(f"{name} in {form}", form, records, wanted) for name, records, wanted in STORES for form in FORMATS])
class Needs(OfTheProgram):
    """A store is refused where the need of a change is not met."""

    def show(self, form, records, wanted):
        start, store_of = FORMATS[form]
        store = store_of(b"".join(records))
        wanted = None if wanted is None else wanted - len(HEADER) + start
        self.check_store(store, wanted)
        check("the place by the other reader", lasting_in(store)[1], wanted)


@each([(name, name) for name, *_ in crowds()])
class Bounds(OfTheProgram):
    """65,536 keys and grants, and one more; the other reader is not asked, which looks through all for each record."""

    def show(self, name):
        records, wanted = next(it[1:] for it in crowds() if it[0] == name)
        self.check_store(journal_of(b"".join(records)), wanted)


@each([(form, form) for form in FORMATS])
class Damaged(OfTheProgram):
    """Each byte is changed, and a cut made at each byte."""

    def show(self, form):
        start, store_of = FORMATS[form]
        for what, store in damaged(start, store_of(RECORDS)):
            with self.subTest(what):
                self.check_store(store, lasting_in(store)[1])


@each([*((*row, IS_ANOTHER) for row in OTHERS), *((*row, IS_AGAIN) for row in SAME)])
class ChangedBesideARun(Case):
    def show(self, other, wanted):
        with Run(self.program, self.folder, "--fresh") as run:
            for line in MADE:
                run.reply(at(line))
            path = self.folder / "store.ks"
            store = StoreBytes.read(path)
            other(store).write(path)
            goes_on = wanted == IS_AGAIN
            run.check(
                "over other bytes", [(at({"do": "restart"}), wanted), (at(COUNTED), IS_GONE if goes_on else IS_THERE)]
            )
            if goes_on:
                for line in MADE:
                    run.reply(at(line))
                check("the lasting part", len(lasting_in(StoreBytes.read(path))[0].keys), 1)
            else:
                store.write(path)
                run.check("over its own store", [(at({"do": "restart"}), IS_AGAIN), (at(COUNTED), IS_GONE)])
            run.end("the run")
