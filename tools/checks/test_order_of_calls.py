"""What the program asks of the system for its store, in which order, and when a reply leaves: no clause says that the
adapter of a file makes the calls that it answers for.

The library `store_calls.c` notes each call that reaches the file, or syncs its folder, and each reply that is written.
An empty store is a file that its folder names, a sync of the folder, and three writes with a sync behind each. An
opening is a look whether the path still leads there, a sync, and reads of the front, the selector and the records. Of
each change that is acknowledged the body is written behind the shut gate, and synced; the gate is opened, and synced;
each time with a look at the path before the sync; and then its reply leaves. So it is in a run over every act that
writes a record, and in a service over a port. What changes nothing makes no call. Where one of a change's calls failed,
the next call of a client first writes again what that sync was to bring, where one failed, makes one sync and reads one
byte, the gate."""
import json
import os
import subprocess

from keystore.cases import Case, each, needs_compiler
from keystore.every_act import EVERY_ACT, MADE_BEFORE, OLDER, Line
from keystore.harness import check
from keystore.lines import call
from keystore.runs import PATIENCE, make_store_on, once_it_listens, service
from keystore.store import AREAS, EMPTY, HEADER, MAGIC, NEWEST, SEAL, SELECTOR, read_store
from keystore.store_bytes import StoreBytes
from keystore.store_calls import How, Note, StoreCalls
from keystore_client import Client, Key, ServiceError, parameters

OPENING = ["opening", "length", "lock"]
SYNC = ["look at the path", "sync"]
# What an opening reads at once.
PIECE = 65_536
MAC = {"PURPOSE": [2, 3], "ALGORITHM": 128, "DIGEST": [4], "MIN_MAC_LENGTH": 64, "NO_AUTH_REQUIRED": True}
SIGNING = parameters(PURPOSE=[2], MAC_LENGTH=256)
CONNECT, IMPORT = EVERY_ACT[0], EVERY_ACT[4]
LOOK = Line(call(1, "getKeyEntry", key=IMPORT.members["key"]))


def text_of(lines):
    return "".join(json.dumps(it.members) + "\n" for it in lines).encode()


def told(notes):
    return [str(it) for it in notes]


def write(place, count):
    return str(Note("w", place, count))


def reading(size):
    """The calls by which a store of a size is read, where its records are less than a piece: the front, the selector,
    and the piece from its first area on, whose end two reads that give nothing show, one for what of the piece is not
    there and one for what might follow the last gate."""
    records = AREAS["A"]
    reads = [(0, len(HEADER)), (SELECTOR, 1), (records, PIECE), (size, PIECE - (size - records)), (size, PIECE)]
    return [*SYNC, *(str(Note("r", *it)) for it in reads)]


def change(gate, end):
    """The calls of a change whose record begins with a gate at a place, and which ends before another."""
    return [write(gate + 1, end - gate), *SYNC, write(gate, 1), *SYNC]


def changes_in(store):
    """The places of a store's records, each with where it ends."""
    records, end, _ = read_store(store)
    places = [gate for gate, *_ in records] + [end]
    return list(zip(places, places[1:]))


@needs_compiler
class OverTheCalls(Case):
    def setUp(self):
        self.calls = StoreCalls(self.folder)
        self.calls.begin()

    def ran(self, *words, script=b""):
        done = subprocess.run(
            [self.program, *words],
            input=script,
            cwd=self.folder,
            env={**os.environ, **self.calls.environment()},
            capture_output=True,
            timeout=PATIENCE,
            check=False,
        )
        check(" ".join(words), done.returncode, 0)
        return done.stdout.splitlines()

    def store(self):
        return StoreBytes.read(self.folder / "store.ks")


class InARun(OverTheCalls):
    def test_an_empty_store_is_written_and_synced(self):
        self.ran("init")
        check(
            "the calls",
            told(self.calls.notes()),
            [
                *["opening", "look at the path", *OPENING, "sync of the folder"],
                *[write(AREAS["A"], 1), *SYNC, write(SELECTOR, 1), *SYNC, write(0, len(MAGIC + NEWEST + SEAL)), *SYNC],
            ],
        )

    def test_each_reply_leaves_behind_its_change(self):
        make_store_on(self.program, self.folder, OLDER, text_of(MADE_BEFORE))
        before = changes_in(self.store())
        size = before[-1][1] + 1
        self.calls.begin()
        replies = self.ran("run", script=text_of(EVERY_ACT))
        check("the replies", {json.loads(it)["code"] for it in replies}, {0, 7, -62})
        changes = iter(changes_in(self.store())[len(before) :])
        wanted = [*OPENING, *reading(size)]
        for line in EVERY_ACT:
            if line.writes:
                gate, size = next(changes)
                wanted += change(gate, size)
                size += 1
            if line.members["do"] == "restart":
                wanted += reading(size)
            wanted.append("reply")
        check("the calls", told(self.calls.notes()), wanted)
        check("changes without a line", list(changes), [])


@each(
    [
        (f"the {name} failed", place)
        for place, name in enumerate(
            ["body", "look before its sync", "body's sync", "gate", "look before its sync", "gate's sync"]
        )
    ]
)
class Settling(OverTheCalls):
    """What settles a change of which one call failed."""

    def show(self, place):
        lines = [CONNECT, IMPORT, LOOK]
        self.ran("init")
        self.ran("run", script=text_of(lines))
        [(gate, end)] = changes_in(self.store())
        calls = change(gate, end)
        self.ran("init")
        before = [*OPENING, *reading(EMPTY.size)]
        self.calls.begin(len(before) + place, How.FAILS)
        kept = place > 3
        codes = [it.get("code", it.get("settled")) for it in map(json.loads, self.ran("run", script=text_of(lines)))]
        check("the replies", codes, [0, 4, "kept", 0] if kept else [0, 4, "lost", 7])
        again = []
        if calls[place] in SYNC:
            where, count = (gate, 1) if kept else (gate + 1, end - gate)
            again = [str(Note("r", where, count)), write(where, count)]
        wanted = [*before, "reply", *calls[: place + 1], "reply", *again, *SYNC, str(Note("r", gate, 1)), "reply"]
        check("the calls", told(self.calls.notes()), wanted)


class InAService(OverTheCalls):
    def test_each_reply_leaves_behind_its_change(self):
        self.ran("init")
        self.calls.begin()
        with service(self.program, self.folder, 1, environment=self.calls.environment()) as port:
            with once_it_listens(Client.connect, 10001, "127.0.0.1", port) as client:
                client.importKey(Key("m"), parameters(**MAC), b"\x0b" * 20)
                client.importKey(Key("once"), parameters(**MAC, USAGE_COUNT_LIMIT=1), b"\x0b" * 20)
                client.finish(client.createOperation(Key("once"), SIGNING).op, b"Hi There")
                with self.assertRaises(ServiceError):
                    client.createOperation(Key("once"), SIGNING)
                client.finish(client.createOperation(Key("m"), SIGNING).op, b"Hi There")
                client.deleteKey(Key("m"))
        made, limited, used, deleted = (change(*it) for it in changes_in(self.store()))
        wanted = [
            *OPENING,
            *reading(EMPTY.size),
            "reply",
            *made,
            "reply",
            *limited,
            "reply",
            "reply",
            *used,
            "reply",
            "reply",
            "reply",
            "reply",
            *deleted,
            "reply",
        ]
        check("the calls", told(self.calls.notes()), wanted)
