"""A store that has grown is written anew into its other area, once it is due and not before, whatever comes amid it.

300 imports under one alias are compacted before the 213th, whose records and snapshot have known lengths; so is a
longer run, there and back, with uses, grants and a cleared owner between, whose replies are the second model's. Each
call of the compaction fails, fails for good, or is the last that the process makes: the change that compacted is
answered 4 and settled as lost, and what was acknowledged is found, in the run and in the next one. So it is where
the system lets the file not grow into area B: the process is ended there, or goes on where its caller ignores the
signal."""
import json
import os
import resource
import signal
import subprocess

from compare.failing_disk import kept_in, left_in
from keystore.cases import Case, each, needs_ciphers, needs_compiler
from keystore.harness import check
from keystore.lines import APP, GRANT, PARAMS, begin, call, connect, made, named, numbered
from keystore.runs import PATIENCE, make_store
from keystore.store import AREAS, SEAL, SELECTOR, SELECTS, area_of, areas_of, framed, lasting_in, read_store
from keystore.store_bytes import StoreBytes
from keystore.store_calls import How, StoreCalls
from model.second_model import Service, reply_line

UID, OTHER, SYSTEM = 10001, 10002, 1000
# The bytes of a record that imports m, and of the snapshot of a store with that key alone.
RECORD, SNAPSHOT = 313, 339
# Before this import the records have more than 65,536 bytes and twice the snapshot.
DUE = 213
LOOK = call(1, "getKeyEntry", key=named("m"))
LOST = {"settled": "lost"}
# As many keys as there may be.
MOST = 65_536


def imports(count):
    """A client, and so many imports under one alias of it."""
    return [connect(UID), *[made(1, named("m"))] * count]


def text_of(lines):
    return b"".join(json.dumps(line, separators=(",", ":")).encode() + b"\n" for line in lines)


class OnAStore(Case):
    def setUp(self):
        make_store(self.program, self.folder)
        self.empty = self.store()

    def store(self):
        return StoreBytes.read(self.folder / "store.ks")

    def ran(self, lines, calls=None, status=0, prepare=None):
        done = subprocess.run(
            [self.program, "run"],
            input=text_of(lines),
            cwd=self.folder,
            env={**os.environ, **(calls.environment() if calls else {})},
            capture_output=True,
            timeout=PATIENCE,
            check=False,
            preexec_fn=prepare,
        )
        check("the status", done.returncode, status)
        return [json.loads(it) for it in done.stdout.splitlines()]

    def check_found(self, numbers):
        """The next run finds the key under one of these numbers."""
        replies = self.ran([connect(UID), LOOK])
        self.assertIn(replies[1].get("key"), numbers)


class OneAlias(OnAStore):
    def test_300_imports_are_compacted_before_the_213th(self):
        replies = self.ran(imports(DUE - 1))
        check("the keys", [it["key"] for it in replies[1:]], list(range(1, DUE)))
        store = self.store()
        records, end, _ = read_store(store)
        check("before it", (area_of(store), len(records), end - AREAS["A"]), ("A", DUE - 1, (DUE - 1) * RECORD))
        self.ran(imports(300 - DUE + 1))
        store = self.store()
        _, end, _ = read_store(store)
        check("behind it", (area_of(store), end - AREAS["B"]), ("B", SNAPSHOT + (300 - DUE + 1) * RECORD))
        check("the selector", store.take(SELECTOR, 1), SELECTS["B"])
        check("the area that was left", store.take(AREAS["A"], len(SEAL)), SEAL)
        self.check_found([300])


def no_area_b(how):
    """What a process does before it is the program: its files end where area B begins."""

    def prepare():
        resource.setrlimit(resource.RLIMIT_FSIZE, (AREAS["B"], AREAS["B"]))
        signal.signal(signal.SIGXFSZ, how)

    return prepare


class NoRoom(OnAStore):
    def test_the_process_is_ended_by_the_signal(self):
        replies = self.ran(imports(DUE), status=-signal.SIGXFSZ, prepare=no_area_b(signal.SIG_DFL))
        check("the keys", [it["key"] for it in replies[1:]], list(range(1, DUE)))
        self.check_found([DUE - 1])

    def test_where_the_signal_is_ignored_the_change_is_lost(self):
        replies = self.ran([*imports(DUE), LOOK], prepare=no_area_b(signal.SIG_IGN))
        check("the change and the look", replies[DUE:-1], [{"code": 4}, LOST])
        check("the key", replies[-1]["key"], DUE - 1)
        self.check_found([DUE - 1])


@needs_compiler
@each([(how.name, how) for how in (How.FAILS, How.FAILS_ON, How.HAS_NO_ROOM, How.DIES_BEFORE, How.DIES_BEHIND)])
class EachCall(OnAStore):
    """Each call of a compaction, and of the change behind it, ends otherwise."""

    def show(self, how):
        calls = StoreCalls(self.folder)
        calls.begin()
        self.ran(imports(DUE), calls)
        asked = calls.calls()
        first = next(place for place, it in enumerate(asked) if it.kind == "w" and it.place == AREAS["B"])
        behind = AREAS["B"] + SNAPSHOT + 1
        append = next(place for place, it in enumerate(asked) if it.kind == "w" and it.place == behind)
        check("the calls of a compaction", "".join(it.kind for it in asked[first:append]), "wps" * 3)
        for place in range(first, len(asked)):
            if how != How.HAS_NO_ROOM or asked[place].kind == "w":
                with self.subTest(call=place - first, kind=str(asked[place])):
                    self.show_call(calls, how, place, place < append)

    def show_call(self, calls, how, place, is_lost):
        self.empty.write(self.folder / "store.ks")
        calls.begin(place, how)
        dies = how in (How.DIES_BEFORE, How.DIES_BEHIND)
        replies = self.ran([*imports(DUE), LOOK], calls, -9 if dies else 0)
        if dies:
            check("the keys", [it["key"] for it in replies[1:]], list(range(1, len(replies))))
            self.check_found([DUE - 1] if is_lost else [DUE - 1, DUE])
            return
        check("the change", replies[DUE], {"code": 4})
        if how == How.FAILS_ON:
            check("the look", replies[DUE + 1 :], [{"code": 4}])
            self.check_found([DUE - 1] if is_lost else [DUE - 1, DUE])
            return
        settled, look = replies[DUE + 1 :]
        if is_lost:
            check("what became of it", settled, LOST)
        check("the key", look["key"], DUE - 1 if settled == LOST else DUE)
        self.check_found([look["key"]])


class Longer:
    """Rebindings until the store was written anew some times, and between them uses, grants and a cleared owner: the
    lines, and what the second model answers."""

    def __init__(self):
        self.service, self.lines, self.replies = Service(slots=16), [], []
        self.client, self.other, self.system = self.connects()
        self.put(made(self.client, named("limited"), [*PARAMS, ["USAGE_COUNT_LIMIT", 40]]))
        self.put(call(self.client, "grant", key=named("limited"), uid=OTHER, bits=256))
        for turn in range(24):
            self.turn(turn)

    def put(self, line):
        self.lines.append(line)
        self.replies.append(json.loads(reply_line(self.service, text_of([line]).rstrip(b"\n"))))
        return self.replies[-1]

    def connects(self):
        return [self.put(connect(uid))["client"] for uid in (UID, OTHER, SYSTEM)]

    def turn(self, turn):
        for number in range(110):
            self.put(made(self.client, named(f"m{number % (turn + 1)}")))
        self.put(made(self.other, named("own")))
        begun = self.put(begin(self.other, numbered(GRANT, 1)))
        self.put(call(self.other, "finish", op=begun["op"], input="00"))
        self.put(call(self.client, "grant", key=named("m0"), uid=OTHER, bits=256 + 4 * (turn % 2)))
        if turn % 5 == 4:
            self.put(call(self.system, "clearNamespace", domain=APP, nspace=OTHER))
        if turn % 6 == 5:
            self.put({"t": [0, 1000], "do": "restart"})
            self.client, self.other, self.system = self.connects()


def bytes_of(notes):
    """How many bytes a run appended, how many its compactions wrote, and how many the first snapshot has of these."""
    appended, compacted, first, selected, writes = 0, 0, 0, "A", []
    for it in (it for it in notes if it.kind == "w"):
        writes.append(it.size)
        if it.place == SELECTOR:
            selected = "B" if selected == "A" else "A"
            first = first or sum(writes) - 1
            compacted, writes = compacted + sum(writes), []
        elif AREAS[selected] < it.place < AREAS[selected] + AREAS["B"] - AREAS["A"]:
            appended, writes = appended + sum(writes), []
    return appended, compacted, first


@needs_compiler
@needs_ciphers
class ThereAndBack(OnAStore):
    def test_the_replies_are_those_of_the_second_model(self):
        longer, calls = Longer(), StoreCalls(self.folder)
        calls.begin()
        replies = self.ran(longer.lines, calls)
        appended, compacted, first = bytes_of(calls.notes())
        self.assertGreater(compacted, 4 * first)
        self.assertLessEqual(compacted, appended + first)
        for place, (line, one, other) in enumerate(zip(longer.lines, replies, longer.replies), 1):
            check(f"line {place}, {line}", one, other)
        check("how many there are", len(replies), len(longer.lines))
        check("the store", left_in(self.store()), kept_in(longer.service.store))


class RowsOfASnapshot(OnAStore):
    def test_as_many_keys_as_there_may_be_stand_as_rows(self):
        """Keys 1 to 65,536 of one owner: a new name has no place, and one that is held is bound anew."""
        self.ran([connect(UID), made(1, named("m"))])
        (key,) = lasting_in(self.store())[0].keys
        rows = [framed(8, [MOST + 1, 1])]
        for number in range(1, MOST + 1):
            rows.append(framed(9, [number, 0, UID, b"%05x" % number, key["blob"], key["list"], 0, 0]))
        areas_of(b"".join(rows)).write(self.folder / "store.ks")
        replies = self.ran([connect(UID), made(1, named("z")), made(1, named("00001"))])
        check("the replies", replies[1:], [{"code": 1002}, {"code": 0, "key": MOST + 1}])
