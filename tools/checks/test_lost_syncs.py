"""Where syncs fail as those of Linux do, the disk has what was answered.

A sync that fails is told once: what was to be written counts as written, is shown to readers, and is not on the disk.
The library `lost_syncs.c` stands before the C library and keeps the bytes that the disk has beside the store: what was
written comes there at a sync that goes well, and is forgotten at one that fails. Where the program asks the system to
let go of what it remembers of the file, reads give what the disk has from then on.

Two scripts have every act that writes a record, uses, held finishes, restarts, further runs on the store, and a run
that makes it empty. Each call of the store fails alone, with one of the four behind it, and with the two behind it;
each sync with all that come; each two syncs; and 200 sets of calls that are drawn, some in part and some over a
client that sends again what was answered 4. A write that fails has written its piece all the same, none of it, or a
front. Behind each line the disk's bytes have each change that was answered otherwise than 4 and each use, and no
other; the change that was answered 4 and not settled may be there. Each store that comes is opened by the program in
a folder of its own, which tells the same keys and uses."""
import contextlib
import functools
import json
import mmap
import random
import signal
import struct
import subprocess
import unittest
from pathlib import Path

from keystore.cases import each, needs_compiler, times
from keystore.harness import TOOLS, chosen_program
from keystore.lines import APP, GRANT, KEY_ID, PARAMS, begin, call, connect, made, named, numbered
from keystore.scratch import scratch_folder
from keystore.store import AREAS, EMPTY, SELECTOR, Lasting, read_store
from keystore.store_bytes import BLOCK, StoreBytes

SOURCE = TOOLS / "checks/lost_syncs.c"
# The file that is shared with the library: numbers, what each call does, what each call was, the disk's bytes, and
# marks.
MOST_CALLS, MOST_BYTES, NUMBERS = 4096, 1 << 18, struct.Struct("QQQQ")
# The ranges of a store that the disk has: its front, its selector, and what stands first in its areas.
RANGES = [(0, BLOCK), (SELECTOR, BLOCK), *((place, 1 << 16) for place in AREAS.values())]
RANGE = struct.Struct("QQ")
DOES = NUMBERS.size + len(RANGES) * RANGE.size
KINDS = DOES + MOST_CALLS
DISK = KINDS + MOST_CALLS
SHARED = DISK + 2 * MOST_BYTES
NAMES = {"r": "read", "w": "write", "s": "sync", "c": "cut", "d": "letting go"}
FAILS, FAILS_WITH_NOTHING, MOST = 1, 2, 255
DISK_FAULT = 6
# How many sets of calls are drawn for each script. No run takes as many seconds as the other.
DRAWN, PATIENCE = 200, 300
# A client sends a line again at most so often.
MOST_TIMES = 4
UNSETTLING = {"leave", "disconnect"}
MAKING = {"generateKey", "importKey"}


class Lost(Exception):
    """What was answered and is not on the disk, or what else may not be."""


def stopped(*_):
    raise Lost(f"a run took {PATIENCE} seconds")


# ---- The scripts: runs, each of some words and lines. A line names its client by the uid, its operation by a name
# that its begin has as `as`, its ticket by the operation's name, and a grant by the alias of its key and the uid.

OWNER, OTHER, SYSTEM, FAR = 10001, 10002, 1000, 110001
CONNECTS = [connect(uid) for uid in (OWNER, OTHER, SYSTEM, FAR)]


def key(uid, alias, limit=None):
    return made(uid, named(alias), PARAMS + ([] if limit is None else [["USAGE_COUNT_LIMIT", limit]]))


def drawn(uid, alias):
    return call(uid, "generateKey", key=named(alias), params=[*PARAMS, ["KEY_SIZE", 256]])


def begins(name, uid, where):
    return {**begin(uid, where), "as": name}


def finish(name, uid, **members):
    return call(uid, "finish", op=name, input="4869205468657265", **members)


def look(uid, alias):
    return call(uid, "getKeyEntry", key=named(alias))


def granted(alias, uid):
    return {"domain": GRANT, "nspace": [alias, uid]}


LEAVE = {"t": [0, 1000], "do": "leave"}
RESTART = {"t": [0, 1000], "do": "restart"}
EVERY_ACT = [
    (
        ["run"],
        [
            *CONNECTS,
            key(OWNER, "free"),
            key(OWNER, "once", 1),
            key(OWNER, "twice", 2),
            drawn(OWNER, "drawn"),
            call(OWNER, "grant", key=named("twice"), uid=OTHER, bits=256),
            begins("a", OWNER, named("once")),
            finish("a", OWNER),
            look(OWNER, "once"),
            begins("b", OTHER, granted("twice", OTHER)),
            finish("b", OTHER, hold=True),
            look(OWNER, "twice"),
            {**LEAVE, "ticket": "b"},
            key(OWNER, "free"),
            call(OWNER, "deleteKey", key=named("drawn")),
            call(OWNER, "grant", key=named("twice"), uid=OTHER, bits=260),
            call(OWNER, "ungrant", key=named("twice"), uid=OTHER),
            RESTART,
            *CONNECTS,
            look(OWNER, "twice"),
            begins("c", OWNER, named("twice")),
            finish("c", OWNER),
            look(OWNER, "twice"),
            key(OTHER, "own"),
            call(SYSTEM, "clearNamespace", domain=APP, nspace=OTHER),
            key(FAR, "far"),
            call(SYSTEM, "userRemoved", user=1),
            look(OWNER, "free"),
        ],
    ),
]
RUNS = [
    (
        ["run"],
        [*CONNECTS, key(OWNER, "twice", 2), begins("a", OWNER, named("twice")), key(OWNER, "free"), finish("a", OWNER)],
    ),
    (
        ["run"],
        [
            *CONNECTS,
            look(OWNER, "twice"),
            look(OWNER, "free"),
            begins("b", OWNER, named("twice")),
            finish("b", OWNER),
            look(OWNER, "twice"),
            RESTART,
            *CONNECTS,
            look(OWNER, "twice"),
            key(OWNER, "once", 1),
        ],
    ),
    (["run", "--fresh"], [*CONNECTS, look(OWNER, "once"), key(OWNER, "once", 1)]),
    (
        ["run"],
        [*CONNECTS, look(OWNER, "once"), begins("c", OWNER, named("once")), finish("c", OWNER), look(OWNER, "once")],
    ),
]
SCRIPTS = {"every act": EVERY_ACT, "runs": RUNS}
# The names that the program is asked for in a store.
ASKED = [(OWNER, "free"), (OWNER, "once"), (OWNER, "twice"), (OWNER, "drawn"), (OTHER, "own"), (FAR, "far")]


# ---- What bytes and changes stand for


def outline(kind, values):
    """A change without a key's blob and its list."""
    return kind, tuple(values[:4] + [b"", b""] + values[6:] if kind == 1 else values)


@functools.lru_cache(maxsize=None)
def lasting_of(changes):
    """The keys and grants behind changes, or None where the need of one is not met."""
    lasting = Lasting()
    return lasting if all(lasting.apply(kind, list(values)) for kind, values in changes) else None


def kept_in(changes):
    """What changes have to leave."""
    lasting = lasting_of(changes)
    keys = {(it["id"], it["domain"], it["nspace"], it["alias"], it["left"]) for it in lasting.keys}
    return (
        keys,
        {(it["grant"], it["key"], it["uid"], it["bits"]) for it in lasting.grants},
        lasting.next_key,
        lasting.next_grant,
    )


def changes_in(store):
    """The changes of a store's bytes, or None where the bytes stand for none."""
    records, _, broken = read_store(store)
    changes = tuple(outline(kind, values) for _, kind, values in records)
    return None if broken is not None or lasting_of(changes) is None else changes


def key_named(lasting, uid, where):
    """The live key that a line of a client names, or None."""
    if where["domain"] == GRANT:
        row = next((it for it in lasting.grants if (it["grant"], it["uid"]) == (where["nspace"], uid)), None)
        return row and lasting.key(row["key"])
    if where["domain"] == KEY_ID:
        return lasting.key(where["nspace"])
    names = (APP, uid, where["alias"].encode())
    return next((it for it in lasting.keys if (it["domain"], it["nspace"], it["alias"]) == names), None)


def grant_of(lasting, key, uid):
    return next((it for it in lasting.grants if (it["key"], it["uid"]) == (key["id"], uid)), None)


def limit_of(line):
    return dict(line["params"]).get("USAGE_COUNT_LIMIT", 0)


def change_of(line, uid, lasting, operations):
    """The change that a line makes where it is admitted, or None."""
    act, found = line["do"], key_named(lasting, uid, line["key"]) if "key" in line else None
    if act in MAKING:
        return 1, (lasting.next_key, APP, uid, line["key"]["alias"].encode(), b"", b"", limit_of(line))
    if act == "finish":
        found = lasting.key(operations.get(line["op"]))
        return (3, (found["id"],)) if found is not None and found["limit"] else None
    if act == "clearNamespace":
        return 6, (line["domain"], line["nspace"])
    if act == "userRemoved":
        return 7, (line["user"],)
    if found is None or act not in ("deleteKey", "grant", "ungrant"):
        return None
    row = grant_of(lasting, found, line["uid"]) if act != "deleteKey" else None
    if act == "deleteKey":
        return 2, (found["id"],)
    if act == "ungrant":
        return None if row is None else (5, (row["grant"],))
    return 4, (lasting.next_grant if row is None else row["grant"], found["id"], line["uid"], line["bits"])


def told_of(found):
    """What a look at a key tells: its number and the uses that are left."""
    if found is None:
        return {"code": 7}
    return {"code": 0, "key": found["id"], **({"uses": found["left"]} if found["limit"] else {})}


def seen(reply):
    """The same of a reply."""
    return {name: reply[name] for name in ("code", "key", "uses") if name in reply}


# ---- The disk that is shared with the library


class Disk:
    """The disk under a store, and what each of its calls does."""

    def __init__(self, folder):
        self.path = folder / "disk"
        self.path.write_bytes(bytes(SHARED))
        with open(self.path, "r+b") as file:
            self.shared = mmap.mmap(file.fileno(), SHARED)

    def begin(self, store, does):
        """Has these bytes, and no call so far; `does` says of some calls that they fail, and how."""
        at = DISK
        for place, count in RANGES:
            self.shared[at : at + count] = store.padded(place, count)
            at += count
        self.shared[DISK + MOST_BYTES :] = bytes(MOST_BYTES)
        self.shared[DOES:DISK] = bytes(2 * MOST_CALLS)
        self.shared[:DOES] = NUMBERS.pack(0, store.size, 0, 0) + b"".join(RANGE.pack(*it) for it in RANGES)
        for call_number, how in does.items():
            self.shared[DOES + call_number] = how

    def bytes(self):
        store, at, size = StoreBytes(), DISK, NUMBERS.unpack(self.shared[: NUMBERS.size])[1]
        for place, count in RANGES:
            store = store.put(place, self.shared[at : at + count])
            at += count
        return store.cut(size)

    def kinds(self):
        """What each call was by now."""
        return self.shared[KINDS : KINDS + NUMBERS.unpack(self.shared[: NUMBERS.size])[0]].decode()


# ---- A run of the program, line by line


class Run:
    """A process, and what it told of its clients, operations and tickets."""

    def __init__(self, place, words):
        self.process = subprocess.Popen(
            [place.program, *words],
            stdin=subprocess.PIPE,
            stdout=subprocess.PIPE,
            stderr=subprocess.PIPE,
            cwd=place.folder,
            env=place.environment,
        )
        self.makes_empty = "--fresh" in words
        self.forget()

    def forget(self):
        self.clients, self.operations, self.tickets = {}, {}, {}

    def filled(self, line, lasting):
        """A line with numbers in place of names; what no reply told is 0."""
        line = {name: value for name, value in line.items() if name != "as"}
        if "c" in line:
            line["c"] = self.clients.get(line["c"], 0)
        if "op" in line:
            line["op"] = self.operations.get(line["op"], 0)
        if "ticket" in line:
            line["ticket"] = self.tickets.get(line["ticket"], 0)
        if "key" in line and line["key"]["domain"] == GRANT:
            alias, uid = line["key"]["nspace"]
            found = key_named(lasting, OWNER, named(alias))
            row = found and grant_of(lasting, found, uid)
            line["key"] = numbered(GRANT, row["grant"] if row else 0)
        return line

    def send(self, line):
        with contextlib.suppress(BrokenPipeError):
            self.process.stdin.write(json.dumps(line, separators=(",", ":")).encode() + b"\n")
            self.process.stdin.flush()

    def told(self):
        """The next line that it writes, or None where it has ended."""
        line = self.process.stdout.readline()
        return json.loads(line) if line.endswith(b"\n") else None

    def note(self, line, reply):
        """Keeps what a reply tells."""
        if line["do"] == "restart" and reply["code"] == 0:
            self.forget()
        if line["do"] == "connect" and reply["code"] == 0:
            self.clients[line["uid"]] = reply["client"]
        if "as" in line and reply["code"] == 0:
            self.operations[line["as"]] = reply["op"]
        if "ticket" in reply:
            self.tickets[line["op"]] = reply["ticket"]

    def end(self):
        """Its status, and what it told on standard error."""
        with self.process:
            with contextlib.suppress(BrokenPipeError):
                self.process.stdin.close()
            fault = self.process.stderr.read().decode(errors="backslashreplace").strip()
        return self.process.returncode, fault


class Book:
    """What was answered over all runs on a store, and what the disk has to hold of it."""

    def __init__(self, place, again):
        self.place, self.again = place, again
        self.history, self.waiting, self.emptied = (), None, False
        self.keys, self.shown, self.found = {}, None, None

    def possible(self):
        """The changes that the disk may have now."""
        rows = [self.history] + ([(*self.history, self.waiting)] if self.waiting else [])
        return rows + [()] if self.emptied else rows

    def look_at_disk(self):
        """The changes on the disk, which are among those that may be there."""
        store = self.place.disk.bytes()
        if self.shown != (store, self.possible()):
            changes = changes_in(store)
            if changes is None:
                raise Lost(f"what the disk has stands for no store: {store}")
            self.found = next((it for it in self.possible() if kept_in(it) == kept_in(changes)), None)
            if self.found is None:
                raise Lost(
                    f"the disk has {list(changes)} and not {' or '.join(str(list(it)) for it in self.possible())}"
                )
            self.place.open_store(store, changes)
            self.shown = store, self.possible()
        return self.found

    def settle(self, settled):
        if self.waiting is None:
            raise Lost(f"the line {settled} where nothing waits")
        if settled == "kept":
            self.history += (self.waiting,)
        self.waiting = None

    def take(self, run, line, reply):
        """Takes a reply, behind its settled line: what it says of the store has to be so."""
        lasting = lasting_of(self.history)
        uid = line.get("c")
        change = change_of(run.filled(line, lasting) | {"op": line.get("op")}, uid, lasting, self.keys)
        act, code = line["do"], reply["code"]
        if self.waiting is not None:
            if (code == 4) == (act in UNSETTLING):
                raise Lost(
                    "no settled line, though a change waited" if code != 4 else "a 4 at an act that calls no disk"
                )
        elif code == 4 and change is not None:
            self.waiting = change
        elif code == 4 and act != "restart":
            raise Lost("a 4 at a line that changes nothing")
        elif code == 0 and change is not None:
            self.history += (change,)
            if act in MAKING and reply["key"] != change[1][0] or act == "grant" and reply["grant"] != change[1][0]:
                raise Lost(f"{change} was answered {reply}")
        elif code == 0 and act == "finish":
            raise Lost("an output under a key that has ended")
        elif act == "getKeyEntry" and run.clients and seen(reply) != told_of(key_named(lasting, uid, line["key"])):
            raise Lost(
                f"a look at a key told {reply}, and the lines before {told_of(key_named(lasting, uid, line['key']))}"
            )
        if "as" in line and code == 0:
            self.keys[line["as"]] = key_named(lasting, uid, run.filled(line, lasting)["key"])["id"]

    def ask(self, run, line, opens):
        """Sends a line, and takes its reply; None where the run has ended before any."""
        for _ in range(MOST_TIMES):
            run.send(run.filled(line, lasting_of(self.history)))
            reply = run.told()
            if reply is None:
                return None
            if opens:
                # What the disk has is what this run found, or nothing where it made its store empty.
                if run.makes_empty:
                    self.history, self.waiting = (), None
                self.history, self.waiting, self.emptied = self.look_at_disk(), None, False
                opens = False
            if "settled" in reply:
                self.settle(reply["settled"])
                reply = run.told()
            if reply is None:
                raise Lost("a settled line and no reply")
            self.take(run, line, reply)
            run.note(line, reply)
            self.look_at_disk()
            changes = line["do"] in MAKING or line["do"] in (
                "deleteKey",
                "grant",
                "ungrant",
                "clearNamespace",
                "userRemoved",
                "finish",
            )
            if reply["code"] != 4 or changes and not self.again:
                break
        return reply

    def serve(self, words, lines):
        """One run over its lines; where its store cannot be opened for a call that failed, another one. Gives
        whether any could."""
        while not self.served(words, lines):
            if self.place.is_gone():
                return False
            words = ["run"]
        return True

    def served(self, words, lines):
        """Whether a run opened the store, and then went over its lines."""
        self.keys = {}
        self.emptied |= "--fresh" in words
        begun, run = len(self.place.disk.kinds()), Run(self.place, words)
        for number, line in enumerate(lines, 1):
            try:
                reply = self.ask(run, line, number == 1)
                if reply is None and number > 1:
                    raise Lost("the run has ended")
            except Lost as lost:
                run.process.kill()
                run.end()
                raise Lost(f"behind line {number} of {' '.join(words)}, {json.dumps(line)}: {lost}") from None
            if reply is None:
                break
            self.place.replies.append(reply["code"])
        status, fault = run.end()
        if status != (0 if reply else DISK_FAULT) or reply is None and not self.place.has_failed(begun):
            raise Lost(f"{' '.join(words)} ended with status {status}: {fault}")
        self.look_at_disk()
        return reply is not None


class Place:
    """A folder with a store over the disk, and another one in which what the disk has is opened."""

    def __init__(self, program, folder):
        self.program, self.folder, self.other = program, folder / "runs", folder / "opened"
        self.folder.mkdir()
        self.other.mkdir()
        self.disk = Disk(folder)
        library = library_in(folder)
        self.environment = {"LD_PRELOAD": str(library), "LOST_SYNCS": str(self.disk.path)}
        self.opened, self.replies, self.does = set(), [], {}

    def has_failed(self, begun):
        """Whether a call had to fail since there were so many."""
        return any(it in self.does for it in range(begun, len(self.disk.kinds())))

    def is_gone(self):
        """Whether all calls to come fail."""
        return MOST_CALLS - 1 in self.does

    def open_store(self, store, changes):
        """The program over the bytes of a store tells its keys; once for stores that have the same changes and the
        same end."""
        outlined = (changes, store.take(store.size - 1, 1))
        if outlined in self.opened:
            return
        self.opened.add(outlined)
        store.write(self.other / "store.ks")
        uids = sorted({uid for uid, _ in ASKED})
        lines = [connect(uid) for uid in uids] + [look(uids.index(uid) + 1, alias) for uid, alias in ASKED]
        text = "".join(json.dumps(line) + "\n" for line in lines).encode()
        done = subprocess.run([self.program, "run"], input=text, cwd=self.other, capture_output=True, check=False)
        told = [seen(json.loads(line)) for line in done.stdout.splitlines()[len(uids) :]]
        wanted = [told_of(key_named(lasting_of(changes), uid, named(alias))) for uid, alias in ASKED]
        if (told, done.returncode) != (wanted, 0):
            raise Lost(
                f"the program over the disk's bytes ends with status {done.returncode}, {done.stderr.decode().strip()},"
                f" and tells {told} and not {wanted}"
            )

    def play(self, runs, does, again=False):
        """The runs of a script on an empty store, with calls that fail; gives what each call was."""
        EMPTY.write(self.folder / "store.ks")
        self.disk.begin(EMPTY, does)
        self.replies, self.does = [], does
        book = Book(self, again)
        for words, lines in runs:
            signal.alarm(PATIENCE)
            if not book.serve(words, lines):
                break
        signal.alarm(0)
        return self.disk.kinds()


def library_in(folder):
    """The library that stands before the C library."""
    library = folder / "lost_syncs.so"
    subprocess.run(["cc", "-shared", "-fPIC", "-O1", "-o", library, SOURCE], check=True)
    return library


# ---- Which calls fail


def each_call(kinds):
    """Each call alone, a write also with nothing written; with one of the four behind it; with the two behind it;
    and a sync with all that come."""
    for number, kind in enumerate(kinds):
        yield {number: FAILS}
        if kind == "s":
            yield dict.fromkeys(range(number, MOST_CALLS), FAILS)
        if kind == "w":
            yield {number: FAILS_WITH_NOTHING}
        for more in range(1, 5):
            yield {number: FAILS, number + more: FAILS_WITH_NOTHING}
        yield {number: FAILS, number + 1: FAILS, number + 2: FAILS}


def drawn_calls(draws, count):
    """Calls that fail in bursts, as those of a disk that is going do; some in part."""
    does, fails = {}, False
    for number in range(2 * count):
        fails = draws.random() < (0.6 if fails else 0.08)
        if fails:
            does[number] = draws.choice([FAILS, FAILS_WITH_NOTHING, draws.randint(3, MOST)])
    return does


class OverTheDisk(unittest.TestCase):
    """Cases over the disk that the library keeps."""

    @classmethod
    def setUpClass(cls):
        cls.place = Place(chosen_program(), Path(cls.enterClassContext(scratch_folder())))
        before = signal.signal(signal.SIGALRM, stopped)
        cls.addClassCleanup(signal.signal, signal.SIGALRM, before)

    def play(self, name, does, again=False):
        """A script over calls that fail; gives what each call was."""
        try:
            return self.place.play(SCRIPTS[name], does, again)
        except Lost as lost:
            kinds = self.place.disk.kinds()
            which = ", ".join(f"{it} ({NAMES[kinds[it]]})" for it in sorted(does) if it < len(kinds))
            raise AssertionError(f"where the calls {which or 'none'} fail: {lost}") from None
        finally:
            signal.alarm(0)


@needs_compiler
@each([(name, name) for name in SCRIPTS])
class EachCall(OverTheDisk):
    def show(self, name):
        kinds = self.play(name, {})
        for place, does in enumerate(each_call(kinds)):
            with self.subTest(set=place):
                self.play(name, does)


@needs_compiler
@each([(name, name) for name in SCRIPTS])
class EachTwoSyncs(OverTheDisk):
    def show(self, name):
        for first in (it for it, kind in enumerate(self.play(name, {})) if kind == "s"):
            behind = self.play(name, {first: FAILS})
            for second in (it for it, kind in enumerate(behind) if kind == "s" and it > first + 4):
                with self.subTest(first=first, second=second):
                    self.play(name, {first: FAILS, second: FAILS})


@needs_compiler
@each([(name, name) for name in SCRIPTS])
class DrawnCalls(OverTheDisk):
    def show(self, name):
        count = len(self.play(name, {}))
        for number in range(DRAWN * times()):
            draws = random.Random(f"{name} {number}")
            with self.subTest(drawn=number):
                self.play(name, drawn_calls(draws, count), draws.random() < 0.5)
