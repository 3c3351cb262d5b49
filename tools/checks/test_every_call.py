"""Each call by which a run reaches its store ends otherwise, one after another and in every way: the replies and the
store that is left are those of the second model, which is told what failed.

The ways: the call fails; it fails, and so does each call behind it; a write has no room behind its half; a write is
short, which is no fault; the process ends before the call, and behind it. A run whose store cannot be opened ends
with status 6 and answers nothing. Any other run ends with status 0, unless it was ended: then its replies are those
of the lines up to some line, and the store has the changes of these lines, with that of the next one or without it.
What was acknowledged is there, each use too; what was answered 4 is there or is not, as the settled line says where
one came; and the program opens each store that was left, and tells its keys and uses."""
import copy
import json
import os
import subprocess

from compare.failing_disk import SETTLED, compare, kept_in, left_by, left_in
from keystore.cases import Case, each, needs_ciphers, needs_compiler
from keystore.every_act import (
    CONNECTS,
    EVERY_ACT,
    FAR,
    MADE_BEFORE,
    OLDER,
    OTHER,
    OWNER,
    Line,
    finish,
    limited,
    look,
    writing,
)
from keystore.harness import check
from keystore.lines import GRANT, begin, call, connect, named, numbered
from keystore.runs import PATIENCE, make_store_on
from keystore.store_bytes import StoreBytes
from keystore.store_calls import How, StoreCalls
from model.second_model import Service, reply_line

SLOTS = 16
DISK_FAULT = 6
USES = [
    *CONNECTS[:2],
    limited(1, "first", 1),
    limited(1, "second", 1),
    Line(begin(1, named("first"))),
    Line(begin(1, named("second"))),
    writing(finish(1, 1)),
    writing(finish(1, 2, hold=True)),
    Line(begin(1, named("first"))),
    Line(begin(1, named("second"))),
    Line({"t": [0, 1000], "do": "leave", "ticket": 2}),
    look(1, "first"),
    look(1, "second"),
]
GRANTS = [
    *CONNECTS[:2],
    limited(1, "first", 2),
    limited(1, "second", 2),
    writing(call(1, "grant", key=named("first"), uid=OTHER, bits=256)),
    writing(call(1, "grant", key=named("second"), uid=OTHER, bits=256)),
    Line(begin(2, numbered(GRANT, 1))),
    Line(begin(2, numbered(GRANT, 2))),
    writing(finish(2, 1)),
    writing(call(1, "ungrant", key=named("first"), uid=OTHER)),
    writing(call(1, "deleteKey", key=named("second"))),
    Line(finish(2, 2)),
    Line(begin(2, numbered(GRANT, 1))),
    Line(begin(2, numbered(GRANT, 2))),
    look(1, "first"),
]
SCRIPTS = {"every act": EVERY_ACT, "uses": USES, "grants": GRANTS}
WAYS = [How.FAILS, How.FAILS_ON, How.HAS_NO_ROOM, How.IS_SHORT, How.DIES_BEFORE, How.DIES_BEHIND]
# Ways of writes alone, each with the least bytes of such a write.
ONLY = {How.HAS_NO_ROOM: 1, How.IS_SHORT: 2}
# The names that the program is asked for in a store.
ASKED = [
    (uid, alias)
    for uid in (OWNER, OTHER, FAR)
    for alias in ("free", "once", "twice", "drawn", "own", "far", "first", "second", "old", "wrap", "came")
]


def text_of(lines):
    return [json.dumps(it.members, separators=(",", ":")).encode() for it in lines]


def rows_of(lines, output):
    """Each line with its settled line and its reply, or with None where none came."""
    told = iter(output.splitlines())
    for line in lines:
        first = next(told, None)
        settled = first if first in SETTLED else None
        yield line, settled, next(told, None) if settled else first
    check("lines behind the last reply", list(told), [])


def seen(reply):
    return {name: reply[name] for name in ("code", "key", "uses", "list") if name in reply}


def told_of(keys, uid, alias):
    """What a look at a key tells: its number, its list and the uses that are left."""
    for number, (domain, nspace, name, uses, encoded) in keys.items():
        if (domain, nspace, name) == (0, uid, alias.encode()):
            return {"code": 0, "key": number, "list": encoded.hex(), **({"uses": uses} if uses else {})}
    return {"code": 7}


@needs_compiler
@needs_ciphers
@each([(f"{name}, {way.name}", name, way) for name in SCRIPTS for way in WAYS])
class EachCall(Case):
    def show(self, name, way):
        self.calls, self.opened = StoreCalls(self.folder), set()
        make_store_on(self.program, self.folder, OLDER, b"\n".join(text_of(MADE_BEFORE)) + b"\n")
        self.before = self.store()
        self.lines = text_of(SCRIPTS[name])
        self.whole = self.ran(0, How.GOES_WELL).stdout
        self.size, calls = self.store().size, self.calls.calls()
        first = next(number for number, it in enumerate(calls) if it.kind == "w")
        for number, it in enumerate(calls):
            if way not in ONLY or (it.kind == "w" and it.size >= ONLY[way]):
                with self.subTest(call=number, kind=str(it)):
                    self.show_call(number, way, number >= first)

    def ran(self, number, way):
        """How a run over the script on the older store ended, and what it answered."""
        self.before.write(self.folder / "store.ks")
        self.calls.begin(number, way)
        return subprocess.run(
            [self.program, "run"],
            input=b"\n".join(self.lines) + b"\n",
            cwd=self.folder,
            env={**os.environ, **self.calls.environment()},
            capture_output=True,
            timeout=PATIENCE,
            check=False,
        )

    def store(self):
        return StoreBytes.read(self.folder / "store.ks")

    def show_call(self, number, way, is_open):
        """The run in which this call ends so; `is_open` says whether it comes behind the opening."""
        done = self.ran(number, way)
        rows = list(rows_of(self.lines, done.stdout))
        answered = [row for row in rows if row[2] is not None]
        if way in (How.DIES_BEFORE, How.DIES_BEHIND):
            check("the end", done.returncode, -9)
        elif is_open:
            check("the end", (done.returncode, len(answered)), (0, len(rows)))
        else:
            check("the end", (done.returncode, done.stdout, self.store()), (DISK_FAULT, b"", self.before))
        if way == How.IS_SHORT:
            check(
                "what was answered, and the size of what is left",
                (done.stdout, self.store().size),
                (self.whole, self.size),
            )
        service, fault = compare(answered, SLOTS, left_by(text_of(MADE_BEFORE), OLDER))
        if fault is not None:
            raise AssertionError(fault)
        stores = [kept_in(store) for store in (service.store, service.waiting) if store is not None]
        if len(answered) < len(rows):
            stores.append(kept_in(with_one_more(service, rows[len(answered)][0]).store))
        self.assertIn(left_in(self.store()), stores)
        self.open_store()

    def open_store(self):
        """The program opens the store that is left, and tells its keys; once for each store."""
        store = self.store()
        if store in self.opened:
            return
        self.opened.add(store)
        uids = sorted({uid for uid, _ in ASKED})
        lines = [Line(connect(uid)) for uid in uids] + [look(uids.index(uid) + 1, alias) for uid, alias in ASKED]
        text = b"\n".join(text_of(lines)) + b"\n"
        done = subprocess.run(
            [self.program, "run"], input=text, cwd=self.folder, capture_output=True, timeout=PATIENCE, check=False
        )
        told = [seen(json.loads(line)) for line in done.stdout.splitlines()[len(uids) :]]
        keys, _ = left_in(store)
        check(
            "the store that is left", (done.returncode, told), (0, [told_of(keys, uid, alias) for uid, alias in ASKED])
        )


def with_one_more(service, line):
    """The model behind one line more."""
    later = copy.deepcopy(service)
    reply_line(later, line)
    return later


class Scripts(Case):
    """The scripts are as they are meant: each line that writes is admitted, and no other one writes."""

    @needs_ciphers
    def test_each_change_is_admitted(self):
        for name, lines in SCRIPTS.items():
            service = Service(slots=SLOTS, store=left_by(text_of(MADE_BEFORE), OLDER))
            for line, text in zip(lines, text_of(lines)):
                before = kept_in(service.store)
                reply = json.loads(reply_line(service, text))
                check(
                    f"{name}, {text.decode()}",
                    (reply["code"] == 0, kept_in(service.store) != before),
                    (True, True) if line.writes else (reply["code"] == 0, False),
                )
