"""A store of the first format, a journal, is brought to areas by the first opening, whatever comes amid it.

A store that the last program of that format wrote is kept beside this check, with what it stands for: keys of both
domains, one with a single use left, one without a limit, one that was bound anew, an alias with a character of two
bytes, and grants. Behind the opening the same keys, uses, grants and next numbers stand in area A, the journal is
sealed, and a second opening changes no byte. The same is so of an empty journal, whose bytes are known, and of stores
of changes that are drawn. Each call of the opening fails, or is the last that the process makes: the next run opens the
same. Once a store is brought over, a front that says that it is a journal, and another selector, are told, and open as
nothing older."""
import json
import os
import random
import subprocess

from keystore.cases import Case, each, needs_compiler, times
from keystore.harness import TOOLS, check
from keystore.lines import begin, call, connect, named
from keystore.runs import PATIENCE, ended
from keystore.store import (
    AREAS,
    HEADER,
    KINDS,
    MAGIC,
    NEWEST,
    SEAL,
    SELECTOR,
    SELECTS,
    Lasting,
    framed,
    journal_of,
    lasting_in,
)
from keystore.store_bytes import StoreBytes
from keystore.store_calls import How, StoreCalls

with open(TOOLS / "checks/older_store.json", encoding="utf-8") as kept:
    KEPT = json.load(kept)
OLDER = StoreBytes.of(bytes.fromhex(KEPT["store"]))
EMPTY_JOURNAL = journal_of(b"")
DRAWN = 40
OK, DISK_FAULT, CORRUPTED = 0, 6, 7
REQUIRES_UPGRADE = -62
NO_PARAMS = "0000"
ENDED = (OK, b"", [])


def part_of(store):
    """What a store stands for, as the kept one has it."""
    lasting, wrong = lasting_in(store)
    if wrong is not None:
        return f"broken at {wrong}"
    keys = [{name: it.hex() if isinstance(it, bytes) else it for name, it in key.items()} for key in lasting.keys]
    numbers = {"next_key": lasting.next_key, "next_grant": lasting.next_grant}
    return {"keys": sorted(keys, key=lambda key: key["id"]), "grants": lasting.grants, **numbers}


def brought_over(store):
    """A store of the first format as its opening leaves it: the snapshot in area A, which is selected, and the front
    and the first gate of the journal written over."""
    snapshot = lasting_in(store)[0].snapshot()
    areas = store.put(AREAS["A"], snapshot + b"\0").put(SELECTOR, SELECTS["A"])
    return areas.put(0, MAGIC + NEWEST).put(len(HEADER), SEAL)


def told(fault):
    return [b"keystore2: " + fault]


class OnAStore(Case):
    def setUp(self):
        self.path = self.folder / "store.ks"

    def store(self):
        return StoreBytes.read(self.path)

    def check_opens(self, what, store):
        """The opening brings a store over, and the next one changes nothing."""
        store.write(self.path)
        for which in ("the first", "the second"):
            check(f"{which} opening of {what}", ended(self.program, ["run"], self.folder), ENDED)
            check(f"what {which} opening of {what} leaves", self.store(), brought_over(store))
        check(what, part_of(self.store()), part_of(store))


class BroughtOver(OnAStore):
    def test_the_kept_store(self):
        check("the kept store", part_of(OLDER), KEPT["part"])
        self.check_opens("the kept store", OLDER)

    def test_an_empty_journal(self):
        self.check_opens("an empty journal", EMPTY_JOURNAL)
        store = self.store()
        check("its front", store.take(0, 8).hex(), "4b534a524e4c3032")
        check("its selector", store.take(268_435_456, 1).hex(), "41")
        check("its area", store.take(268_439_552, 24).hex(), "4b0000001108" + "0000000000000001" * 2 + "00")

    def test_stores_of_drawn_changes(self):
        for number in range(DRAWN * times()):
            with self.subTest(drawn=number):
                self.check_opens("a drawn store", drawn_store(random.Random(number)))

    def check_codes(self, what, lines, wanted):
        """The codes of a run's replies."""
        text = "".join(json.dumps(line) + "\n" for line in lines).encode()
        status, said, _ = ended(self.program, ["run"], self.folder, text)
        check(what, (status, [json.loads(it)["code"] for it in said.splitlines()]), (OK, wanted))

    def test_the_keys_work_on(self):
        """A key's list has no versions, so it is upgraded first; its last use is there, and gone behind it, in a run
        and in the next one."""
        OLDER.write(self.path)
        once = next(key for key in KEPT["part"]["keys"] if key["limit"] > 1 and key["left"] == 1)
        where = named(bytes.fromhex(once["alias"]).decode())
        app, begins = connect(once["nspace"]), begin(1, where)
        self.check_codes("a begin", [app, begins], [0, REQUIRES_UPGRADE])
        uses = [begins, call(1, "finish", op=1, input="00"), begins]
        self.check_codes("the uses", [app, call(1, "upgradeKey", key=where, params=NO_PARAMS), *uses], [0, 0, 0, 0, 7])
        self.check_codes("the next run", [app, begins], [0, 7])

    def test_a_front_that_is_changed_later_is_told(self):
        OLDER.write(self.path)
        check("the opening", ended(self.program, ["run"], self.folder), ENDED)
        store = self.store()
        for what, changed, place in [
            ("a journal's version", store.put(len(MAGIC), HEADER[-1:]), len(HEADER)),
            ("another selector", store.put(SELECTOR, SELECTS["B"]), AREAS["B"]),
        ]:
            changed.write(self.path)
            corrupted = told(b"store corrupted at %d" % place)
            check(what, ended(self.program, ["run"], self.folder), (CORRUPTED, b"", corrupted))


def drawn_store(draws):
    """A journal of changes that are drawn, each with its need met."""
    lasting, records = Lasting(), b""
    for _ in range(draws.randrange(40)):
        kind, values = drawn_change(draws, lasting)
        if lasting.apply(kind, values):
            records += framed(kind, values)
    return journal_of(records)


def drawn_change(draws, lasting):
    key = draws.randrange(1, lasting.next_key + 1)
    owner = draws.choice([(0, 10001), (0, 10002), (0, 110001), (2, 100)])
    kind = draws.choice([1, 1, 1, *KINDS])
    if kind == 1:
        alias, limit = draws.choice(["m", "n", "ö", "key " * 40]).encode(), draws.choice([0, 1, 2, 5])
        blob, params = draws.randbytes(draws.randrange(80)), draws.randbytes(draws.randrange(40))
        return kind, [lasting.next_key, *owner, alias, blob, params, limit]
    if kind in (2, 3):
        return kind, [key]
    if kind == 4:
        uid = draws.choice([10001, 10002])
        held = next((it["grant"] for it in lasting.grants if (it["key"], it["uid"]) == (key, uid)), lasting.next_grant)
        return kind, [held, key, uid, draws.choice([256, 260])]
    if kind == 5:
        return kind, [draws.randrange(1, lasting.next_grant + 1)]
    return (kind, [*owner]) if kind == 6 else (kind, [draws.randrange(3)])


STORES = [("the kept store", OLDER), ("an empty journal", EMPTY_JOURNAL)]
WAYS = [How.FAILS, How.FAILS_ON, How.DIES_BEFORE, How.DIES_BEHIND]


@needs_compiler
@each([(f"{name} where {how.name}", store, how) for name, store in STORES for how in WAYS])
class EachCall(OnAStore):
    """Each call of the opening ends otherwise."""

    def show(self, store, how):
        calls = StoreCalls(self.folder)
        calls.begin()
        store.write(self.path)
        check("the opening", self.opening(calls)[0], OK)
        names = calls.calls()
        for number, it in enumerate(names):
            with self.subTest(call=number, kind=str(it)):
                store.write(self.path)
                calls.begin(number, how)
                status, fault = self.opening(calls)
                if how in (How.FAILS, How.FAILS_ON):
                    check("the end", (status, fault[:1]), (DISK_FAULT, told(b"disk fault")))
                else:
                    check("the end", status, -9)
                check("what is left", part_of(self.store()), part_of(store))
                check("the next opening", ended(self.program, ["run"], self.folder), ENDED)
                check("what it leaves", part_of(self.store()), part_of(store))
                check("its area", self.store().take(0, len(HEADER)), MAGIC + NEWEST)

    def opening(self, calls):
        done = subprocess.run(
            [self.program, "run"],
            stdin=subprocess.DEVNULL,
            cwd=self.folder,
            env={**os.environ, **calls.environment()},
            capture_output=True,
            timeout=PATIENCE,
            check=False,
        )
        return done.returncode, done.stderr.splitlines()
