"""A store that is taken away beside a run: it is removed, renamed, or another file or a folder is put in its place.

From then on no later run could find what this one writes, so each sync fails: a restart is answered 4 and changes
nothing, reads and operations go on, and so does a key without a use limit. Each act that writes a record is answered
4, with no output, and behind it each call but leave and disconnect, until the run ends; the store back at its place
changes nothing of that. The file that was renamed stands for what was acknowledged, the one in its place is as it
was put there, and no store is made anew. A store behind a link, and a run whose folder is renamed, are served as
ever. Of two runs on two files of one name, each ends so whose file is not at the name when it syncs."""
from keystore.cases import Case, each
from keystore.harness import check
from keystore.lines import APP, ASKED, PARAMS, begin, call, connect, made, named
from keystore.runs import Run
from keystore.store import EMPTY, read_store
from keystore.store_bytes import StoreBytes

OWNER, OTHER, SYSTEM = 10001, 10002, 1000
HI_THERE = "4869205468657265"
MAC = "b0344c61d8db38535ca8afceaf0bf12b881dc200c9833da726e9376c2e32cff7"
OK, FAULT = {"code": 0}, {"code": 4}
RESTART = {"t": [0, 1000], "do": "restart"}
LIMITED = [*PARAMS, ["USAGE_COUNT_LIMIT", 2]]

# A client, the system, a key without a limit, one with two uses that is granted, and an operation on each.
BEFORE = [
    (connect(OWNER), {"client": 1, "code": 0}),
    (connect(SYSTEM), {"client": 2, "code": 0}),
    (made(1, named("m")), {"code": 0, "key": 1}),
    (made(1, named("l"), LIMITED), {"code": 0, "key": 2}),
    (call(1, "grant", key=named("l"), uid=OTHER, bits=256), {"code": 0, "grant": 1}),
    (begin(1, named("l")), {"code": 0, "op": 1}),
    (begin(1, named("m")), {"code": 0, "op": 2}),
    (call(1, "update", op=2, input=HI_THERE, hold=True), {"code": 0, "ticket": 1}),
]
# Reads, and a use of the key without a limit: no sync.
READS = [
    (call(1, "getNumberOfEntries", domain=APP), {"code": 0, "count": 2}),
    (RESTART, FAULT),
    (call(1, "listEntriesBatched", domain=APP), {"code": 0, "entries": [["l", 2], ["m", 1]]}),
]
WORKS = [
    (begin(1, named("m")), {"code": 0, "op": 3}),
    (call(1, "finish", op=3, input=HI_THERE), {"code": 0, "out": MAC}),
]
# Each act that writes a record.
CHANGES = [
    made(1, named("m")),
    call(1, "generateKey", key=named("n"), params=[*PARAMS, ["KEY_SIZE", 256]]),
    call(1, "deleteKey", key=named("m")),
    call(1, "grant", key=named("m"), uid=OTHER, bits=256),
    call(1, "ungrant", key=named("l"), uid=OTHER),
    call(2, "clearNamespace", domain=APP, nspace=OWNER),
    call(2, "userRemoved", user=0),
    call(1, "finish", op=1, input=HI_THERE),
    call(1, "finish", op=1, input=HI_THERE, hold=True),
]
# What may be asked behind a change that failed, while each sync fails.
BEHIND = [
    (call(1, "getNumberOfEntries", domain=APP), FAULT),
    (begin(1, named("m"), ASKED), FAULT),
    (RESTART, FAULT),
    (made(1, named("k")), FAULT),
    ({"t": [0, 1000], "do": "leave", "ticket": 1}, {"code": 0, "out": ""}),
    (call(1, "disconnect"), OK),
]


def removed(folder):
    (folder / "store.ks").unlink()


def renamed(folder):
    (folder / "store.ks").rename(folder / "moved.ks")


def replaced(folder):
    EMPTY.write(folder / "other.ks")
    renamed(folder)
    (folder / "other.ks").rename(folder / "store.ks")


def overlaid(folder):
    """A folder stands where the store stood."""
    renamed(folder)
    (folder / "store.ks").mkdir()


MOVES = [removed, renamed, replaced, overlaid]


def records_of(file):
    records, _, broken = read_store(StoreBytes.read(file))
    return records if broken is None else f"broken at {broken}"


def left_in(folder):
    """What stands in a folder: the changes of the file that was the run's, and the other names with what they hold."""
    files = {it.name: None if it.is_dir() else StoreBytes.read(it) for it in folder.iterdir()}
    moved = files.pop("moved.ks", None)
    return None if moved is None else records_of(folder / "moved.ks"), files


def cases():
    """Each way with the reads behind it, and with each act that writes a record."""
    for move in MOVES:
        for change in [None, *CHANGES]:
            name = "reads" if change is None else change["do"] + (" that is held" if change.get("hold") else "")
            yield f"{move.__name__} then {name}", move, change


class OnAStore(Case):
    def run_of(self, folder=None, *words):
        return self.enterContext(Run(self.program, folder or self.folder, *words))


@each(cases())
class Moved(OnAStore):
    def show(self, move, change):
        what = f"a store {move.__name__}"
        run = self.run_of(None, "--fresh")
        run.check(what, BEFORE)
        records = records_of(self.folder / "store.ks")
        move(self.folder)
        files = left_in(self.folder)[1]
        run.check(what, READS + WORKS)
        if change is not None:
            run.check(what, [(change, FAULT), *BEHIND])
        run.end(what)
        check(f"{what}, the folder behind it", left_in(self.folder), (None if move is removed else records, files))


class ElseWhere(OnAStore):
    def test_a_store_that_comes_back_is_not_written_again_and_has_what_was_acknowledged(self):
        what = "a store that comes back"
        run = self.run_of(None, "--fresh")
        run.check(what, BEFORE)
        renamed(self.folder)
        run.check(what, [(RESTART, FAULT)])
        (self.folder / "moved.ks").rename(self.folder / "store.ks")
        run.check(
            what, [(call(1, "getNumberOfEntries", domain=APP), {"code": 0, "count": 2}), (CHANGES[0], FAULT), *BEHIND]
        )
        run.end(what)
        run = self.run_of()
        run.check(
            f"the run behind {what}",
            [BEFORE[0], READS[0], READS[2], (CHANGES[0], {"code": 0, "key": 3}), (RESTART, OK)],
        )
        run.end(f"the run behind {what}")

    def test_two_runs_on_two_files_of_one_name(self):
        """The second one's file is there, and then the first one's."""
        first = self.run_of(None, "--fresh")
        first.check("the first of two runs", BEFORE)
        renamed(self.folder)
        second = self.run_of(None, "--fresh")
        second.check("the second of two runs", BEFORE)
        first.check("the first of two runs, behind the start of the second", [*READS, (CHANGES[0], FAULT), *BEHIND])
        second.check("the second of two runs, while its store is there", [(CHANGES[0], {"code": 0, "key": 3})])
        (self.folder / "store.ks").rename(self.folder / "second.ks")
        (self.folder / "moved.ks").rename(self.folder / "store.ks")
        second.check("the second of two runs, over the store of the first", [*READS[:2], (CHANGES[2], FAULT), *BEHIND])
        first.check("the first of two runs, over its own store", [(RESTART, FAULT)])
        first.end("the first of two runs")
        second.end("the second of two runs")
        check("the first store", len(records_of(self.folder / "store.ks")), 3)
        check("the second store", len(records_of(self.folder / "second.ks")), 4)

    def test_a_link_that_leads_nowhere_is_no_store(self):
        (self.folder / "far").mkdir()
        (self.folder / "store.ks").symlink_to("far/keys.ks")
        nowhere = b"keystore2: disk fault\nkeystore2: store.ks: it is no regular file\n"
        self.run_of(None, "--fresh").end("a link that leads nowhere", 6, nowhere)
        check("what it leads to", list((self.folder / "far").iterdir()), [])

    def test_a_store_behind_a_link(self):
        (self.folder / "far").mkdir()
        (self.folder / "store.ks").symlink_to("far/keys.ks")
        (self.folder / "far/keys.ks").touch()
        run = self.run_of(None, "--fresh")
        run.check("a store behind a link", [*BEFORE, (CHANGES[0], {"code": 0, "key": 3}), (RESTART, OK)])
        run.end("a store behind a link")
        check("the file behind the link", len(records_of(self.folder / "far/keys.ks")), 4)

    def test_a_run_whose_folder_is_renamed(self):
        (self.folder / "near").mkdir()
        run = self.run_of(self.folder / "near", "--fresh")
        run.check("a run", BEFORE)
        (self.folder / "near").rename(self.folder / "there")
        run.check("a run whose folder is renamed", [(CHANGES[0], {"code": 0, "key": 3}), (RESTART, OK)])
        run.end("a run whose folder is renamed")
        check("the store of a folder that is renamed", len(records_of(self.folder / "there/store.ks")), 4)
