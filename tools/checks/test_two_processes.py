"""Two processes on one store, and then two runs in turn.

While the first run waits for its next line, a second `run`, a `run --fresh` and an `init` end with status 6, write
nothing and change no byte of the store. Once the first has ended, the next run finds the key that it made."""
import json

from keystore.cases import Case, each
from keystore.harness import TOP, check
from keystore.runs import Run, ended, make_store
from keystore.store import EMPTY
from keystore.store_bytes import StoreBytes

CONNECT, IMPORT, BEGIN, FINISH = (TOP / "examples/hmac.jsonl").read_bytes().splitlines(keepends=True)
REPLIES = (TOP / "examples/hmac.expected").read_bytes().splitlines(keepends=True)
DISK_FAULT = [b"keystore2: disk fault", b"keystore2: store.ks: it is in use by another process"]
NO_STORE = [
    b"keystore2: store corrupted at 0",
    b"keystore2: store.ks: it is not in this folder; 'keystore2 init' makes an empty one",
]


class OnAStore(Case):
    def first(self):
        """A run that has made a key and waits for its next line."""
        run = self.enterContext(Run(self.program, self.folder, "--fresh"))
        run.check(
            "the first run", [(json.loads(line), json.loads(reply)) for line, reply in zip([CONNECT, IMPORT], REPLIES)]
        )
        return run


@each([(" ".join(it), it) for it in (["run"], ["run", "--fresh"], ["init"])])
class Second(OnAStore):
    """A second process beside a run is refused and touches nothing."""

    def show(self, words):
        first = self.first()
        store = StoreBytes.read(self.folder / "store.ks")
        check(" ".join(words), ended(self.program, words, self.folder, CONNECT), (6, b"", DISK_FAULT))
        check("the store", StoreBytes.read(self.folder / "store.ks"), store)
        first.end("the first run")


class InTurn(OnAStore):
    def test_a_run_without_a_store_leaves_nothing(self):
        check("a run without a store", ended(self.program, ["run"], self.folder, CONNECT), (7, b"", NO_STORE))
        check("what it leaves", list(self.folder.iterdir()), [])

    def test_init_makes_an_empty_store(self):
        make_store(self.program, self.folder)
        check("the empty store", StoreBytes.read(self.folder / "store.ks"), EMPTY)

    def test_the_next_run_finds_the_key(self):
        self.first().end("the first run")
        replies = b"".join([REPLIES[0], *REPLIES[2:]])
        check("the next run", ended(self.program, ["run"], self.folder, CONNECT + BEGIN + FINISH), (0, replies, []))
