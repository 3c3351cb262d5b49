"""Kills the program at random moments, and looks in the next run for what was acknowledged.

    tools/ks compare kill_test [--seed N] [--kills N] [--longest SECONDS] [--folder PATH] [--program PATH]

A run gets line after line: keys with and without use limits are made, used, shared and deleted. After a random time
it is killed (SIGKILL), wherever it is then, also while it opens its store. The next run is asked for every key: each
key made or deleted and each use whose reply was read is there, the one that was under way is there or not, and
nothing else is. (It is not asked for grants.) A key whose uses are used up cannot be used, by its alias or by its
number, and over all runs no key gives more outputs than its limit. Each hundred kills begin with an empty store. The
store is a file in memory, which outlives the process and no loss of power; in a folder of a disk, which --folder
names, most of a change is waiting for the disk, so that far more of them are under way at a kill. The seed fixes
what is asked and when the run is killed, but not how far it is by then. The figures are printed; at the first thing
lost it ends with status 1."""
import json
import random
import subprocess
import tempfile
from pathlib import Path

from keystore.harness import add_program, parser_of
from keystore.scratch import scratch_folder

KILLS_PER_STORE = 100
# How `timeout` ends where it killed the run, which may be by the same signal.
KILLED = (-9, 137)
ALIASES = ["a", "b", "c", "d"]
APP, KEY_ID = 0, 4
UID, OTHER_UID = 10001, 10002
KEY_LIST = [["PURPOSE", 2], ["ALGORITHM", 128], ["DIGEST", 4], ["MIN_MAC_LENGTH", 64], ["NO_AUTH_REQUIRED", True]]
SIGNING = [["PURPOSE", 2], ["MAC_LENGTH", 256]]


class Lost(Exception):
    """What was acknowledged and is not there, or what is there and may not be."""


class Key:
    """A key by its number: its limit, None for none, the uses that were acknowledged, and the outputs that were
    read."""

    def __init__(self, number, limit):
        self.number = number
        self.limit = limit
        self.uses = 0
        self.outputs = 0

    def left(self, more=0):
        """The uses that are left after some more, None where there is no limit."""
        return None if self.limit is None else self.limit - self.uses - more

    def is_used_up(self):
        return self.limit is not None and self.uses >= self.limit


class Killed(Exception):
    """The run was killed before it answered."""


class Run:
    """A run that is killed after a while. A process of its own kills it: a thread here would mostly do so while a
    reply is awaited."""

    def __init__(self, program, folder, seconds):
        words = ["timeout", "-s", "KILL", f"{seconds:.6f}", program, "run"]
        self.process = subprocess.Popen(
            words, stdin=subprocess.PIPE, stdout=subprocess.PIPE, stderr=subprocess.PIPE, cwd=folder
        )

    def ask(self, **members):
        """The reply to a line; Killed where none was read to its end."""
        line = json.dumps({"t": [0, 1000], **members}, separators=(",", ":")) + "\n"
        try:
            self.process.stdin.write(line.encode())
            self.process.stdin.flush()
            reply = self.process.stdout.readline()
        except BrokenPipeError:
            raise Killed from None
        if not reply.endswith(b"\n"):
            raise Killed
        return json.loads(reply)

    def end(self):
        """Waits for the end, which is the kill."""
        with self.process:
            fault = self.process.communicate()[1].decode(errors="backslashreplace").strip()
        if self.process.returncode not in KILLED:
            raise Lost(f"a run ended by itself, with status {self.process.returncode}: {fault}")


def descriptor(alias):
    return {"domain": APP, "alias": alias}


class Client:
    """What is known of the store, and the lines that change it."""

    def __init__(self, seed):
        self.random = random.Random(seed)
        self.keys = {}
        self.ended = []
        self.open = {}
        self.doubt = None
        self.answered = self.changes = self.uses = self.under_way = self.found = 0

    # What was acknowledged, and what may have come.

    def put(self, alias, key):
        """An alias has another key, or none."""
        old = self.keys.pop(alias, None)
        if old is not None:
            self.ended.append(old)
        if key is not None:
            self.keys[alias] = key

    def use(self, alias, key):
        """A key was used once more; the last use ends it."""
        key.uses += 1
        self.uses += 1
        if key.is_used_up() and self.keys.get(alias) is key:
            self.put(alias, None)

    def ask(self, run, doubt=None, **members):
        """The reply to a line. While it is not there, it is in doubt whether the change came."""
        self.doubt = doubt
        reply = run.ask(**members)
        self.doubt = None
        self.answered += 1
        if "settled" in reply or reply["code"] == 4:
            raise Lost(f"a reply of a failed disk: {reply}")
        return reply

    # Lines.

    def make(self, run, alias):
        limit = self.random.choice([None, 1, 1, 2, 3])
        params = KEY_LIST + ([] if limit is None else [["USAGE_COUNT_LIMIT", limit]])
        reply = self.ask(
            run,
            ("make", alias, limit),
            c=1,
            do="importKey",
            key=descriptor(alias),
            params=params,
            format=3,
            material="0b" * 20,
        )
        if reply["code"] != 0:
            raise Lost(f"a key was not made: {reply}")
        self.changes += 1
        self.put(alias, Key(reply["key"], limit))

    def begin(self, run, alias):
        reply = self.ask(run, c=1, do="createOperation", key=descriptor(alias), params=SIGNING)
        key = self.keys.get(alias)
        if (reply["code"] == 0) != (key is not None):
            raise Lost(f"a begin on alias {alias} got {reply}")
        if key is not None:
            self.open = dict(list(self.open.items())[-12:])
            self.open[reply["op"]] = (alias, key)

    def finish(self, run, held):
        """Finishes an operation, at once or by a held step and its leave."""
        op, (alias, key) = self.random.choice(list(self.open.items()))
        del self.open[op]
        lives = self.keys.get(alias) is key
        members = {"hold": True} if held else {}
        reply = self.ask(
            run,
            ("use", alias, key) if lives and key.limit is not None else None,
            c=1,
            do="finish",
            op=op,
            input="00",
            **members,
        )
        if reply["code"] != 0:
            if lives and reply["code"] != -28:
                raise Lost(f"a finish on a key that lives got {reply}")
            return
        if not lives:
            raise Lost(f"a finish on key {key.number}, which has ended, got {reply}")
        if key.limit is not None:
            self.use(alias, key)
        if held:
            reply = self.ask(run, do="leave", ticket=reply["ticket"])
        if len(reply["out"]) != 64:
            raise Lost(f"a finish gave {reply}")
        key.outputs += 1

    def delete(self, run, alias):
        reply = self.ask(run, ("delete", alias), c=1, do="deleteKey", key=descriptor(alias))
        if (reply["code"] == 0) != (alias in self.keys):
            raise Lost(f"deleting alias {alias} got {reply}")
        self.changes += reply["code"] == 0
        self.put(alias, None)

    def share(self, run, alias):
        act = self.random.choice(["grant", "ungrant"])
        bits = {"bits": 256} if act == "grant" else {}
        self.ask(run, c=1, do=act, key=descriptor(alias), uid=OTHER_UID, **bits)

    def step(self, run):
        alias = self.random.choice(ALIASES)
        kind = self.random.random()
        if kind < 0.25 or not self.keys:
            self.make(run, alias)
        elif kind < 0.55:
            self.begin(run, alias)
        elif kind < 0.85 and self.open:
            self.finish(run, self.random.random() < 0.3)
        elif kind < 0.92:
            self.delete(run, alias)
        else:
            self.share(run, alias)

    # What the next run finds.

    def told(self, alias, key, more=0):
        """What a look-up is to tell of a key, or None where it has ended."""
        if key is None or key.left(more) == 0:
            return None
        return key.number, key.left(more)

    def settle(self, run):
        """Asks for each key, and takes what was under way as the store has it."""
        doubt, self.doubt = self.doubt, None
        for alias in ALIASES:
            reply = run.ask(c=1, do="getKeyEntry", key=descriptor(alias))
            given = (reply["key"], reply.get("uses")) if reply["code"] == 0 else None
            wanted = self.told(alias, self.keys.get(alias))
            if given == wanted:
                continue
            if doubt is None or doubt[1] != alias or not self.takes(doubt, given):
                raise Lost(f"alias {alias} has {given} and not {wanted}; under way was {doubt}")
            self.found += 1
            doubt = None

    def takes(self, doubt, given):
        """Takes the change that was under way, where it is what is found."""
        kind, alias, *rest = doubt
        if kind == "use" and given == self.told(alias, rest[0], 1):
            self.use(alias, rest[0])
            return True
        if kind == "delete" and given is None:
            self.put(alias, None)
            return True
        if kind == "make" and given is not None and given[1] == rest[0] and given[0] > self.last():
            self.put(alias, Key(given[0], rest[0]))
            return True
        return False

    def last(self):
        """The greatest number of a key by now."""
        return max((key.number for key in [*self.keys.values(), *self.ended]), default=0)

    def check_ended(self, run):
        """No key that has ended can be used, by its number, and none gave more outputs than its limit."""
        for key in [*self.ended[-20:], *self.random.sample(self.ended, min(10, len(self.ended)))]:
            reply = run.ask(c=1, do="createOperation", key={"domain": KEY_ID, "nspace": key.number}, params=SIGNING)
            if (reply["code"], reply.get("rule")) != (7, "B4"):
                raise Lost(f"key {key.number} has ended, and a begin on it got {reply}")
        for key in [*self.keys.values(), *self.ended]:
            if key.limit is not None and not key.outputs <= key.uses <= key.limit:
                raise Lost(f"key {key.number} has limit {key.limit}, {key.uses} uses and {key.outputs} outputs")

    def go(self, run):
        """One run, until it is killed. What was under way stays in doubt until a run told all of it."""
        self.open = {}
        waiting = self.doubt
        try:
            run.ask(do="connect", uid=UID)
            self.settle(run)
            waiting = None
            self.check_ended(run)
            while True:
                self.step(run)
        except Killed:
            if waiting is not None:
                self.doubt = waiting
            elif self.doubt is not None:
                self.under_way += 1
            run.end()


def main():
    parser = parser_of(__doc__)
    parser.add_argument("--seed", type=int, default=7, metavar="N")
    parser.add_argument("--kills", type=int, default=1000, metavar="N")
    # Some runs are killed while their store is read, most amid their lines.
    parser.add_argument(
        "--longest", type=float, default=0.03, metavar="SECONDS", help="after which a run is killed at the latest"
    )
    parser.add_argument(
        "--folder", type=Path, default=None, metavar="PATH", help="where the stores stand, in place of memory"
    )
    add_program(parser)
    words = parser.parse_args()
    program = words.program
    clients = []
    kills = 0
    try:
        for first in range(0, words.kills, KILLS_PER_STORE):
            client = Client(f"{words.seed} {first}")
            clients.append(client)
            with scratch_folder() if words.folder is None else tempfile.TemporaryDirectory(dir=words.folder) as folder:
                subprocess.run([program, "init"], cwd=folder, check=True)
                for _ in range(min(KILLS_PER_STORE, words.kills - first)):
                    client.go(Run(program, folder, client.random.uniform(0, words.longest)))
                    kills += 1
    except Lost as lost:
        print(f"after {kills} kills: {lost}")
        return 1
    counts = [
        sum(getattr(client, name) for client in clients)
        for name in ("answered", "changes", "uses", "under_way", "found")
    ]
    print(
        "{} kills: {} lines answered, {} keys made or deleted and {} uses acknowledged, all there;".format(
            kills, *counts[:3]
        )
    )
    print("{} such changes under way at a kill, of which {} had come".format(*counts[3:]))
    return 0
