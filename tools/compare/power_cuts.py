"""What a loss of power may leave of a store, at each moment of a run of the program over a real file.

    tools/ks compare power_cuts [SEED] [COUNT] [--program PATH]

The library `store_calls.c` stands before the C library and keeps the bytes of each write of the store, and where a
sync came. So what the disk has at a moment is known, and what is on its way there: each write since the last sync may
be there, or not, or in part, or have left other bytes in its place, and the file may end anywhere between its old end
and the new one. Such images are drawn, and each is opened: by the reader of `keystore/store.py`, and by the program,
which tells the keys as they are there. What an image stands for is what the lines before the last reply left, or that
with the line under way; what these leave is what the second model says.

The scripts have each act that writes a record, with restarts and a key of an older system; imports that are compacted,
there and back; a use that is the last one as the change that compacts; a store of the first format that is brought
over; and a run that makes a store with two areas empty, of whose bytes each is old or new."""
import json
import os
import random
import subprocess
import sys
import tempfile
from pathlib import Path

from compare.failing_disk import kept_in, left_by
from keystore.every_act import CONNECTS, EVERY_ACT, MADE_BEFORE, OLDER, finish, limited
from keystore.harness import TOOLS, add_program, parser_of
from keystore.lines import APP, begin, call, connect, made, named
from keystore.runs import PATIENCE, make_store_on
from keystore.scratch import scratch_folder
from keystore.store import EMPTY, SELECTOR, SLACK, Lasting, lasting_in, read_store
from keystore.store_bytes import StoreBytes
from keystore.store_calls import StoreCalls
from model.second_model import Service, reply_line

UID = 10001
RESTARTS = {"restart"}
# Of a run with compactions most moments that are drawn lie near one.
NEAR = 40


class Lost(Exception):
    """An image that stands for what it may not."""


def text_of(lines):
    return b"".join(json.dumps(line, separators=(",", ":")).encode() + b"\n" for line in lines)


def part_of(store):
    """What a store stands for, as a value; or where it is wrong."""
    lasting, wrong = lasting_in(store)
    if wrong is not None:
        return wrong
    keys = sorted(tuple(sorted(key.items())) for key in lasting.keys)
    grants = sorted(tuple(sorted(row.items())) for row in lasting.grants)
    return tuple(keys), tuple(grants), lasting.next_key, lasting.next_grant


def outlined(part):
    """The keys and grants of it as the second model has them."""
    keys = {it["id"]: (it["domain"], it["nspace"], it["alias"], it["left"], it["list"]) for it in map(dict, part[0])}
    return keys, {it["grant"]: (it["key"], it["uid"], it["bits"]) for it in map(dict, part[1])}


class Moment:
    """What the disk has, the writes that are on their way, and how many replies have left."""

    def __init__(self, durable, pending, replies):
        self.durable, self.pending, self.replies = durable, pending, replies

    def image(self, draws, is_exact):
        """What a loss of power may leave; where it is exact each byte is old or new."""
        store = self.durable
        for at, data in self.pending:
            how = draws.choice(["old", "new", "cut", "mixed" if is_exact else "other"])
            if how == "new":
                store = store.put(at, data)
            elif how == "cut":
                store = store.put(at, data[: draws.randrange(len(data) + 1)])
            elif how == "mixed":
                old = store.padded(at, len(data))
                store = store.put(at, bytes(draws.choice(pair) for pair in zip(old, data)))
            elif how == "other":
                store = store.put(at, other_bytes(draws, data))
        if store.size > self.durable.size and draws.random() < 0.3:
            store = store.cut(draws.randint(self.durable.size, store.size))
        return store


def other_bytes(draws, data):
    """Bytes in the place of others: drawn ones, or the same with some that are drawn."""
    if draws.random() < 0.5:
        return draws.randbytes(len(data))
    at = draws.randrange(len(data))
    return data[:at] + draws.randbytes(1) + data[at + 1 :]


class Script:
    """Lines over a store, and the words of the run; the second model's store of the former, where it is not empty."""

    def __init__(self, name, lines, store=EMPTY, words=("run",), is_exact=False, model=None):
        self.name, self.lines, self.store, self.words, self.is_exact = name, lines, store, words, is_exact
        self.model = model

    def moments(self, program, calls, folder):
        """All moments of a run of it, and the parts that its replies leave, one behind the other."""
        path = folder / "store.ks"
        self.store.write(path)
        calls.begin()
        done = subprocess.run(
            [program, *self.words],
            input=text_of(self.lines),
            cwd=folder,
            env={**os.environ, **calls.environment()},
            capture_output=True,
            timeout=PATIENCE,
            check=False,
        )
        if done.returncode != 0:
            raise Lost(f"{self.name} ended with status {done.returncode}: {done.stderr.decode()}")
        durable, pending, replies, written = self.store, [], 0, iter(calls.written())
        moments, parts = [], [part_of(self.store)]
        for note in calls.notes():
            if note.kind == "w":
                pending = [*pending, (note.place, next(written))]
            elif note.kind == "s":
                durable, pending = put_all(durable, pending), []
            elif note.kind == "a":
                replies += 1
                parts.append(part_of(put_all(durable, pending)))
            moments.append(Moment(durable, pending, replies))
        self.check_parts(parts, done.stdout.splitlines())
        return moments, parts

    def check_parts(self, parts, replies):
        """What the replies leave is what the second model says, where it has the store before them."""
        if self.store is not EMPTY and self.model is None:
            return
        service = Service(slots=16, store=self.model)
        for place, (line, reply) in enumerate(zip(self.lines, replies), 1):
            wanted = json.loads(reply_line(service, text_of([line]).rstrip(b"\n")))
            given = json.loads(reply)
            if given.keys() != wanted.keys() or given["code"] != wanted["code"]:
                raise Lost(f"line {place} of {self.name} is answered {given} and not {wanted}")
            if outlined(parts[place]) != kept_in(service.store):
                raise Lost(f"line {place} of {self.name} leaves {outlined(parts[place])}")

    def may_be(self, moment, parts):
        """The parts that an image of a moment may stand for."""
        found = parts[moment.replies : moment.replies + 2]
        if "--fresh" in self.words and moment.replies == 0:
            found = [*found, part_of(EMPTY)]
        return found


def put_all(store, writes):
    for at, data in writes:
        store = store.put(at, data)
    return store


def near_turns(moments):
    """The moments near the write of a selector, or all where there is none."""
    turns = [
        place for place, it in enumerate(moments) if it.pending and it.pending[-1][0] == SELECTOR and place > 40
    ]
    near = {it for turn in turns for it in range(turn - NEAR, turn + NEAR) if 0 <= it < len(moments)}
    return [moments[it] for it in sorted(near)] or moments


def asks_of(part):
    """Lines that look at each key of an app, and what they are told."""
    lines, wanted = [], []
    for number, key in enumerate((dict(it) for it in part[0] if dict(it)["domain"] == APP), 1):
        lines += [connect(key["nspace"]), call(number, "getKeyEntry", key=named(key["alias"].decode()))]
        wanted.append((key["id"], key["left"] if key["limit"] else None))
    return lines, wanted


def check_image(program, folder, script, image, parts):
    """An image is opened by the reader and by the program."""
    found = part_of(image)
    if found not in parts:
        raise Lost(f"an image of {script.name} stands for {found} and not for one of {parts}: {image}")
    path = folder / "store.ks"
    image.write(path)
    lines, wanted = asks_of(found)
    done = subprocess.run(
        [program, "run"], input=text_of(lines), cwd=folder, capture_output=True, timeout=PATIENCE, check=False
    )
    told = [json.loads(it) for it in done.stdout.splitlines()[1::2]]
    given = [(it.get("key"), it.get("uses")) for it in told]
    if done.returncode != 0 or given != wanted:
        raise Lost(f"the program over an image of {script.name} tells {given} and not {wanted}: {image}")
    if part_of(StoreBytes.read(path)) != found:
        raise Lost(f"the program opens an image of {script.name} as something else: {image}")


def ran(program, folder, lines, store=EMPTY):
    """The store that lines leave."""
    path = folder / "store.ks"
    store.write(path)
    text = text_of(lines)
    subprocess.run([program, "run"], input=text, cwd=folder, capture_output=True, timeout=PATIENCE, check=True)
    return StoreBytes.read(path)


def last_use_that_compacts(program, folder):
    """A limited key, a begin on it, imports until the next change is due, and the key's use."""
    before = [CONNECTS[0].members, limited(1, "once", 1).members, begin(1, named("once"))]
    imports = [made(1, named("m"))] * 400
    records, _, _ = read_store(ran(program, folder, [*before, *imports]))
    lasting, first = Lasting(), records[0][0]
    for number, (at, kind, values) in enumerate(records):
        if at - first > SLACK + 2 * len(lasting.snapshot()):
            return [*before, *imports[: number - 1], finish(1, 1)]
        lasting.apply(kind, values)
    # They were compacted amid it: the records of the second area say when.
    rows = sum(1 for _, kind, _ in records if kind > 7)
    return [*before, *imports[: len(imports) - (len(records) - rows)], finish(1, 1)]


def scripts(program, folder):
    with open(TOOLS / "checks/older_store.json", encoding="utf-8") as kept:
        older = StoreBytes.of(bytes.fromhex(json.load(kept)["store"]))
    before = text_of([it.members for it in MADE_BEFORE])
    make_store_on(program, folder, OLDER, before)
    old, model = StoreBytes.read(folder / "store.ks"), left_by(before.splitlines(), OLDER)
    imports = [connect(UID), *[made(1, named("m"))] * 620]
    both = ran(program, folder, imports)
    return [
        Script("every act", [it.members for it in EVERY_ACT], old, model=model),
        Script("imports", imports),
        Script("a last use that compacts", last_use_that_compacts(program, folder)),
        Script("a store of the first format", [], older),
        Script("a store of the first format and a key", [connect(UID), made(1, named("m"))], older),
        Script("a store that is made empty", [connect(UID), made(1, named("m"))], both, ("run", "--fresh"), True),
    ]


def sweep(program, seed, count):
    """So many images of all scripts, each opened; gives how many of them differed from one another."""
    seen = set()
    with scratch_folder() as where, tempfile.TemporaryDirectory() as library:
        folder, calls = Path(where), StoreCalls(Path(library))
        draws = random.Random(seed)
        plans = [(script, *script.moments(program, calls, folder)) for script in scripts(program, folder)]
        for number in range(count):
            script, moments, parts = plans[number % len(plans)]
            moment = draws.choice(near_turns(moments) if draws.random() < 0.7 else moments)
            image = moment.image(draws, script.is_exact)
            found = (script.name, moment.replies, hash(image))
            if found not in seen:
                seen.add(found)
                check_image(program, folder, script, image, script.may_be(moment, parts))
    return len(seen)


def main():
    parser = parser_of(__doc__)
    parser.add_argument("seed", type=int, nargs="?", default=1, metavar="SEED")
    parser.add_argument("count", type=int, nargs="?", default=2000, metavar="COUNT")
    add_program(parser)
    given = parser.parse_args()
    try:
        found = sweep(given.program, given.seed, given.count)
    except Lost as lost:
        print(lost)
        return 1
    print(f"{given.count} images, {found} of which differ: each stands for what was acknowledged")
    return 0


if __name__ == "__main__":
    sys.exit(main())
