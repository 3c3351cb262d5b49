"""Stores with bytes that were changed: the program and the reader of `keystore/store.py` find the same.

    tools/ks compare damaged_stores [SEED] [COUNT] [--program PATH]

Of a store that was written anew, into area B and back or not, one byte is changed, or ten; a range is made 00; or the
file is cut. The program ends with status 0 and keeps what the reader found, or with 7 at the reader's place, and then
every byte stays. What changes of one byte did is printed by the class of the byte: how often it was told, changed what
the store stands for, or changed nothing."""
import collections
import random
import subprocess
import sys
from pathlib import Path

from compare.power_cuts import UID, Lost, part_of, ran
from keystore.harness import add_program, parser_of
from keystore.lines import begin, call, connect, made, named
from keystore.runs import PATIENCE
from keystore.scratch import scratch_folder
from keystore.store import AREAS, MAGIC, SELECTOR, area_of, lasting_in, read_store
from keystore.store_bytes import StoreBytes

LIMITED = [["USAGE_COUNT_LIMIT", 5]]
CORRUPTED = 7
# The bytes of a record before its body: the gate and the length.
FRAME = 5


def stores(program, folder):
    """A store of area A, one that was written anew into area B, and one that was written back."""
    some = [
        connect(UID),
        made(1, named("once"), [*made(1, named("m"))["params"], *LIMITED]),
        call(1, "grant", key=named("once"), uid=UID + 1, bits=256),
        begin(1, named("once")),
        call(1, "finish", op=1, input="00"),
    ]
    imports = [made(1, named("m"))]
    return [ran(program, folder, some + imports * count) for count in (3, 300, 620)]


def classes_of(store):
    """The class of each byte that a reader may look at, by its place."""
    selected = area_of(store)
    other = next(it for it in AREAS if it != selected)
    found = {place: "magic" for place in range(len(MAGIC))}
    found[len(MAGIC)], found[SELECTOR] = "version", "selector"
    for area, name in ((other, "the other area"), (selected, "")):
        start = AREAS[area]
        for place in range(start, min(start + 400, store.size)):
            found[place] = name or "behind the records"
    records, end, _ = read_store(store)
    for (at, *_), behind in zip(records, [*(at for at, *_ in records[1:]), end]):
        found.update({place: "a body" for place in range(at + FRAME, behind)})
        found.update({place: "a length" for place in range(at + 1, at + FRAME)})
        found[at] = "an open gate"
    found[end] = "the shut gate"
    return found


def place_in(draws, classes):
    """A place, each class being drawn as often as the others."""
    name = draws.choice(sorted(set(classes.values())))
    return draws.choice([place for place, it in classes.items() if it == name])


def damaged(draws, store, classes):
    """The store with something changed, and the place where it is one byte."""
    how = draws.choice(["byte", "byte", "bytes", "zeros", "cut"])
    at = place_in(draws, classes)
    if how == "byte":
        return store.put(at, bytes([draws.choice([0, 0x31, 0x4B, 0xFF, draws.randrange(256)])])), at
    if how == "bytes":
        for _ in range(10):
            store = store.put(place_in(draws, classes), draws.randbytes(1))
        return store, None
    if how == "zeros":
        return store.put(at, bytes(draws.randrange(1, 300))), None
    return store.cut(min(at, store.size)), None


def check_store(program, folder, store):
    """The program opens a store as the reader does; gives what it stands for, or where it is wrong."""
    path, found = folder / "store.ks", part_of(store)
    store.write(path)
    done = subprocess.run([program, "run"], input=b"", cwd=folder, capture_output=True, timeout=PATIENCE, check=False)
    wrong = lasting_in(store)[1]
    told = done.stderr.splitlines()[:1]
    if wrong is not None:
        wanted = (CORRUPTED, [b"keystore2: store corrupted at %d" % wrong])
        if (done.returncode, told) != wanted or StoreBytes.read(path) != store:
            raise Lost(f"the program ends with {done.returncode}, {told} and not {wanted}: {store}")
    elif done.returncode != 0 or part_of(StoreBytes.read(path)) != found:
        raise Lost(f"the program ends with {done.returncode}, {told}, over a store that is one: {store}")
    return found


def sweep(program, seed, count):
    """So many damaged stores; gives what the changes of one byte did, by the class of the byte."""
    tally, draws = collections.Counter(), random.Random(seed)
    with scratch_folder() as where:
        folder = Path(where)
        plans = [(store, part_of(store), classes_of(store)) for store in stores(program, folder)]
        for number in range(count):
            store, part, classes = plans[number % len(plans)]
            changed, at = damaged(draws, store, classes)
            found = check_store(program, folder, changed)
            if at is not None and changed != store:
                what = "told" if isinstance(found, int) else "nothing" if found == part else "another part"
                tally[classes[at], what] += 1
    return tally


def main():
    parser = parser_of(__doc__)
    parser.add_argument("seed", type=int, nargs="?", default=1, metavar="SEED")
    parser.add_argument("count", type=int, nargs="?", default=10000, metavar="COUNT")
    add_program(parser)
    given = parser.parse_args()
    try:
        tally = sweep(given.program, given.seed, given.count)
    except Lost as lost:
        print(lost)
        return 1
    print(f"{given.count} stores: the same status, place and lasting part")
    for name in sorted({name for name, _ in tally}):
        row = ", ".join(f"{what} {tally[name, what]}" for what in ("told", "another part", "nothing"))
        print(f"{name:20}{row}")
    return 0


if __name__ == "__main__":
    sys.exit(main())
