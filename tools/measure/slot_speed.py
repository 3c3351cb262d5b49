"""Measures steps by how many operations are open.

    tools/ks measure slot_speed [ROUNDS] [--program PATH]

Each kind of step with 16 operations open beside 1,024, each of another uid: a begin that prunes where all slots are
taken, an update of the operation that began last, an abort of the one that began first with a begin in its place, and
a client that comes and goes. The time is that of the program's own processor, without that of a run that only makes
what is open. It prints microseconds a line for both and their ratio, of the least of all rounds, which are taken by
turns. Then the same of a look at the oldest idle operation of one of two uids, with 2 slots taken beside 1,024: its
program (tools/measure/slot_speed/main.rt.in) is proved and built in a folder for the time of the run, over copies of
the crates with what earlier checks kept of them."""
import os
import sys
import tempfile
from pathlib import Path

from keystore.harness import add_program, parser_of, processor_seconds
from measure.own_program import run_over
from keystore.scratch import scratch_folder

STEPS = 100_000
MAC = '[["PURPOSE",2],["ALGORITHM",128],["DIGEST",4],["MIN_MAC_LENGTH",64],["NO_AUTH_REQUIRED",true]]'
KEY = '"key":{"domain":0,"alias":"k"}'
FEW, MOST = 16, 1_024
USED = ["tags", "slot_chain", "operation_slots"]
INVARIANTS = {"proofs/round/Invariants.antt": "Invariants.antt.in"}
FILES = {"src/main.rt": "main.rt.in", "specs/Lib.antt": None, "proofs/Lib.antt": None, **INVARIANTS}


def call(client, act, members):
    return f'{{"t":[0,1000],"c":{client},"do":"{act}",{members}}}'


def begin(client):
    return call(client, "createOperation", f'{KEY},"params":[["PURPOSE",2],["MAC_LENGTH",256]]')


def start(clients, count):
    """So many clients, each of a uid that has a key, and an operation of each of the first ones."""
    lines = [f'{{"t":[0,1000],"do":"connect","uid":{10001 + client}}}' for client in range(clients)]
    lines += [
        call(client + 1, "importKey", f'{KEY},"params":{MAC},"format":3,"material":"{"0b" * 20}"')
        for client in range(clients)
    ]
    return lines + [begin(client + 1) for client in range(count)]


def turns(count):
    """The operation that began first ends, and its client begins another."""
    for step in range(STEPS // 2):
        client = step % count + 1
        yield call(client, "abort", f'"op":{step + 1}')
        yield begin(client)


def visits():
    """A client comes and goes, behind as many as there are slots."""
    for client in range(MOST + 1, MOST + 1 + STEPS // 2):
        yield '{"t":[0,1000],"do":"connect","uid":10001}'
        yield f'{{"t":[0,1000],"c":{client},"do":"disconnect"}}'


# Of so many open operations the lines of the steps.
KINDS = {
    "createOperation that prunes": lambda count: [begin(i % count + 1) for i in range(STEPS)],
    "update of the last": lambda count: [call(count, "update", f'"op":{count},"input":"4869"')] * STEPS,
    "abort of the first, and begin": lambda count: list(turns(count)),
    "connect, and disconnect": lambda count: list(visits()),
}


def taken(program, slots, script, folder):
    """Seconds of processor; each line must be admitted."""
    seconds, said = processor_seconds([program, "run", "--fresh", "--slots", str(slots)], script, folder)
    other = [reply for reply in said.splitlines() if b'"code":0' not in reply]
    if other:
        sys.exit(f"slot_speed.py: a step has another reply than it should: {other[0][:100]}")
    return seconds


def look_times(folder):
    """Microseconds of a look with 2 slots taken, and with all."""
    _, said = run_over(USED, __file__, FILES, folder)
    rows = [line.split() for line in said.stdout.splitlines()]
    times = [[int(row[1]) / 1e9 for row in rows if row[0] == taken] for taken in ("2", str(MOST))]
    if not all(times):
        sys.exit("slot_speed.py: the program was not built")
    return [min(rounds) for rounds in times]


def tell(kind, pair, few, many):
    print(f"{kind:<30} {pair[0]:6} {few:8.3f} {pair[1]:6} {many:8.3f} {many / few:6.2f}")


def measured(program, rounds):
    """Prints a line a kind of step, of its two sizes."""
    with scratch_folder("slot-speed-") as place:
        runs = {}
        for kind, steps in KINDS.items():
            for count in (FEW, MOST):
                lines = start(MOST, count)
                for part in (False, True):
                    path = os.path.join(place, f"{len(runs)}")
                    Path(path).write_text("\n".join(lines + (steps(count) if part else [])), encoding="ascii")
                    runs[kind, count, part] = path, count if kind.startswith("create") else MOST, []
        for _ in range(rounds):
            for path, slots, times in runs.values():
                times.append(taken(program, slots, path, place))
    for kind in KINDS:
        few, many = (
            (min(runs[kind, count, True][2]) - min(runs[kind, count, False][2])) / STEPS * 1e6 for count in (FEW, MOST)
        )
        tell(kind, (FEW, MOST), few, many)


def main():
    ask = parser_of(__doc__)
    ask.add_argument("rounds", nargs="?", type=int, default=5)
    add_program(ask)
    ask = ask.parse_args()
    print(f"{'step':<30} {'open':>6} {'us':>8} {'open':>6} {'us':>8} {'ratio':>6}")
    measured(ask.program, ask.rounds)
    with tempfile.TemporaryDirectory(prefix="slot-speed-") as place:
        tell("look at the oldest", (2, MOST), *look_times(place))
