"""Measures steps of a service whose app has 64 keys beside one that holds 65,536 in all.

    tools/ks measure step_speed [ROUNDS] [--program PATH]

For each kind of step a script makes the keys and then so many steps, each on another key; the time is that of the
program's own processor, without that of a run that only makes the keys. It prints microseconds a line for both, with
the reading and the spelling of the line, and their ratio: of the least of all rounds, which are taken by turns. A
listing is of another owner, who has 64 keys in both, and a clearing ends one key."""
import os
import sys
from pathlib import Path

from keystore.harness import add_program, parser_of, processor_seconds
from keystore.scratch import scratch_folder

# The first app's keys; with the second's, and the one that a clearing ends, the greater number makes 65,536 in all.
SIZES = (64, 65_471)
STEPS = 200_000
MAC = '[["PURPOSE",2],["ALGORITHM",128],["DIGEST",4],["MIN_MAC_LENGTH",64],["NO_AUTH_REQUIRED",true]]'


def call(client, act, members):
    return f'{{"t":[0,1000],"c":{client},"do":"{act}",{members}}}'


def named(alias):
    return f'"key":{{"domain":0,"alias":"key-{alias:05}"}}'


def new_key(client, key):
    return call(client, "importKey", f'{key},"params":{MAC},"format":3,"material":"{"0b" * 20}"')


def start(size):
    """Three clients, and the keys of the first two."""
    lines = [f'{{"t":[0,1000],"do":"connect","uid":{uid}}}' for uid in (10001, 10002, 1000)]
    lines += [new_key(1, named(number)) for number in range(size)]
    return lines + [new_key(2, named(number)) for number in range(64)]


def begin(i, key):
    sign = '"params":[["PURPOSE",2],["MAC_LENGTH",256]]'
    return [call(1, "createOperation", f"{named(key)},{sign}"), call(1, "abort", f'"op":{i + 1}')]


def clear(i, key):
    space = '"domain":2,"nspace":100'
    return [new_key(3, f'"key":{{{space},"alias":"a"}}'), call(3, "clearNamespace", space)]


KINDS = {
    "createOperation, abort": begin,
    "getKeyEntry": lambda i, key: [call(1, "getKeyEntry", named(key))],
    "importKey, rebinding": lambda i, key: [new_key(1, named(key))],
    "upgradeKey, nothing changes": lambda i, key: [call(1, "upgradeKey", named(key))],
    "deleteKey, importKey": lambda i, key: [call(1, "deleteKey", named(key)), new_key(1, named(key))],
    "grant, ungrant": lambda i, key: [
        call(1, "grant", f'{named(key)},"uid":7,"bits":256'),
        call(1, "ungrant", f'{named(key)},"uid":7'),
    ],
    "getNumberOfEntries": lambda i, key: [call(1, "getNumberOfEntries", '"domain":0')],
    "listEntriesBatched, 64 keys": lambda i, key: [call(2, "listEntriesBatched", '"domain":0')] if i % 10 == 0 else [],
    "importKey, clearNamespace": clear,
}


def script_of(kind, size):
    lines = start(size)
    for i in range(STEPS):
        lines += KINDS[kind](i, i * 7919 % size) if kind else []
    return lines


def taken(program, script, folder):
    """Seconds of processor; each line must be admitted."""
    seconds, said = processor_seconds([program, "run", "--fresh"], script, folder)
    other = [reply for reply in said.splitlines() if b'"code":0' not in reply]
    if other:
        sys.exit(f"step_speed.py: a step has another reply than it should: {other[0][:100]}")
    return seconds


def main():
    ask = parser_of(__doc__)
    ask.add_argument("rounds", nargs="?", type=int, default=5)
    add_program(ask)
    ask = ask.parse_args()
    runs = [(kind, size) for kind in [None, *KINDS] for size in SIZES]
    with scratch_folder("step-speed-") as place:
        scripts, counts = {}, {}
        for number, run in enumerate(runs):
            lines = script_of(*run)
            scripts[run], counts[run] = os.path.join(place, str(number)), len(lines)
            Path(scripts[run]).write_text("\n".join(lines), encoding="ascii")
        times = {run: [] for run in runs}
        for _ in range(ask.rounds):
            for run, script in scripts.items():
                times[run].append(taken(ask.program, script, place))
    least = {run: min(seconds) for run, seconds in times.items()}
    print(f"{'steps':<30} {'64 keys':>10} {'65,536':>10} {'ratio':>6}")
    for kind in KINDS:
        few, many = (
            (least[kind, size] - least[None, size]) / (counts[kind, size] - counts[None, size]) * 1e6 for size in SIZES
        )
        print(f"{kind:<30} {few:10.1f} {many:10.1f} {many / few:6.2f}")
