"""Measures keys that come wrapped beside imports of the same keys, and both by how many keys there are.

    tools/ks measure wrapped_speed [ROUNDS] [--program PATH]

A script makes a key that wraps and others, 64 or 65,536 in all, and then makes STEPS keys anew under their aliases: by
importWrappedKey, each opened under the key that wraps, or by importKey with the same list and the same 16 bytes in the
clear. The time is that of the program's own processor without that of a run that only makes the keys: of the least of
all rounds, which are taken by turns. It prints microseconds a key, with the reading and the spelling of the line and
the calls of the disk; how much an importWrappedKey takes over an importKey, which is to be at most 2.5; and how much
each takes at 65,536 keys over 64, which is to be at most 2 for the former. The stores stand in memory where the machine
has such a place. It needs the Python package `cryptography`."""
import sys
from pathlib import Path

from cryptography.hazmat.primitives.keywrap import aes_key_wrap

from keystore.harness import add_program, parser_of, processor_seconds
from keystore.scratch import scratch_folder
from measure.step_speed import MAC, call, named

# All keys of a store, the one that wraps among them.
SIZES = (64, 65_536)
STEPS = 200_000
CONNECT = '{"t":[0,1000],"do":"connect","uid":10001}'
WRAPPING_KEY, TEXT = bytes(range(16)), b"\x0b" * 16
WRAPPING = '"key":{"domain":0,"alias":"wrapping"}'
WRAPPING_LIST = '[["PURPOSE",5],["ALGORITHM",32],["NO_AUTH_REQUIRED",true]]'
WRAPPED = aes_key_wrap(WRAPPING_KEY, TEXT).hex()
# The most that an importWrappedKey may take over an importKey, and at the most keys over the fewest.
MOST_OVER_IMPORT, MOST_OVER_FEW = 2.5, 2.0


def imported(key, params, material):
    return call(1, "importKey", f'{key},"params":{params},"format":3,"material":"{material.hex()}"')


def wrapped(key):
    wrapping = WRAPPING.replace('"key"', '"wrapping"', 1)
    return call(1, "importWrappedKey", f'{key},"params":{MAC},{wrapping},"wrapped":"{WRAPPED}"')


KINDS = {
    "importKey": lambda key: imported(key, MAC, TEXT),
    "importWrappedKey": wrapped,
}


def script_of(kind, size):
    """The lines of a run: the keys, and the steps of a kind, none where there is no kind."""
    names = [named(number) for number in range(size - 1)]
    yield CONNECT
    yield imported(WRAPPING, WRAPPING_LIST, WRAPPING_KEY)
    yield from (imported(name, MAC, TEXT) for name in names)
    for step in range(STEPS if kind else 0):
        yield KINDS[kind](names[step * 7919 % len(names)])


def taken(program, script, folder):
    """Seconds of processor of a run over a script; each line must be admitted."""
    seconds, said = processor_seconds([program, "run", "--fresh"], script, folder)
    other = [reply for reply in said.splitlines() if b'"code":0' not in reply]
    if other:
        sys.exit(f"wrapped_speed.py: a step has another reply than it should: {other[0][:100]}")
    return seconds


def times_of(program, rounds):
    """The least seconds of each kind of run, of all rounds."""
    runs = [(kind, size) for kind in [None, *KINDS] for size in SIZES]
    with scratch_folder("wrapped-speed-") as place:
        scripts = {run: Path(place) / str(number) for number, run in enumerate(runs)}
        for run, script in scripts.items():
            script.write_text("\n".join(script_of(*run)), encoding="ascii")
        times = {run: [] for run in runs}
        for _ in range(rounds):
            for run, script in scripts.items():
                times[run].append(taken(program, script, place))
    return {run: min(seconds) for run, seconds in times.items()}


def main():
    parser = parser_of(__doc__)
    parser.add_argument("rounds", nargs="?", type=int, default=5)
    add_program(parser)
    given = parser.parse_args()
    least = times_of(given.program, given.rounds)
    each = {(kind, size): (least[kind, size] - least[None, size]) / STEPS * 1e6 for kind in KINDS for size in SIZES}
    print(f"{'keys':<32}" + "".join(f"{size:>10,}" for size in SIZES) + f"{'ratio':>8}")
    for kind in KINDS:
        few, many = (each[kind, size] for size in SIZES)
        most = f", at most {MOST_OVER_FEW}" if kind == "importWrappedKey" else ""
        print(f"{kind:<32}{few:10.1f}{many:10.1f}{many / few:8.2f}{most}")
    ratios = [each["importWrappedKey", size] / each["importKey", size] for size in SIZES]
    print(f"{'importWrappedKey over importKey':<32}{ratios[0]:10.2f}{ratios[1]:10.2f}, at most {MOST_OVER_IMPORT}")
