"""Measures upgrades that change a key beside imports that make the same key anew, and both by how many keys there are.

    tools/ks measure upgrade_speed [ROUNDS] [--program PATH]

A store of 4,096 keys, and one of 65,535, is made under a device. Then, each over a copy of it and under a device of the
next month's patches, a run upgrades each key, a run imports each anew under its alias, and a run connects alone. The
time is that of the program's own processor without that of the run that connects alone: of the least of all rounds,
which are taken by turns. It prints microseconds a key, with the reading and the spelling of the line and the calls of
the disk, and their ratios. The stores stand in memory where the machine has such a place."""
import shutil
import subprocess
import sys
from pathlib import Path

from keystore.device import DEMO_OS, DEMO_PATCH, DEMO_SECRETS, with_system
from keystore.harness import add_program, parser_of, processor_seconds
from keystore.scratch import scratch_folder
from measure.step_speed import call, named, new_key

SIZES = (4096, 65_535)
CONNECT = '{"t":[0,1000],"do":"connect","uid":10001}'
KINDS = {
    "upgradeKey": lambda number: call(1, "upgradeKey", named(number)),
    "importKey, rebinding": lambda number: new_key(1, named(number)),
}


def ran(program, folder, lines, patch):
    """Seconds of processor of a run over a folder's store, under a device of these patches; each line must be
    admitted."""
    device = folder / "device.key"
    device.write_bytes(with_system(DEMO_SECRETS, DEMO_OS, patch))
    device.chmod(0o600)
    script = folder.with_suffix(".script")
    script.write_text("\n".join(lines), encoding="ascii")
    seconds, said = processor_seconds([program, "run"], script, folder)
    other = [reply for reply in said.splitlines() if b'"code":0' not in reply]
    if other:
        sys.exit(f"upgrade_speed.py: a step has another reply than it should: {other[0][:100]}")
    return seconds


def taken(program, place, store, lines):
    """The same over a copy of a store, under the next month's patches."""
    folder = place / "copy"
    shutil.copytree(store, folder)
    try:
        return ran(program, folder, [CONNECT, *lines], DEMO_PATCH + 1)
    finally:
        shutil.rmtree(folder)


def main():
    parser = parser_of(__doc__)
    parser.add_argument("rounds", nargs="?", type=int, default=5)
    add_program(parser)
    given = parser.parse_args()
    with scratch_folder("upgrade-speed-") as name:
        place = Path(name)
        for size in SIZES:
            store = place / str(size)
            store.mkdir()
            subprocess.run([given.program, "init"], cwd=store, stdout=subprocess.DEVNULL, check=True)
            ran(given.program, store, [CONNECT, *(new_key(1, named(number)) for number in range(size))], DEMO_PATCH)
        times = {(kind, size): [] for kind in [None, *KINDS] for size in SIZES}
        for _ in range(given.rounds):
            for (kind, size), seconds in times.items():
                lines = [KINDS[kind](number) for number in range(size)] if kind else []
                seconds.append(taken(given.program, place, place / str(size), lines))
    each = {
        (kind, size): (min(times[kind, size]) - min(times[None, size])) / size * 1e6 for kind in KINDS for size in SIZES
    }
    print(f"{'keys':<22}" + "".join(f"{size:>10,}" for size in SIZES) + f"{'ratio':>7}")
    for kind in KINDS:
        few, many = (each[kind, size] for size in SIZES)
        print(f"{kind:<22}{few:10.1f}{many:10.1f}{many / few:7.2f}")
    ratios = [each["upgradeKey", size] / each["importKey, rebinding", size] for size in SIZES]
    print(f"{'upgradeKey over import':<22}{ratios[0]:10.2f}{ratios[1]:10.2f}")
