"""Makes random scripts, runs the program over each, and compares its reply lines with those of second_model.py.

    tools/ks compare random_scripts SEED COUNT [--program PATH] [--runs N]

With --runs each script is run over a fresh store, and N - 1 others after it over what the one before left, in the
same folder, so that what lasts is compared too; before each run but the first the versions of the device rise, fall
or stay. The same seed makes the same scripts. Of what is drawn only
challenges and blobs can be seen in them: a line whose reply would tell drawn bytes of another kind, or that would
make a usable key of them, is left out. So the randomness of the device does not matter. A token may have the
challenge of an operation, and a key the blob of another line; these are filled in as the program told them, so the
program gets each line once the one before is answered. For each script that differs the first line that differs is
printed, with the reply that the program gave and the one that the model wants; then how often each code was wanted,
and how many scripts differ. The exit status is 1 where one differs."""
import collections
import itertools
import json
import random
import subprocess
import tempfile
import threading
from pathlib import Path

from dialog import replies_of
from keystore.device import DEMO_DEVICE, with_system
from keystore.harness import add_program, parser_of
from make.script_maker import Maker, without_drawn
from keystore.scratch import scratch_folder
from model.values import DEMO_VERSIONS

# How many seconds a run may take, and how many characters of a line are printed.
MOST_SECONDS = 60
MOST_SHOWN = 400


def next_versions(seed, versions):
    """The versions of a device's system at its next run: each is one more or less than before, or stays."""
    drawn = random.Random(f"versions {seed}")
    return tuple(value + drawn.choice([-1, 0, 0, 1, 1]) for value in versions)


def replies_to(program, maker, folder, is_fresh):
    """The lines that the program writes over a script in a folder, and how the run ended where that is not with
    status 0."""
    words = [program, "run", *(["--fresh"] if is_fresh else []), "--slots", str(maker.slots)]
    with tempfile.TemporaryFile() as faults:
        process = subprocess.Popen(words, stdin=subprocess.PIPE, stdout=subprocess.PIPE, stderr=faults, cwd=folder)
        timer = threading.Timer(MOST_SECONDS, process.kill)
        timer.start()
        with process:
            replies = [without_drawn(reply.removesuffix(b"\n")) for reply in replies_of(process, maker.lines)]
            replies += process.communicate()[0].splitlines()
        timer.cancel()
        faults.seek(0)
        fault = faults.read().decode(errors="backslashreplace").strip()
    return replies, f"status {process.returncode} {fault}" if process.returncode != 0 else None


def shown(line):
    """A line as it is printed."""
    if line is None:
        return "no line"
    text = line.decode(errors="backslashreplace")
    return text if len(text) <= MOST_SHOWN else f"{text[:MOST_SHOWN]}.. ({len(line)} bytes)"


def print_difference(number, maker, given, fault):
    """Prints the first line that differs, with the script's number."""
    print(f"script {number}: {fault or 'other replies'}")
    for place, (line, reply, wanted) in enumerate(itertools.zip_longest(maker.lines, given, maker.replies)):
        if reply != wanted:
            print(f"  line {place + 1}  {shown(line)}\n  given   {shown(reply)}\n  wanted  {shown(wanted)}")
            return


def print_tally(replies):
    """Prints how often each code was wanted, and of which rule."""
    tally = collections.Counter()
    for reply in replies:
        members = json.loads(reply.replace(b":?", b":0"))
        tally[members["code"], members.get("rule", "")] += 1
    for (code, rule), count in sorted(tally.items()):
        print(f"{count:8} {code:5} {rule}".rstrip())


def scripts_of(program, seed, runs):
    """The makers of scripts over one store, each with what the program gave and its fault."""
    store, versions = None, DEMO_VERSIONS
    with scratch_folder() as folder:
        for run in range(runs):
            if run:
                versions = next_versions(f"{seed} {run}", versions)
                (Path(folder) / "device.key").write_bytes(with_system(DEMO_DEVICE, *versions))
            maker = Maker(f"{seed} {run}" if run else seed, store, versions)
            maker.script()
            yield maker, *replies_to(program, maker, folder, store is None)
            store = maker.service.store


def compare(program, seed, count, runs):
    """Compares so many scripts, and gives the number of those that differ."""
    replies = []
    differing = 0
    for number in range(1, count + 1):
        for maker, given, fault in scripts_of(program, f"{seed} {number}", runs):
            replies += maker.replies
            if fault is not None or given != maker.replies:
                differing += 1
                print_difference(number, maker, given, fault)
    print_tally(replies)
    print(f"{count * runs} scripts, {len(replies)} lines, {differing} differ")
    return differing


def main():
    parser = parser_of(__doc__)
    parser.add_argument("seed", type=int, metavar="SEED")
    parser.add_argument("count", type=int, metavar="COUNT")
    add_program(parser)
    parser.add_argument("--runs", type=int, default=1, metavar="N")
    words = parser.parse_args()
    return 1 if compare(words.program, words.seed, words.count, words.runs) > 0 else 0
