"""How many turns a second the turn lock gives, beside a `Mutex` round the same list.

    tools/ks measure turns [TURNS] [--busy N] [--program PATH]

It runs the program of `crates/turn_list`, which `rt run` leaves there, with 1, 2, 4 and 8 threads that make TURNS
turns together (4,000,000 without the word), under the lock and under the mutex by turns, five times each. With
--busy so many loops that do nothing else keep the processors busy meanwhile, and are ended with the tool. It prints,
as Markdown, the turns a second of the middle run of each and their ratio. The time of a run without a turn is taken
off."""
import pathlib
import statistics
import subprocess
import sys
import time

from keystore.harness import TOP, add_busy, busy_loops, parser_of

PROGRAM = TOP / "crates/turn_list/out/turn_list"
THREADS = (1, 2, 4, 8)
RUNS = 5


def seconds(program, kind, items, threads):
    """The wall time of a run, which has to end well."""
    start = time.perf_counter()
    subprocess.run([program, kind, str(items), str(threads)], check=True, stdout=subprocess.DEVNULL)
    return time.perf_counter() - start


def print_rates(program, turns):
    """Prints a row for each number of threads."""
    print("| Threads | Turn lock | Mutex | Ratio |")
    print("|---|---|---|---|")
    for threads in THREADS:
        items, took = turns // threads, {"lock": [], "mutex": []}
        for _run in range(RUNS):
            for kind, runs in took.items():
                runs.append(seconds(program, kind, items, threads) - seconds(program, kind, 0, threads))
        rate = {kind: items * threads / max(statistics.median(runs), 1e-6) for kind, runs in took.items()}
        print(
            f"| {threads} | {rate['lock']:,.0f} | {rate['mutex']:,.0f} | {rate['lock'] / rate['mutex']:.3f} |",
            flush=True,
        )


def main():
    parser = parser_of(__doc__)
    parser.add_argument("turns", nargs="?", type=int, default=4_000_000, metavar="TURNS")
    add_busy(parser)
    parser.add_argument("--program", type=pathlib.Path, default=PROGRAM, metavar="PATH")
    words = parser.parse_args()
    if not words.program.exists():
        sys.exit("turns: there is no program yet: run `rt run` in crates/turn_list")
    with busy_loops(words.busy):
        print_rates(words.program, words.turns)
