"""How many calls a second threads make of one service.

    tools/ks measure thread_speed [--rounds N] [--busy N] [--beside PATH]

The program of `crates/keystore_threads`, which `rt run` leaves there, lets 1, 2 and 4 threads make pairs of a begin
and a finish of a mac of eight bytes, and updates of 16 KiB, all over one service in memory. Each load is run five
times, the numbers of threads by turns, with N rounds in all (96,000 pairs, and 1,600 times 16 updates without the
word: the book takes 512 MiB of texts and no more). With --busy so many loops that do nothing else keep the
processors busy meanwhile, and are ended with the tool. With --beside the program at PATH, of another commit say,
makes the same calls by turns with this one. It prints, as Markdown, the calls a second of the middle run, their
ratio to one thread's, and the processor's time a call, of the middle run too. What a run without a round takes is
taken off."""
import resource
import statistics
import subprocess
import sys
import time

from keystore.harness import TOP, add_busy, busy_loops, parser_of, program_at

PROGRAM = TOP / "crates/keystore_threads/out/keystore_threads"
THREADS = (1, 2, 4)
RUNS = 5
# Of each kind: the rounds of all threads, and the calls of a round with their entries of the book. Each thread connects
# and imports a key first.
KINDS = {"macs": (96_000, 2, 3), "updates": (1_600, 18, 35)}


def times(program, kind, rounds, threads):
    """The wall time of a run, whose calls all have to be served, and its processor's time."""
    start, before = time.perf_counter(), resource.getrusage(resource.RUSAGE_CHILDREN)
    said = subprocess.run([program, kind, str(rounds), str(threads)], check=True, capture_output=True, text=True).stdout
    took, after = time.perf_counter() - start, resource.getrusage(resource.RUSAGE_CHILDREN)
    entries = threads * (2 + KINDS[kind][2] * rounds)
    if not said.endswith(f", {entries} entries\n"):
        sys.exit(
            f"thread_speed: {kind} of {threads} threads came to {said.rstrip()}, where {entries} entries are wanted"
        )
    return took, after.ru_utime + after.ru_stime - before.ru_utime - before.ru_stime


def times_a_call(programs, kind, rounds, calls):
    """The seconds a call of each program and number of threads, of the clock and of the processor."""
    took = {(name, threads): [] for threads in THREADS for name in programs}
    for _run in range(RUNS):
        for (name, threads), runs in took.items():
            made = rounds // threads * threads * calls
            pairs = zip(
                times(programs[name], kind, rounds // threads, threads), times(programs[name], kind, 0, threads)
            )
            runs.append([max(whole - empty, 1e-6) / made for whole, empty in pairs])
    return {key: tuple(map(statistics.median, zip(*runs))) for key, runs in took.items()}


def main():
    parser = parser_of(__doc__)
    parser.add_argument("--rounds", type=int, metavar="N")
    add_busy(parser)
    parser.add_argument("--beside", type=program_at, metavar="PATH")
    words = parser.parse_args()
    if not PROGRAM.exists():
        sys.exit("thread_speed: there is no program yet: run `rt run` in crates/keystore_threads")
    programs = {"this": PROGRAM, **({"beside": words.beside} if words.beside else {})}
    print("| Program | Calls | Threads | Calls a second | Ratio to one thread | Processor a call (microseconds) |")
    print("|---|---|---|---|---|---|")
    with busy_loops(words.busy):
        for kind, (rounds, calls, _entries) in KINDS.items():
            found = times_a_call(programs, kind, words.rounds or rounds, calls)
            for (name, threads), (clock, processor) in found.items():
                ratio = found[name, 1][0] / clock
                print(
                    f"| {name} | {kind} | {threads} | {1 / clock:,.0f} | {ratio:.2f} | {processor * 1e6:.1f} |",
                    flush=True,
                )
