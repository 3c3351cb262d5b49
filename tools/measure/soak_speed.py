"""Measures a load beside the same lines as a script.

    tools/ks measure soak_speed [ROUNDS] [--seed SEED] [--lines N] [--program PATH]

`soak SEED N` makes its lines itself, over a store in memory, and writes a summary; `run --fresh` reads the same
lines, over a file, and writes each reply. Both count the time of the program's own processor, by turns. It prints
lines a second for each, of the middle round, and the ratio; the file lies in memory, where the machine has such a
place."""
import os
import statistics
from pathlib import Path

from keystore.harness import add_program, parser_of, processor_seconds
from keystore.scratch import scratch_folder
from make.soak_lines import lines


def main():
    ask = parser_of(__doc__)
    ask.add_argument("rounds", nargs="?", type=int, default=5)
    ask.add_argument("--seed", type=int, default=7)
    ask.add_argument("--lines", type=int, default=100_000)
    add_program(ask)
    ask = ask.parse_args()
    runs = {"soak": [ask.program, "soak", str(ask.seed), str(ask.lines)], "run": [ask.program, "run", "--fresh"]}
    with scratch_folder("soak-speed-") as folder:
        script = os.path.join(folder, "load.jsonl")
        Path(script).write_text("".join(f"{line}\n" for line in lines(ask.seed, ask.lines)), encoding="ascii")
        times = {name: [] for name in runs}
        for _ in range(ask.rounds):
            for name, words in runs.items():
                times[name].append(processor_seconds(words, script, folder)[0])
    rate = {name: (ask.lines + 7) / statistics.median(seconds) for name, seconds in times.items()}
    for name, seconds in times.items():
        print(f"{name:<5} {rate[name]:12,.0f} lines a second, from {min(seconds):.2f} to {max(seconds):.2f} seconds")
    print(f"ratio {rate['soak'] / rate['run']:12.2f}")
