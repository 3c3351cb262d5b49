"""Measures what a trace costs: `trace_speed.py [ROUNDS] [--program PATH] [--lines N] [--read]` prints ratios.

The program runs `run --fresh` with and without `--trace`, by turns, over N short lines (tools/ks make long_script) and
over the updates of 32 KiB of script_speed.py. The ratio is that of the middle times of its own processor, and the
memory the greatest resident size of a run with `--trace`.

With --read a program of its own (tools/measure/trace_speed/), which is proved and built in a folder for the time of
the run over copies of the crates, reads a line of a trace, and the line of its event, by turns."""
import os
import statistics
import subprocess
import sys
import tempfile
import time
from pathlib import Path

from keystore.harness import add_program, parser_of
from keystore.scratch import scratch_folder
from make.long_script import lines
from measure.own_program import run_over
from measure.script_speed import script_of
from model.trace_lines import compact

FILES = {"src/main.rt": "main.rt.in"}


def resident(process):
    """The greatest resident size of a process so far, in KiB; 0 where it has ended."""
    try:
        status = Path(f"/proc/{process.pid}/status").read_text(encoding="ascii")
    except OSError:
        return 0
    return int(status.split("VmHWM:")[1].split()[0]) if "VmHWM:" in status else 0


def run_of(words, script, folder):
    """Seconds of processor of a run over a script, its greatest resident size in KiB, and how many bytes it wrote."""
    out = Path(folder) / "out"
    with open(script, "rb") as source, open(out, "wb") as sink:
        process = subprocess.Popen(words, stdin=source, stdout=sink, stderr=subprocess.DEVNULL, cwd=folder)
        most = 0
        while True:
            most = max(most, resident(process))
            ended, status, used = os.wait4(process.pid, os.WNOHANG)
            if ended:
                break
            time.sleep(0.005)
    process.returncode = os.waitstatus_to_exitcode(status)
    if process.returncode:
        sys.exit(f"trace_speed.py: {words} ended with status {process.returncode}")
    return used.ru_utime + used.ru_stime, most, out.stat().st_size


def show_runs(program, scripts, rounds, folder):
    """Prints a row for each script: its two times, their ratio, and the memory of the traces."""
    print(f"{'script':<8} {'replies s':>10} {'trace s':>10} {'ratio':>6} {'from':>6} {'to':>6} {'trace KiB':>10}")
    for name, script in scripts.items():
        plain, traced = [], []
        for _ in range(rounds):
            plain.append(run_of([program, "run", "--fresh"], script, folder))
            traced.append(run_of([program, "run", "--fresh", "--trace"], script, folder))
        ratios = [other[0] / one[0] for one, other in zip(plain, traced)]
        one, other = (statistics.median(it[0] for it in runs) for runs in (plain, traced))
        most = max(it[1] for it in traced)
        print(f"{name:<8} {one:10.2f} {other:10.2f} {other / one:6.2f} {min(ratios):6.2f} {max(ratios):6.2f} {most:10}")


def show_reading():
    """Prints how long the line of an entry takes, against that of its event."""
    with tempfile.TemporaryDirectory(prefix="trace-speed-") as place:
        program, built = run_over(["script_lines", "trace_lines"], __file__, FILES, place)
        if not os.access(program, os.X_OK):
            sys.exit("trace_speed.py: the program was not built:\n" + (built.stdout + built.stderr)[-2000:])
        said = subprocess.run([program], capture_output=True, text=True, check=True).stdout
    taken = {}
    for line in said.splitlines():
        kind, name, times, count, nanos = line.split()
        if times != count:
            sys.exit(f"trace_speed.py: {count} of {times} lines were read")
        taken.setdefault((kind, name), []).append(int(nanos) / int(times) / 1e3)
    for name in ("short", "long"):
        event, entry = (statistics.median(taken[kind, name]) for kind in ("event", "entry"))
        print(f"{name:<6} event {event:8.2f} us, entry {entry:8.2f} us, ratio {entry / event:.2f}")


def main():
    ask = parser_of(__doc__)
    ask.add_argument("rounds", nargs="?", type=int, default=7)
    ask.add_argument("--lines", type=int, default=300_000)
    ask.add_argument("--read", action="store_true")
    add_program(ask)
    ask = ask.parse_args()
    if ask.read:
        show_reading()
        return
    with scratch_folder("trace-speed-") as place:
        scripts = {name: os.path.join(place, name) for name in ("short", "updates")}
        with open(scripts["short"], "wb") as file:
            file.writelines(compact(line) + b"\n" for line in lines(ask.lines))
        Path(scripts["updates"]).write_text(script_of("seal"), encoding="ascii")
        show_runs(ask.program, scripts, ask.rounds, place)
