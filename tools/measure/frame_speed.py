"""Measures the reader of frames: `frame_speed.py` prints how long 16 MiB take byte by byte, against one piece.

The reader runs in a program of its own (tools/measure/frame_speed/), which is proved and built in a folder for the
time of the run, over copies of the crates. It reads a stream of 16,384 frames of 1,024 bytes five times each way, by
turns; the ratio is that of the middle times."""
import os
import statistics
import subprocess
import sys
import tempfile

from keystore.harness import parser_of
from measure.own_program import run_over

FILES = {"src/main.rt": "main.rt.in", "proofs/bytewise/Invariants.antt": "Invariants.antt.in"}


def main():
    parser_of(__doc__).parse_args()
    with tempfile.TemporaryDirectory(prefix="frame-speed-") as place:
        program, built = run_over(["wire_frames"], __file__, FILES, place)
        if not os.access(program, os.X_OK):
            sys.exit("frame_speed.py: the program was not built:\n" + (built.stdout + built.stderr)[-2000:])
        said = subprocess.run([program], capture_output=True, text=True, check=True).stdout
    taken = {"whole": [], "bytewise": []}
    for line in said.splitlines():
        kind, found, nanos = line.split()
        if int(found) != 16384:
            sys.exit(f"frame_speed.py: {found} requests in place of 16384")
        taken[kind].append(int(nanos) / 1e6)
    whole, bytewise = (statistics.median(taken[kind]) for kind in ("whole", "bytewise"))
    print(f"one piece {whole:.1f} ms, byte by byte {bytewise:.1f} ms, ratio {bytewise / whole:.1f}")
