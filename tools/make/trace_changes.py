"""Tells of each line of a trace which changes of one byte leave it a line of a trace.

    tools/ks make trace_changes < TRACE

Each byte of a line is changed alone: to `0`, `f`, `"`, `}` and a space, and taken away. These are numbered, six a byte,
from 0. Printed are, a line each, how many of them `model/trace_lines.py` reads as an entry, and the sum of their
numbers. The same numbers stand in `crates/program_tests/src/traces.rt`, where the proved reader has to read the
same."""
import sys

from keystore.harness import parser_of
from keystore.script_events import Malformed
from model.trace_lines import entry_of

CHANGES = [b"0", b"f", b'"', b"}", b" ", b""]


def is_line(line):
    try:
        entry_of(line)
    except Malformed:
        return False
    return True


def read_changes(line):
    """The numbers of the changes that are read."""
    for place in range(len(line)):
        for number, change in enumerate(CHANGES):
            if is_line(line[:place] + change + line[place + 1 :]):
                yield place * len(CHANGES) + number


def main():
    parser_of(__doc__).parse_args()
    for line in sys.stdin.buffer:
        read = list(read_changes(line.removesuffix(b"\n")))
        print(len(read), sum(read))
