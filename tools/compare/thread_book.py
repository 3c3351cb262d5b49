"""Lets threads call one service, and replays its book by the second model of the rules.

    tools/ks compare thread_book [RUNS] [--rounds N] [--threads N] [--busy N] [--book FILE]

The program of `crates/keystore_threads`, which `rt run` leaves there, has N threads (8 without the word) make macs
with a key of their own and with one that all use and that five uses end, and writes its book as a trace. The events of
that trace, in its order, go to the second model, which has to give the same replies and to draw the same bytes.
Counted are the macs of the key that all use, which have to be as many as its limit, or as the tries where these are
fewer, and all macs, which have to be those that the threads were given. With --busy so many loops that do nothing else
keep the processors busy beside the runs, and are ended with the tool. With --book it looks at the book that a file
has, as the program wrote it, in place of runs. It needs the Python package `cryptography`."""
import json
import pathlib
import subprocess
import sys

from keystore.harness import TOP, add_busy, busy_loops, parser_of
from keystore.script_events import Malformed
from model.second_model import Service
from model.trace_lines import compact, entry_of

CRATE = "crates/keystore_threads"
PROGRAM = TOP / CRATE / "out/keystore_threads"
SLOTS = 1024
LIMIT = 5
SECONDS = 60
ALL_USE = b"us"
MAC = "b0344c61d8db38535ca8afceaf0bf12b881dc200c9833da726e9376c2e32cff7"


class Differs(Exception):
    """The book is not one of the rules."""


def acted_of(number, line):
    """The event of an entry, with the bytes that were drawn for it and its reply."""
    try:
        entry = entry_of(line.encode())
    except Malformed as fault:
        raise Differs(f"entry {number} is no line of a trace") from fault
    if isinstance(entry, bool):
        raise Differs(f"entry {number} settles an earlier change")
    return entry


def macs_of(lines):
    """Replays a book. Gives how many macs of the known text it has, and how many of them are of the key that all
    use."""
    service, aliases, macs = Service(slots=SLOTS), {}, []
    for number, line in enumerate(lines, 1):
        event, drawn, reply = acted_of(number, line)
        operation = service.out.get(event.get("ticket"))
        wanted, bytes_wanted = service.reply(event), service.entropy.taken()
        if wanted != reply:
            raise Differs(f"entry {number} is answered {reply} and not {wanted}")
        if bytes_wanted != drawn:
            raise Differs(f"entry {number} drew {drawn.hex()} and not {bytes_wanted.hex()}")
        if event["act"] == "createOperation" and "op" in reply:
            aliases[reply["op"]] = event["key"]["alias"]
        if reply.get("out") == MAC:
            macs.append(aliases[operation.number])
    return len(macs), macs.count(ALL_USE)


def check_book(lines, rounds, threads):
    """Looks at a book, and at the line behind it."""
    book, last = lines[:-1], lines[-1]
    macs, shared = macs_of(book)
    if shared != min(LIMIT, threads * rounds) or macs != threads * rounds + shared:
        raise Differs(f"{macs} macs, {shared} of them of the key that all use")
    if last != f"{threads} threads: {macs} macs, {len(book)} entries":
        raise Differs(f"the threads were told otherwise: {last}")


def another(value):
    """Another number, or another text of digits."""
    if isinstance(value, int):
        return value + 1
    last = value[-1:] or "0"
    digits = "0123456789" if last in "0123456789" else "abcdef"
    return value[:-1] + digits[(digits.index(last) + 1) % len(digits)] if value else "07"


def with_another_reply(line):
    """The line of an entry whose reply is another one."""
    entry = json.loads(line)
    reply = entry["reply"]
    name = next((it for it in reply if it != "code"), "count")
    return compact(entry | {"reply": reply | {name: another(reply.get(name, 0))}}).decode()


def check_changed(book):
    """No book passes in which one reply is changed."""
    for place, line in enumerate(book):
        try:
            macs_of([*book[:place], with_another_reply(line)])
        except Differs as differs:
            if not str(differs).startswith(f"entry {place + 1} is answered"):
                raise
        else:
            raise Differs(f"the model takes another reply to entry {place + 1}")


def lines_of_run(rounds, threads):
    """What a run of the program writes."""
    words = [PROGRAM, "book", str(rounds), str(threads)]
    return subprocess.run(words, capture_output=True, text=True, check=True, timeout=SECONDS).stdout.splitlines()


def main():
    parser = parser_of(__doc__)
    parser.add_argument("runs", nargs="?", type=int, default=1, metavar="RUNS")
    parser.add_argument("--rounds", type=int, default=3, metavar="N")
    parser.add_argument("--threads", type=int, default=8, metavar="N")
    add_busy(parser)
    parser.add_argument("--book", type=pathlib.Path, metavar="FILE")
    words = parser.parse_args()
    if words.book is None and not PROGRAM.exists():
        sys.exit(f"thread_book: there is no program yet: run `rt run` in {CRATE}")
    try:
        with busy_loops(words.busy):
            for _ in range(words.runs):
                lines = words.book.read_text().splitlines() if words.book else lines_of_run(words.rounds, words.threads)
                check_book(lines, words.rounds, words.threads)
    except Differs as differs:
        sys.exit(f"thread_book: {differs}")
