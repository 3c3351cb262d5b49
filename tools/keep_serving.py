#!/usr/bin/env python3
"""Keeps a service going: starts it again each time it has ended, over the store of the current folder.

    tools/keep_serving.py PORT CONNECTIONS WORKERS [--program PATH]

A run of the service ends behind its last connection, and the next one begins with an empty book: so no run is full
where CONNECTIONS are few enough (docs/PROTOCOL.md, "How far a run goes"). Behind status 0 the next one starts at
once, behind 1, 6 and 9 a second later; at any other, as 2 for wrong words and 7 for a store that is none, it ends
with that status. SIGTERM and SIGINT end the service, and it."""
import signal
import subprocess
import sys
import time

from keystore.harness import COMMAND, parser_of, program_at

# The statuses behind which a service is started again, each with a pause in seconds.
PAUSES = {0: 0.0, 1: 1.0, 6: 1.0, 9: 1.0}


def end_by(kind, _frame):
    raise SystemExit(128 + kind)


def kept(words):
    """Starts a service again and again, and gives the status that is its last."""
    while True:
        with subprocess.Popen(words) as service:
            try:
                status = service.wait()
            except BaseException:
                service.terminate()
                raise
        if status not in PAUSES:
            return status
        time.sleep(PAUSES[status])


def main():
    ask = parser_of(__doc__)
    for word in ("PORT", "CONNECTIONS", "WORKERS"):
        ask.add_argument(word.lower(), metavar=word)
    ask.add_argument("--program", type=program_at, default=COMMAND, metavar="PATH")
    given = ask.parse_args()
    for kind in (signal.SIGTERM, signal.SIGINT):
        signal.signal(kind, end_by)
    return kept([given.program, "serve", given.port, given.connections, given.workers])


if __name__ == "__main__":
    sys.exit(main())
