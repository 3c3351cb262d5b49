#!/usr/bin/env python3
"""Runs the program over the script on standard input as a dialog: a line may need what an earlier reply told.

    python3 tools/dialog.py [WORDS OF THE PROGRAM ..] < SCRIPT

The words are `run --fresh` where none are given. A line addAuthToken of such a script may have "op N" as its
challenge and no mac: it gets the challenge that the reply to the begin of operation N told, and the mac that an
authenticator of the demo device makes. A line may have "line N" as the blob of its key: it gets the one that the
reply to line N told. With a member `flip` that bit of the mac, or of the blob, is turned. So a line is sent once the
reply to the one before is there. The replies are printed as they come. It builds the program first where it is not
built."""
import argparse
import json
import re
import subprocess
import sys

from keystore.harness import TOP, parser_of
from keystore.tokens import DEMO_KEY, mac_of

OPEN = re.compile(rb'"(?:challenge":"op|blob":"line) ([0-9]+)"')


def turned(data, members):
    """Bytes with the bit turned that a line names."""
    data = bytearray(data)
    if "flip" in members and data:
        place = members["flip"] % (8 * len(data))
        data[place // 8] ^= 1 << place % 8
    return data.hex()


class Told:
    """What the replies told by now: the challenge of each operation, and the blobs by their lines."""

    def __init__(self):
        self.challenges = {}
        self.blobs = {}
        self.lines = 0

    def filled(self, line):
        """A line with what it asks for; what no reply told is 0, or no bytes."""
        found = OPEN.search(line)
        if found is None:
            return line
        number, members = int(found.group(1)), json.loads(line)
        if members["do"] == "addAuthToken":
            members["challenge"] = self.challenges.get(number, 0)
            members["mac"] = turned(mac_of(DEMO_KEY, members), members)
        else:
            members["key"]["blob"] = turned(self.blobs.get(number, b""), members)
        return json.dumps(members, ensure_ascii=False, separators=(",", ":")).encode()

    def note(self, reply):
        """Keeps what the reply to the next line tells."""
        self.lines += 1
        if b'"challenge":' in reply:
            members = json.loads(reply)
            self.challenges[members["op"]] = members["challenge"]
        if b'"blob":' in reply:
            self.blobs[self.lines] = bytes.fromhex(json.loads(reply)["blob"])


def replies_of(process, lines, told=None):
    """The replies of a program to lines, each of which it gets once the one before is answered."""
    told = Told() if told is None else told
    for line in lines:
        try:
            process.stdin.write(told.filled(line) + b"\n")
            process.stdin.flush()
        except BrokenPipeError:
            return
        reply = process.stdout.readline()
        if reply == b"":
            return
        told.note(reply)
        yield reply


def main():
    parser = parser_of(__doc__)
    parser.add_argument(
        "words",
        nargs=argparse.REMAINDER,
        metavar="WORDS",
        help="the program's words, from its act on; else run --fresh",
    )
    words = parser.parse_args().words or ["run", "--fresh"]
    lines = sys.stdin.buffer.read().splitlines()
    with subprocess.Popen([TOP / "keystore2", *words], stdin=subprocess.PIPE, stdout=subprocess.PIPE) as process:
        for reply in replies_of(process, lines):
            sys.stdout.buffer.write(reply)
            sys.stdout.buffer.flush()
        process.stdin.close()
    return process.returncode


if __name__ == "__main__":
    sys.exit(main())
