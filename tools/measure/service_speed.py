"""Measures `keystore2 serve`: pairs of a begin and a finish of a short mac, over one connection and over four at once,
beside other makers of such a mac.

    tools/ks measure service_speed [ROUNDS] [--seconds S] [--busy N] [--program PATH] [--beside PATH]

swtpm makes a mac by one TPM2_HMAC over a connection, of which it has one; SoftHSM by C_SignInit and C_Sign, in the
caller's process, so that no socket is between. A peer that is not installed is left out. Each client is a process of
its own, on the same machine, and asks when it has the answer to what it asked before; a client in Python takes a
good part of the time. All are measured by turns in one run. With --busy so many loops that do nothing else keep the
processors busy meanwhile, and are ended with the tool. With --beside the program at that path, of another commit
say, serves by turns with this one. It prints the middle round: frames and macs a second, and how many times as many
macs as one connection of the service."""
import contextlib
import functools
import hashlib
import hmac
import itertools
import multiprocessing
import statistics
import subprocess
import sys
import time

from keystore.harness import add_busy, add_program, busy_loops, parser_of, program_at
from keystore.runs import free_port
from keystore.spelling import counted, u32
from keystore_client import KINDS, Client, Key, exactly, parameters
from measure.mac_peers import KEY, SoftHsm, Token, Tpm, TpmServer, connected
from keystore.scratch import scratch_folder

APP, MOST, TEXT = 10001, 4, b"Hi There"
NAME = Key(alias="speed")
WANTED = hmac.new(KEY, TEXT, hashlib.sha256).digest()


class Service:
    """A connection to the service: a mac is a begin and a finish."""

    begin = counted(b"\x05" + NAME.spelled() + counted(parameters(PURPOSE=[2], MAC_LENGTH=256)) + b"\x00")

    def __init__(self, port):
        self.port = port

    def __enter__(self):
        self.stream = connected(self.port)
        self.answer(counted(b"\x01" + u32(APP)), 19)
        return self

    def __exit__(self, *_):
        self.stream.close()

    def answer(self, frame, length):
        self.stream.sendall(frame)
        return exactly(self.stream, length)

    def mac(self, text):
        op = self.answer(self.begin, 19)[11:]
        return self.answer(counted(b"\x08" + op + counted(text) + b"\x00"), 47)[15:]


def count_macs(maker, seconds, start, counts):
    """Makes macs for so many seconds, once all makers are there."""
    with maker() as peer:
        right = peer.mac(TEXT) == WANTED
        start.wait()
        count, end = 0, time.monotonic() + seconds
        while time.monotonic() < end:
            peer.mac(TEXT)
            count += 1
        counts.put(count if right else None)


def macs_a_second(maker, makers, seconds):
    start, counts = multiprocessing.Barrier(makers, timeout=60), multiprocessing.Queue()
    clients = [
        multiprocessing.Process(target=count_macs, args=(maker, seconds, start, counts), daemon=True)
        for _ in range(makers)
    ]
    for client in clients:
        client.start()
    made = [counts.get(timeout=60 + seconds) for _ in clients]
    for client in clients:
        client.join()
    if None in made:
        sys.exit("service_speed: a wrong mac")
    return sum(made) / seconds


class Started:
    """The service in a folder, with the key, for so many connections."""

    def __init__(self, program, folder, connections):
        subprocess.run([program, "init"], cwd=folder, check=True)
        self.port = free_port()
        self.process = subprocess.Popen(
            [program, "serve", str(self.port), str(connections + 1), str(MOST)], stderr=subprocess.DEVNULL, cwd=folder
        )

    def __enter__(self):
        with Client(connected(self.port)) as client:
            client.connect_as(APP)
            client.importKey(NAME, parameters(**KINDS["hmac"]), KEY)
        return self.port

    def __exit__(self, *_):
        self.process.kill()
        self.process.wait()


def measured(programs, folder, rounds, seconds):
    """Macs a second of each maker in each round, by its name. Each round has a service of its own, since the book of
    one has an end."""
    with contextlib.ExitStack() as stack:
        makers = {}
        if TpmServer.is_there():
            tpm = stack.enter_context(TpmServer(folder, free_port()))
            makers["swtpm, TPM2_HMAC"] = (functools.partial(Tpm, tpm), 1)
        if Token.is_there():
            stack.enter_context(Token(folder))
            makers["SoftHSM, C_Sign"] = (SoftHsm, 1)
            makers[f"SoftHSM, {MOST} processes"] = (SoftHsm, MOST)
        many = {one: f"{one}, {MOST} connections" for one in programs}
        found = {name: [] for name in [*itertools.chain(*many.items()), *makers]}
        for _ in range(rounds):
            for one, program in programs.items():
                with Started(program, folder, 1 + MOST) as port:
                    service = functools.partial(Service, port)
                    found[one].append(macs_a_second(service, 1, seconds))
                    found[many[one]].append(macs_a_second(service, MOST, seconds))
            for name, (maker, count) in makers.items():
                found[name].append(macs_a_second(maker, count, seconds))
    return found


def main():
    ask = parser_of(__doc__)
    ask.add_argument("rounds", nargs="?", type=int, default=3)
    ask.add_argument("--seconds", type=float, default=3.0, metavar="S")
    add_busy(ask)
    add_program(ask)
    ask.add_argument("--beside", type=program_at, metavar="PATH")
    words = ask.parse_args()
    programs = {"service": words.program, **({"service beside": words.beside} if words.beside else {})}
    with scratch_folder() as folder, busy_loops(words.busy):
        found = measured(programs, folder, words.rounds, words.seconds)
    middle = {name: statistics.median(macs) for name, macs in found.items()}
    for name, macs in middle.items():
        frames = f"{2 * macs:9,.0f} frames a second" if name.startswith("service") else " " * 25
        print(f"{name:<32}{macs:9,.0f} macs a second {frames} {macs / middle['service']:6.2f}")
