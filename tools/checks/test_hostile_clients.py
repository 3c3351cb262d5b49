"""Clients that go away in any way, a machine that has little, clocks that are moved and signals: the service goes on
for the others or ends, and no use of a key and nothing that was acknowledged is lost.

Thousands of connections are reset at once, amid a connect and behind a bad frame, and one amid a reply of 256 entries;
as many are opened as the system takes: then another client is answered, and the process has as many threads and
descriptors as before, and little more memory. Forty clients come at once to a service that has sixteen descriptors.
With less and less memory, down to where it does not start, each call has its reply, -41 or an end, and a key has as
many uses less as macs were given; where the service ended, also those whose reply did not come, at most. A token is
refused while the clocks say a time before its own, by a library before the C library, and lets its user in when they go
on. Behind SIGTERM, SIGINT and SIGHUP amid imports the store has each key that was acknowledged. A run that one client
fills with the longest frames still answers short calls of the next one, and at its end the service says how full it
was."""
import concurrent.futures
import contextlib
import os
import resource
import signal
import socket
import struct
import subprocess
import sys
import threading
import time

from keystore.cases import Case, each, needs_compiler, times
from keystore.harness import SLOWER, TOOLS, check
from keystore.runs import (
    PATIENCE,
    Run,
    check_held,
    free_port,
    held_by,
    make_store,
    memory_of,
    once_it_listens,
    service_process,
)
from keystore.session import BAD_FRAMES, CONNECT
from keystore.spelling import counted, u32, u64
from keystore.tokens import DEMO_KEY, mac_of
from keystore_client import Client, ConnectionEnded, Key, ServiceError, parameters

UID, SYSTEM, MANY = 10001, 1000, 65_536
# How many connections are reset, of which the memory of the process is looked at behind the first ones.
RESETS, FIRST = 3000, 1000
SENT = [b"", CONNECT[:3], BAD_FRAMES["no body"]]
KEYS, LISTINGS, LIST = 256, 20, counted(b"\x0f" + u32(0) + u64(0) + b"\0")
# How many connections the system keeps for a listener that takes none, at the least, and how long one waits for it.
KEPT, SHORT = 100, 0.5
DESCRIPTORS, WORKERS, CROWD = 16, 64, 40
MAC = {"PURPOSE": [2, 3], "ALGORITHM": 128, "DIGEST": [4], "MIN_MAC_LENGTH": 64}
FREE = parameters(**MAC, NO_AUTH_REQUIRED=True)
SIGNING = parameters(PURPOSE=[2], MAC_LENGTH=256)
MATERIAL = b"\x0b" * 20
# The uses of a key, and the room in bytes that a service has beside what it takes at its start: with the first it makes
# all that it is asked for, with the last it does not start.
USES, TURNS = 1000, 60
ROOMS = [2 << 20, 1 << 18, 1 << 17, 0, -(1 << 16)]
# How it may have ended: it goes on, want of memory, a fault of the disk or of the listener, or the system found no room
# for its libraries, or none for its stack to grow.
# The checked program aborts there.
ENDS, MEMORY = {None, 1, 6, 9, 127, -signal.SIGSEGV}, -41
if os.environ.get(SLOWER):
    ENDS.add(-signal.SIGABRT)
USER, HOUR = 7, 3_600_000
SOURCE = TOOLS / "checks/other_clocks.c"
ACKNOWLEDGED = 50
# The longest frame, an import whose list is none; the code of a run that is full; and how many fit at the least.
LONGEST = counted(b"\x04" + Key("m").spelled() + counted(bytes(262_112)) + u32(3) + counted(b""))
RUN_FULL, FITTING = 1001, 2000


def reset(stream):
    """Ends a connection by a reset."""
    stream.setsockopt(socket.SOL_SOCKET, socket.SO_LINGER, struct.pack("ii", 1, 0))
    stream.close()


def connected(port, uid=UID):
    return Client.connect(uid, port=port, timeout=PATIENCE, patience=PATIENCE)


def count_at(port):
    with connected(port) as client:
        return client.getNumberOfEntries().count


def held_beside(port, process):
    """What a service has of threads and descriptors while a client is connected."""
    with connected(port) as client:
        client.getNumberOfEntries()
        return held_by(process)


def come_and_go(port, number):
    """A connection that sends something, and is reset."""
    stream = socket.create_connection(("127.0.0.1", port), PATIENCE)
    with contextlib.suppress(ConnectionError):
        stream.sendall(SENT[number % len(SENT)])
    reset(stream)


def taken(port):
    """As many connections as the system takes."""
    with contextlib.ExitStack() as stack:
        count = 0
        with contextlib.suppress(TimeoutError):
            while True:
                stack.enter_context(socket.create_connection(("127.0.0.1", port), SHORT))
                count += 1
        return count


class Crowds(Case):
    def setUp(self):
        make_store(self.program, self.folder)

    def test_thousands_of_connections_that_are_reset(self):
        with service_process(self.program, self.folder, MANY, 2) as (port, process):
            before = held_beside(port, process)
            for number in range(RESETS * times()):
                come_and_go(port, number)
                if number == FIRST:
                    room = memory_of(process, "VmRSS")
            check("a client behind them", count_at(port), 0)
            check_held(process, before)
            self.assertLess(memory_of(process, "VmRSS"), 1.1 * room)

    def test_a_client_that_is_reset_amid_a_reply(self):
        with service_process(self.program, self.folder, MANY, 1) as (port, process):
            with connected(port) as client:
                for number in range(KEYS):
                    client.importKey(Key(f"{number:0250}"), FREE, MATERIAL)
                before = held_by(process)
            for _ in range(10):
                stream = socket.create_connection(("127.0.0.1", port), PATIENCE)
                stream.sendall(CONNECT + LIST * LISTINGS)
                check("the front of the replies", bool(stream.recv(1000)), True)
                reset(stream)
            check("a client behind them", count_at(port), KEYS)
            check_held(process, before)

    def test_as_many_connections_as_the_system_takes(self):
        with service_process(self.program, self.folder, MANY, 2) as (port, process):
            with once_it_listens(connected, port) as one, connected(port) as other:
                check("the clients", [it.getNumberOfEntries().count for it in (one, other)], [0, 0])
                before = held_by(process)
                self.assertGreater(taken(port), KEPT)
                check("the clients beside them", [it.getNumberOfEntries().count for it in (one, other)], [0, 0])
            check("a client behind them", count_at(port), 0)
            check("the end of the service", process.poll(), None)
            check_held(process, before)

    def test_more_clients_than_descriptors(self):
        limits = [(resource.RLIMIT_NOFILE, DESCRIPTORS)]
        with service_process(self.program, self.folder, MANY, WORKERS, limits=limits) as (port, process):
            with concurrent.futures.ThreadPoolExecutor(CROWD) as crowd:
                came = [crowd.submit(count_at, port) for _ in range(CROWD)]
                check("the clients", [it.result() for it in came], [0] * CROWD)
            check("the end of the service", process.poll(), None)


def one_mac(client):
    """Whether a mac was made: None where nobody knows."""
    try:
        op = client.createOperation(Key("m"), SIGNING).op
    except (ServiceError, ConnectionEnded):
        return False
    try:
        return len(client.finish(op, b"Hi There").out) == 32
    except ServiceError as error:
        check("the code of a finish", error.code, MEMORY)
        return None
    except ConnectionEnded:
        return None


@each([(f"{room >> 10} KiB beside the start", room) for room in ROOMS])
class LittleMemory(Case):
    def show(self, room):
        make_store(self.program, self.folder)
        with service_process(self.program, self.folder, MANY) as (port, process):
            with connected(port) as client:
                client.importKey(Key("m"), parameters(**MAC, NO_AUTH_REQUIRED=True, USAGE_COUNT_LIMIT=USES), MATERIAL)
            least = memory_of(process, "VmSize")
        told, goes_on = self.told(least + room)
        if room in (ROOMS[0], ROOMS[-1]):
            check("the macs", set(told), {room == ROOMS[0]})
        with service_process(self.program, self.folder, MANY) as (port, _), connected(port) as client:
            spent = USES - client.getKeyEntry(Key("m")).uses
        self.assertLessEqual(told.count(True), spent)
        self.assertLessEqual(spent, len(told) - told.count(False))
        if goes_on:
            check("the uses that are spent, each of which gave its mac", spent, told.count(True))

    def told(self, most):
        """What came of each mac, over a service with so much memory, and whether it goes on."""
        limits = [(resource.RLIMIT_AS, most)]
        with service_process(self.program, self.folder, MANY, limits=limits) as (port, process):
            while process.poll() is None:
                with contextlib.suppress(ConnectionRefusedError):
                    socket.create_connection(("127.0.0.1", port)).close()
                    break
            told = []
            for turn in range(TURNS):
                with Client.connect(UID, port=port, timeout=PATIENCE, patience=0) as client:
                    told += [one_mac(client) for _ in range(1 + turn % 3)]
            self.assertIn(process.poll(), ENDS, "the end of the service")
            return told, process.poll() is None


@needs_compiler
class MovedClocks(Case):
    def move(self, boot, wall):
        (self.folder / "clocks").write_bytes(struct.pack("=qq", boot, wall))

    def test_a_token_of_a_later_time_is_refused_until_it_has_come(self):
        make_store(self.program, self.folder)
        library = self.folder / "other_clocks.so"
        subprocess.run(["cc", "-shared", "-fPIC", "-O1", "-o", library, SOURCE], check=True)
        environment = {"LD_PRELOAD": str(library), "OTHER_CLOCKS": str(self.folder / "clocks")}
        self.move(0, 0)
        with service_process(self.program, self.folder, MANY, environment=environment) as (port, process):
            with connected(port, SYSTEM) as client:
                opened = {"USER_SECURE_ID": [USER], "USER_AUTH_TYPE": 1, "AUTH_TIMEOUT": HOUR // 1000}
                client.importKey(Key("m"), parameters(**MAC, **opened), MATERIAL)
                now = time.clock_gettime_ns(time.CLOCK_MONOTONIC) // 1_000_000
                token = {"challenge": 0, "user": USER, "authenticator": 0, "kind": 1, "time": now}
                client.addAuthToken(*token.values(), mac_of(DEMO_KEY, token))
                told = []
                for boot, wall in [(0, 0), (-HOUR, 0), (0, -HOUR), (HOUR // 2, HOUR), (2 * HOUR, 0), (0, -(1 << 62))]:
                    self.move(boot, wall)
                    told.append(self.begins(client))
                check("the begins", told, [True, (-26, "B15"), True, True, (-26, "B15"), True])
            check("the end of the service", process.poll(), None)

    def begins(self, client):
        try:
            return client.createOperation(Key("m"), SIGNING).op > 0
        except ServiceError as error:
            return error.code, error.rule


def import_on(port, acknowledged, going):
    """Imports keys until the connection ends; `going` is set when some were acknowledged."""
    with contextlib.suppress(ConnectionEnded), Client.connect(UID, port=port, patience=PATIENCE) as client:
        while True:
            alias = f"{len(acknowledged):08}"
            client.importKey(Key(alias), FREE, MATERIAL)
            acknowledged.append(alias)
            if len(acknowledged) == ACKNOWLEDGED:
                going.set()


@each([(it.name, it) for it in (signal.SIGTERM, signal.SIGINT, signal.SIGHUP)])
class Signals(Case):
    def show(self, kind):
        make_store(self.program, self.folder)
        acknowledged, going = [], threading.Event()
        with service_process(self.program, self.folder, MANY) as (port, process):
            client = threading.Thread(target=import_on, args=(port, acknowledged, going))
            client.start()
            check("imports", going.wait(PATIENCE), True)
            process.send_signal(kind)
            check("the end of the service", process.wait(PATIENCE), -kind)
            client.join(PATIENCE)
        with Run(self.program, self.folder) as run:
            run.reply({"t": [0, 0], "do": "connect", "uid": UID})
            found = run.reply({"t": [0, 0], "c": 1, "do": "getNumberOfEntries", "domain": 0})["count"]
        self.assertIn(found - len(acknowledged), (0, 1))


def filled(port):
    """How many of the longest frames were answered before the run was full."""
    with socket.create_connection(("127.0.0.1", port), PATIENCE) as stream, stream.makefile("rb") as replies:
        stream.sendall(CONNECT)
        replies.read(int.from_bytes(replies.read(4), "big"))
        count, code = -1, 0
        while code != RUN_FULL:
            stream.sendall(LONGEST)
            reply = replies.read(int.from_bytes(replies.read(4), "big"))
            count, code = count + 1, int.from_bytes(reply[:4], "big", signed=True)
        check("what comes behind it", replies.read(), b"")
    return count


class FullRun(Case):
    def test_what_a_service_says_whose_run_was_full(self):
        make_store(self.program, self.folder)
        port = free_port()
        words = [self.program, "serve", str(port), "2", "1"]
        with subprocess.Popen(words, cwd=self.folder, stdout=subprocess.DEVNULL, stderr=subprocess.PIPE) as process:
            try:
                self.assertGreater(once_it_listens(filled, port), FITTING)
                check("a short call of the next client", count_at(port), 0)
                _, said = process.communicate(timeout=PATIENCE)
            finally:
                process.kill()
        check("the end of the service", process.returncode, 0)
        self.assertIn(b"keystore2: the run was full: ", said)


class KeptServing(Case):
    def kept(self, *words):
        """A service that is started again and again."""
        return subprocess.Popen(
            [sys.executable, TOOLS / "keep_serving.py", *words, "--program", self.program],
            cwd=self.folder,
            stderr=subprocess.DEVNULL,
        )

    def test_one_run_behind_another(self):
        make_store(self.program, self.folder)
        port = free_port()
        with self.kept(str(port), "1", "1") as loop:
            try:
                check("the clients of three runs", [count_at(port) for _ in range(3)], [0] * 3)
                check("the end of the loop", loop.poll(), None)
            finally:
                loop.terminate()
        check("the status of the loop", loop.returncode, 128 + signal.SIGTERM)

    def test_what_ends_it(self):
        with self.kept("0", "1", "1") as loop:
            check("without a store", loop.wait(PATIENCE), 7)
        with self.kept("0", "0", "1") as loop:
            check("with wrong words", loop.wait(PATIENCE), 2)
