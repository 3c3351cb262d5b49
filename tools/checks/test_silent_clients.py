"""Clients that stay silent, or never read, hold their workers for the service's patience and no longer; and the
client in Python keeps no worker that it does not need.

The library `short_patience.c` gives each socket of the service a hundredth of the times that the program asks for,
which are 300 seconds for a read and 30 for a write. With two workers and two clients that are silent, at an edge and
within a frame, ten others wait behind them, and all are answered as soon as both have gone. A client that asks for
more than a socket takes, and reads nothing, is gone likewise.

The client connects at its first call, ends its connection behind a while without one, and comes again. A call whose
connection ends before its reply is not sent again, and is told apart from one that no service took, for which it
tries a while."""
import socket
import subprocess
import threading
import time

from keystore.cases import Case, needs_compiler
from keystore.harness import TOOLS, check
from keystore.runs import PATIENCE, free_port, make_store, once_it_listens, service, until
from keystore.spelling import counted
from keystore_client import Busy, Client, Key, Withheld, parameters

SOURCE = TOOLS / "checks/short_patience.c"
MAC = parameters(PURPOSE=[2, 3], ALGORITHM=128, DIGEST=[4], MIN_MAC_LENGTH=64, NO_AUTH_REQUIRED=True)
# What the program asks for, in milliseconds: for a connection, and for what a peer sends behind its end; and the
# hundredth of the first, in seconds.
ASKED = {"read 300000", "write 30000", "read 500"}
SHORT = 3.0
BEHIND, KEYS, LISTINGS = 10, 256, 400
UID = 10001
CONNECT, LIST = counted(bytes([1]) + UID.to_bytes(4, "big")), counted(bytes([15]) + bytes(4) + bytes(8) + b"\0")


@needs_compiler
class OverAService(Case):
    def setUp(self):
        make_store(self.program, self.folder)
        library, self.notes = self.folder / "short_patience.so", self.folder / "notes"
        subprocess.run(["cc", "-shared", "-fPIC", "-O1", "-o", library, SOURCE, "-ldl"], check=True)
        self.notes.write_bytes(b"")
        self.environment = {"LD_PRELOAD": str(library), "SHORT_PATIENCE": str(self.notes)}

    def asked(self):
        """The times that the program asked for."""
        return set(self.notes.read_text(encoding="utf-8").splitlines())

    def test_ten_behind_two_silent_clients_are_answered(self):
        answers, start = [], time.monotonic()

        def call(number):
            with Client.connect(UID + number, port=port, timeout=PATIENCE) as client:
                answers.append((client.getNumberOfEntries().count, time.monotonic() - start))

        with service(self.program, self.folder, 2 + BEHIND, 2, environment=self.environment) as port:
            with once_it_listens(socket.create_connection, ("127.0.0.1", port)) as edge, socket.create_connection(
                ("127.0.0.1", port)
            ) as within:
                edge.sendall(CONNECT)
                within.sendall(CONNECT[:3])
                check("the reply at the edge", bool(edge.recv(1 << 12)), True)
                threads = [threading.Thread(target=call, args=(number,)) for number in range(BEHIND)]
                for thread in threads:
                    thread.start()
                for thread in threads:
                    thread.join(PATIENCE)
                check("the silent ones", (edge.recv(1), within.recv(1)), (b"", b""))
        check("the answers", [count for count, _ in answers], [0] * BEHIND)
        self.assertGreater(min(when for _, when in answers), SHORT / 2)
        check("the times", self.asked(), ASKED)

    def test_one_behind_a_client_that_never_reads_is_answered(self):
        with service(self.program, self.folder, 3, 1, environment=self.environment) as port:
            with Client.connect(UID, port=port, timeout=PATIENCE, patience=PATIENCE) as client:
                for number in range(KEYS):
                    client.importKey(Key(f"{number:0250}"), MAC, b"\x0b" * 20)
            with socket.create_connection(("127.0.0.1", port)) as deaf:
                deaf.settimeout(PATIENCE)
                deaf.sendall(CONNECT + LIST * LISTINGS)
                with Client.connect(UID, port=port, timeout=PATIENCE, patience=PATIENCE) as client:
                    check("the keys", client.getNumberOfEntries().count, KEYS)

    def test_an_idle_client_comes_again(self):
        with service(self.program, self.folder, 3, 1) as port:
            with Client.connect(
                UID, port=port, timeout=PATIENCE, patience=PATIENCE, idle=0.2
            ) as client, Client.connect(UID, port=port, timeout=PATIENCE) as other:
                client.importKey(Key("m"), MAC, b"\x0b" * 20)
                check("the first client", client.number, 1)
                check("another one, over the one worker", other.getNumberOfEntries().count, 1)
                other.close()
                check("the keys", client.getNumberOfEntries().count, 1)
                check("the client that came again", client.number, 3)


class Peer:
    """A listener that reads some requests, and sends some bytes for each, before it ends the connection."""

    def __init__(self, *replies):
        self.listener, self.replies, self.requests = socket.create_server(("127.0.0.1", 0)), replies, []
        self.port = self.listener.getsockname()[1]
        threading.Thread(target=self.serve, daemon=True).start()

    def serve(self):
        while True:
            try:
                stream, _ = self.listener.accept()
            except OSError:
                return
            with stream:
                for reply in self.replies:
                    if request := stream.recv(1 << 12):
                        self.requests.append(request)
                        stream.sendall(reply)


CONNECTED = counted(bytes(6) + b"\x01" + (1).to_bytes(8, "big"))


class OverAPeer(Case):
    def test_no_connection_before_the_first_call(self):
        peer = Peer(CONNECTED)
        with Client.connect(UID, port=peer.port):
            time.sleep(0.1)
        check("what was asked", peer.requests, [])

    def test_a_call_without_a_reply_is_told_apart_and_not_made_again(self):
        peer = Peer(CONNECTED, b"")
        with Client.connect(UID, port=peer.port, timeout=PATIENCE) as client:
            for count in (2, 4):
                with self.assertRaises(Withheld):
                    client.earlyBootEnded()
                check(
                    "how many requests came",
                    until(lambda: len(peer.requests) if len(peer.requests) >= count else None),
                    count,
                )

    def test_who_is_refused_tries_again_and_is_told_so(self):
        start = time.monotonic()
        with self.assertRaises(Busy):
            Client.connect(UID, port=free_port(), patience=0.5).open()
        self.assertGreater(time.monotonic() - start, 0.3)

    def test_a_service_that_comes_later_is_found(self):
        port, told = free_port(), []

        def call():
            with Client.connect(UID, port=port, timeout=PATIENCE, patience=PATIENCE) as client:
                told.append(client.getNumberOfEntries().count)

        make_store(self.program, self.folder)
        thread = threading.Thread(target=call)
        thread.start()
        time.sleep(0.3)
        words = [self.program, "serve", str(port), "1", "1"]
        done = subprocess.run(words, cwd=self.folder, capture_output=True, timeout=PATIENCE, check=False)
        thread.join(PATIENCE)
        check("the call, and the end of the service", (told, done.returncode), ([0], 0))
