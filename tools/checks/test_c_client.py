"""`examples/client.c` is built by the machine's C compiler, `cc`, without a warning, and works against the service and
against wrong replies.

Two clients behind one another print the mac of RFC 4231's first case, a nonce and a sealed letter of their own, the
letter as it was, and that a changed byte is refused; no key of theirs is left. Services of this check's own end the
connection, and send replies of wrong lengths, without their fields, and with a code: the client says which, and ends
with status 1."""
import contextlib
import re
import socket
import subprocess
import threading

from keystore.cases import Case, each, needs_compiler
from keystore.harness import TOP, check
from keystore.runs import PATIENCE, free_port, make_store, service
from keystore.spelling import counted, u32, u64
from keystore_client import Client

SOURCE = TOP / "examples/client.c"
WARNINGS = ["-std=c11", "-pedantic", "-Wall", "-Wextra", "-Werror"]
APP, CLIENTS = 10001, 2
# A digit that is drawn stands as `?`.
SAYS = f"""mac b0344c61d8db38535ca8afceaf0bf12b881dc200c9833da726e9376c2e32cff7
nonce {"?" * 24}
sealed {"?" * 48}
opened Dear Ben
a changed byte is refused
"""
# The body of a reply that admits, and what services send in place of replies, each with what the client says of it.
ADMITTED = bytes(6)
CONNECTED = counted(ADMITTED + b"\x01" + u64(1))
KEY = counted(ADMITTED + b"\x02" + u64(1))
OPENED = CONNECTED + KEY + counted(ADMITTED + b"\x03" + u64(1))
BAD_SERVICES = {
    "nothing": (b"", "the service ended the connection"),
    "part of a length": (CONNECTED[:3], "the service ended the connection"),
    "part of a reply": (CONNECTED[:-1], "the service ended the connection"),
    "a reply of five bytes": (u32(5) + bytes(5), "a reply of 5 bytes"),
    "an empty reply": (u32(0), "a reply of 0 bytes"),
    "a reply that is too long": (u32(0xFFFFFFFF), "a reply of 4294967295 bytes"),
    "a code for the connect": (counted(u32(1001) + bytes(2)), "connect: code 1001"),
    "a code with a rule": (CONNECTED + counted(u32(6) + b"K\x04"), "importKey: code 6, rule K4"),
    "a code below 0": (CONNECTED + counted(u32(2**32 - 41) + bytes(2)), "importKey: code -41"),
    "no field for the operation": (CONNECTED + KEY + counted(ADMITTED), "a reply without its field 3"),
    "a field that is cut": (CONNECTED + KEY + counted(ADMITTED + b"\x03" + bytes(7)), "a reply without its field 3"),
    "other fields": (
        CONNECTED + KEY + counted(ADMITTED + b"\x01" + bytes(8) + b"\x04" + bytes(8)),
        "a reply without its field 3",
    ),
    "an output that is cut": (
        OPENED + counted(ADMITTED + b"\x0e" + u32(33) + bytes(32)),
        "a reply without its field 14",
    ),
    "an output that is too long": (OPENED + counted(ADMITTED + b"\x0e" + u32(33) + bytes(33)), "an output of 33 bytes"),
    "a length without its bytes": (OPENED + counted(ADMITTED + b"\x0d" + b"\xff" * 4), "a reply without its field 14"),
}
BAD_WORDS = {
    "no words": [],
    "two words": ["7878", "1"],
    "letters": ["port"],
    "an empty word": [""],
    "port 0": ["0"],
    "port 65536": ["65536"],
    "a point": ["78.78"],
}


def run(client, *words):
    """What the client prints, what it says of what went wrong, and its status."""
    done = subprocess.run([client, *words], capture_output=True, text=True, timeout=PATIENCE, check=False)
    return done.stdout, done.stderr, done.returncode


def answer(listener, replies):
    """Serves one connection: sends these bytes, and reads until the client has gone."""
    stream, _ = listener.accept()
    # The client may have gone before all is sent.
    with stream, contextlib.suppress(OSError):
        stream.sendall(replies)
        stream.shutdown(socket.SHUT_WR)
        while stream.recv(65536):
            pass


def with_marks(text):
    """A text of the client with `?` for the digits that are drawn."""
    return re.sub("(?m)^(nonce|sealed) ([0-9a-f]+)$", lambda it: f"{it[1]} {'?' * len(it[2])}", text)


@needs_compiler
class Built(Case):
    """Cases over the client that the compiler made of its source."""

    def setUp(self):
        self.client = self.folder / "client"
        built = subprocess.run(
            ["cc", *WARNINGS, "-o", self.client, SOURCE], capture_output=True, text=True, check=False
        )
        check("the compiler", (built.returncode, built.stderr), (0, ""))


@each(BAD_WORDS.items())
class BadWords(Built):
    def show(self, words):
        check("the end", run(self.client, *words), ("", "client: usage: client PORT\n", 1))


@each(BAD_SERVICES.items())
class BadServices(Built):
    def show(self, row):
        replies, said = row
        with socket.create_server(("127.0.0.1", 0)) as listener:
            server = threading.Thread(target=answer, args=(listener, replies), daemon=True)
            server.start()
            _, fault, status = run(self.client, str(listener.getsockname()[1]))
            check("the end", (fault, status), (f"client: {said}\n", 1))
            server.join(PATIENCE)


class Served(Built):
    def test_no_service(self):
        port = free_port()
        check(
            "the end", run(self.client, str(port)), ("", f"client: no service at port {port}: Connection refused\n", 1)
        )

    def test_two_clients_of_the_service_leave_no_key(self):
        make_store(self.program, self.folder)
        with service(self.program, self.folder, 1 + CLIENTS, 2) as port:
            with Client.connect(APP, port=port, timeout=PATIENCE, patience=PATIENCE) as beside:
                beside.open()
                texts = [run(self.client, str(port)) for _ in range(CLIENTS)]
                for text, fault, status in texts:
                    check("the client", (with_marks(text), fault, status), (SAYS, "", 0))
                lines = {
                    line for text, _, _ in texts for line in text.splitlines() if line.startswith(("nonce", "sealed"))
                }
                check("the numbers of nonces and sealed letters", len(lines), 2 * CLIENTS)
                check("the keys that are left", beside.getNumberOfEntries().count, 0)
