"""The service on ports that are free, and clients of it.

Words that are no form end with status 2, a folder without a store with status 7. Over one service by four workers:
the session of docs/PROTOCOL.md has its bytes back; a second service on its port ends with status 9, one on its store
with status 6; the command line of `tools/keystore_client.py` says what it should; bad frames end a connection behind
the replies to what came before; a session that ends at each of its bytes gets the replies to its whole requests, and
all of them where it comes in two pieces, wherever it is cut; sixteen clients make a thousand calls each. While a
client that has sent half a frame stays silent, an app seals a file of two pieces and opens it
(`examples/sealed_file.py`). Nobody listens at this port of 127.0.0.2. Behind the last connection the service ends
with status 0, and a run over its store finds what the clients left. A silent client keeps its own worker: where that
is the only one, another client waits until it goes. A client that goes on sending behind a bad frame is stopped
within seconds, though no other client comes. The trace that a service writes at its end has each call."""
import collections
import concurrent.futures
import hashlib
import hmac
import json
import pathlib
import re
import socket
import subprocess
import sys
import time

from checks.test_protocol import PAGE, play, session_in
from keystore.cases import Case, each, times
from keystore.harness import TOOLS, TOP, check
from keystore.runs import PATIENCE, ended as ended_run, free_port, make_store, once_it_listens, service
from keystore.session import BAD_FRAMES, CLIENT, CONNECT, SESSION, TEXT, replies_in, replies_to
from keystore.spelling import u32
from keystore.tokens import DEMO_KEY, mac_of
from keystore_client import FRONT, KINDS, MOST_OPERATION, NONCE, TAG, Client, Key, parameters
from model.trace_lines import entry_of

EXAMPLE = TOP / "examples/sealed_file.py"
COMMANDS = TOOLS / "keystore_client.py"
SAYS = b"sealed 1500000 bytes as 1500068\nopened as they were\na changed byte is told\npieces of two files are told\n"
WORKERS, CLIENTS, CALLS, FIRST_APP = 4, 16, 1000, 10100
# What a client sends behind a bad frame, in pieces: more than the service throws away and the system keeps. It may take
# so many seconds, and goes on when the other worker, in so many, has come to wait for a client.
FLOOD, PIECE, STOPPED, TURN = 64 << 20, 1 << 16, 10, 0.3
# The calls of a client whose service writes a trace, and how often each act stands in that of two.
TRACED = 5
ACTS_TRACED = {
    "connect": 2,
    "importKey": 2,
    "createOperation": 2,
    "update": 2,
    "finish": 2,
    "leave": 4,
    "disconnect": 2,
}
HALF_A_FRAME = b"\x00\x00\x00\x05\x01"
NO_FORMS = [["serve"], ["serve", "65536", "1", "1"], ["serve", "1", "0", "1"], ["serve", "1", "1", "65"]]

JUNK = bytes(200_000)
# What comes of bad frames behind a connect, and of what is no connect at once.
BAD_SESSIONS = {
    **{name: (CONNECT + bad + JUNK, CLIENT) for name, bad in BAD_FRAMES.items()},
    "no connect": (SESSION[1][0] + JUNK, b""),
}

# Words of the client behind a store in which two keys were made and have ended, what they write, and their status. The
# mac is that of "Hi There" under twenty bytes 0b.
MAC = "b0344c61d8db38535ca8afceaf0bf12b881dc200c9833da726e9376c2e32cff7"
# That under 16 bytes 0b, and these wrapped under bytes 00 to 0f (RFC 3394).
MAC_OF_WRAPPED = "492ce020fe2534a5789dc3848806c78f4f6711397f08e7e7a12ca5a4483c8aa6"
WRAPPED = "4bfcdf431a6e8520e80c37265f00139117989610f0a27695"
KEY_IS_THERE = "m is there, key 3: with --replace it ends, and all that is sealed under it with it"
NOT_FOUND = '{"code": 7, "rule": "B4", "name": "KEY_NOT_FOUND"}\n'
# What the client refuses before it calls.
UNCALLED = {
    "this is no sealed file",
    "a sealed file that is cut or changed",
    "letter has no line of a token",
    "[Errno 2] No such file or directory: 'no-such-file'",
    "too-long has 1048577 bytes, and an operation takes 1048576: the key was not used",
}
ENTRY = (
    "key 3\ndomain 0\nnspace 10001\nalias m\nlist PURPOSE 2, PURPOSE 3, ALGORITHM 128, KEY_SIZE 160, DIGEST "
    "4, MIN_MAC_LENGTH 64, "
    "NO_AUTH_REQUIRED, CREATION_DATETIME ?, ORIGIN 2, OS_VERSION 140000, OS_PATCHLEVEL 202406\n"
)
TURNS = [
    (["import", "m", "--kind", "hmac", "--material", "0b" * 20], "key 3\n", 0),
    (["mac", "m", "letter"], f"{MAC}\n", 0),
    (["mac", "m", "letter", "--verify", MAC, "--json"], '{"verified": true}\n', 0),
    (
        ["mac", "m", "letter", "--verify", MAC[::-1], "--json"],
        '{"code": -30, "rule": null, "name": "VERIFICATION_FAILED"}\n',
        4,
    ),
    (["import", "m", "--kind", "hmac", "--material", "0b" * 20], "", 1, KEY_IS_THERE),
    (["generate", "m", "--kind", "aes"], "", 1, KEY_IS_THERE),
    (["grant", "m", "10002", "--json"], '{"grant": 1}\n', 0),
    (["--uid", "10002", "--json", "mac", "-", "letter", "--granted", "1"], f'{{"mac": "{MAC}"}}\n', 0),
    (
        ["--uid", "10002", "entry", "m", "--granted", "1"],
        "",
        1,
        "PERMISSION_DENIED (6) by rule A6: the caller may not do this",
    ),
    (["ungrant", "m", "10002", "--json"], "{}\n", 0),
    (["ungrant", "m", "10002", "--json"], '{"code": 7, "rule": "A9", "name": "KEY_NOT_FOUND"}\n', 1),
    (["generate", "letters", "--kind", "aes", "--uses", "2", "--json"], '{"key": 4}\n', 0),
    (["seal", "letters", "two-pieces", "sealed"], "sealed 1048644\n", 0),
    (["open", "letters", "sealed", "-"], "", 1, "KEY_NOT_FOUND (7) by rule B4: no such key, or no such grant"),
    (["generate", "letters", "--kind", "aes", "--uses", "2", "--replace", "--json"], '{"key": 5}\n', 0),
    (["seal", "letters", "letter", "sealed"], "sealed 44\n", 0),
    (
        ["seal", "letters", "two-pieces", "sealed"],
        "",
        1,
        "2 uses are wanted, one for each piece, and the key has 1 left: none was used",
    ),
    (["open", "letters", "letter", "opened"], "", 4, "this is no sealed file"),
    (["open", "letters", "cut", "opened"], "", 4, "a sealed file that is cut or changed"),
    (["open", "letters", "sealed", "-"], "Hi There", 0),
    (["list", "--json"], '{"entries": [["m", 3]]}\n', 0),
    (["count"], "count 1\n", 0),
    (["entry", "m"], ENTRY, 0),
    (["unlock", "0", "--json"], "{}\n", 0),
    (["lock", "0", "--uid", "10001"], "", 1, "PERMISSION_DENIED (6) by rule A3: the caller may not do this"),
    (["lock", "0", "--json"], "{}\n", 0),
    (["token", "token", "--json"], "{}\n", 0),
    (["token", "letter"], "", 2, "letter has no line of a token"),
    (["mac", "m", "no-such-file"], "", 2, "[Errno 2] No such file or directory: 'no-such-file'"),
    (
        ["mac", "m", "too-long"],
        "",
        1,
        "too-long has 1048577 bytes, and an operation takes 1048576: the key was not used",
    ),
    (["delete", "m", "--json"], "{}\n", 0),
    (["entry", "m", "--json"], '{"code": 7, "rule": "A5", "name": "KEY_NOT_FOUND"}\n', 1),
    (["mac", "m", "letter", "--json"], NOT_FOUND, 1),
    (["import", "m", "--kind", "hmac", "--material-file", "material"], "key 6\n", 0),
    (["mac", "m", "letter"], f"{MAC}\n", 0),
    (["import", "w", "--kind", "wrapping", "--material-file", "wrapping"], "key 7\n", 0),
    (["import_wrapped", "n", "w", "--kind", "hmac", "--wrapped", WRAPPED], "key 8\n", 0),
    (["mac", "n", "letter", "--json"], f'{{"mac": "{MAC_OF_WRAPPED}"}}\n', 0),
    (["import_wrapped", "m", "w", "--kind", "hmac", "--wrapped", WRAPPED], "", 1, KEY_IS_THERE.replace("3", "6")),
    (
        ["import_wrapped", "n", "w", "--replace", "--json", "--wrapped", f"{WRAPPED[:-1]}4"],
        '{"code": -30, "rule": "K23", "name": "VERIFICATION_FAILED"}\n',
        4,
    ),
    (
        ["import_wrapped", "n", "m", "--replace", "--wrapped-file", "wrapped"],
        "",
        1,
        "INCOMPATIBLE_PURPOSE (-3) by rule K22: the key does not have the purpose",
    ),
    (["import_wrapped", "n", "w", "--replace", "--kind", "hmac", "--wrapped-file", "wrapped"], "key 9\n", 0),
    (["delete", "w"], "", 0),
    (["mac", "n", "letter"], f"{MAC_OF_WRAPPED}\n", 0),
    (["delete", "n"], "", 0),
    (["delete", "m"], "", 0),
]


def ended(program, words, folder, script=b""):
    """How the program ended: its status, what it wrote, and the first line of its fault."""
    status, said, fault = ended_run(program, words, folder, script)
    return status, said, fault[:1]


def make_calls(port, number, calls):
    """A client of its own uid, which makes so many calls; gives its macs that are wrong."""
    material, key, wrong = bytes([number + 1]) * 32, Key(alias="own"), 0
    with Client.connect(FIRST_APP + number, port=port, timeout=PATIENCE, patience=PATIENCE) as client:
        client.importKey(key, parameters(**KINDS["hmac"]), material)
        for turn in range((calls - 2) // 3):
            text = b"%d in turn %d" % (number, turn)
            op = client.createOperation(key, parameters(PURPOSE=[2], MAC_LENGTH=256)).op
            client.update(op, text[:3])
            wrong += client.finish(op, text[3:]).out != hmac.new(material, text, hashlib.sha256).digest()
        for _ in range((calls - 2) % 3):
            wrong += client.getNumberOfEntries().count != 1
    return wrong


def files_of_turns():
    """The files that the client's commands read."""
    yield "letter", b"Hi There"
    yield "two-pieces", bytes(MOST_OPERATION)
    yield "too-long", bytes(MOST_OPERATION + 1)
    yield "cut", FRONT + u32(TAG + 8) + bytes(NONCE + TAG)
    yield "material", b"\x0b" * 20
    yield "wrapping", bytes(range(16))
    yield "wrapped", bytes.fromhex(WRAPPED)
    token = {"challenge": 0, "user": 7, "authenticator": 0, "kind": 1, "time": 5000}
    yield "token", json.dumps({**token, "mac": mac_of(DEMO_KEY, token).hex()}).encode()


def check_commands(port, folder):
    """The client's command line."""
    for name, data in files_of_turns():
        (pathlib.Path(folder) / name).write_bytes(data)
    for words, wrote, status, *fault in TURNS:
        done = subprocess.run(
            [sys.executable, COMMANDS, *words, "--port", str(port)],
            cwd=folder,
            capture_output=True,
            text=True,
            timeout=PATIENCE,
            check=False,
        )
        said = re.sub("CREATION_DATETIME [0-9]+", "CREATION_DATETIME ?", done.stdout)
        check(" ".join(words), (said, done.returncode), (wrote, status))
        if fault:
            check(" ".join(words), done.stderr, f"keystore_client: {fault[0]}\n")
    check(
        "the files of the turns",
        sorted(it.name for it in pathlib.Path(folder).iterdir() if it.name.startswith((".", "opened"))),
        [],
    )


def check_crowd(port, calls):
    """Clients that all come at once, more than there are workers."""
    with concurrent.futures.ThreadPoolExecutor(CLIENTS) as crowd:
        came = [crowd.submit(make_calls, port, number, calls) for number in range(CLIENTS)]
        check("the crowd", [one.result() for one in came], [0] * CLIENTS)


def check_silent(port):
    """The example, beside a client that stays silent amid a frame."""
    with socket.create_connection(("127.0.0.1", port)) as silent:
        silent.sendall(HALF_A_FRAME)
        words = [sys.executable, EXAMPLE, "--port", str(port)]
        done = subprocess.run(words, capture_output=True, timeout=PATIENCE, check=False)
        check("the example", (done.returncode, done.stdout, done.stderr), (0, SAYS, b""))


def check_only_worker(port):
    """A client behind a silent one, with one worker, is answered when that one has gone."""
    silent = once_it_listens(socket.create_connection, ("127.0.0.1", port))
    silent.sendall(HALF_A_FRAME)
    with socket.create_connection(("127.0.0.1", port)) as stream:
        stream.sendall(CONNECT)
        stream.settimeout(0.5)
        try:
            check("a client that has to wait", stream.recv(19), None)
        except TimeoutError:
            silent.close()
        stream.settimeout(PATIENCE)
        check("a client that had to wait", stream.recv(19)[:11], CLIENT[:11])


def is_stopped(stream):
    """Whether a client that sends and sends is told soon that nobody reads."""
    piece, end = bytes(PIECE), time.monotonic() + STOPPED
    stream.settimeout(STOPPED)
    try:
        for _ in range(FLOOD // PIECE):
            stream.sendall(piece)
    except (ConnectionResetError, BrokenPipeError):
        return time.monotonic() < end
    except TimeoutError:
        pass
    return False


def check_flood(port):
    """A client that sends many megabytes behind a bad frame, while no other comes, and then one that lets the
    service end."""
    with once_it_listens(socket.create_connection, ("127.0.0.1", port)) as stream:
        time.sleep(TURN)
        stream.sendall(BAD_FRAMES["no body"])
        check("a client that goes on sending is stopped", is_stopped(stream), True)
    check("a client behind it", replies_to(port, CONNECT), CLIENT)


def check_address(port):
    """The service listens at 127.0.0.1 alone."""
    try:
        socket.create_connection(("127.0.0.2", port), PATIENCE).close()
        check("127.0.0.2", "connected", "refused")
    except ConnectionRefusedError:
        pass


def check_store(program, folder):
    """What a run finds in the store that the clients left."""
    apps = [(10001, "files"), (FIRST_APP, "own"), (FIRST_APP + CLIENTS - 1, "own")]
    lines = []
    for number, (uid, _) in enumerate(apps, 1):
        lines.append({"t": [0, 1000], "do": "connect", "uid": uid})
        lines.append({"t": [0, 1000], "c": number, "do": "listEntriesBatched", "domain": 0})
    script = "".join(json.dumps(line) + "\n" for line in lines).encode()
    status, replies, _ = ended(program, ["run"], folder, script)
    found = [[alias for alias, _ in json.loads(reply)["entries"]] for reply in replies.splitlines()[1::2]]
    check("a run behind the service", (status, found), (0, [[alias] for _, alias in apps]))


class OnAStore(Case):
    def service(self, connections, workers=WORKERS):
        """A service on an empty store; gives its port."""
        make_store(self.program, self.folder)
        return service(self.program, self.folder, connections, workers)


@each([(" ".join(form), form) for form in NO_FORMS])
class NoForms(Case):
    def show(self, form):
        check("the end", ended(self.program, form, self.folder), (2, b"", [b"keystore2: usage"]))


@each(BAD_SESSIONS.items())
class BadSessions(OnAStore):
    def show(self, session):
        sent, wanted = session
        with self.service(1) as port:
            check("what comes back", once_it_listens(replies_to, port, sent), wanted)


class Service(OnAStore):
    def test_there_is_no_service_without_a_store(self):
        no_store = (7, b"", [b"keystore2: store corrupted at 0"])
        check("a service without a store", ended(self.program, ["serve", "0", "1", "1"], self.folder), no_store)

    def test_the_session_of_the_page(self):
        with self.service(1) as port:
            once_it_listens(play, port, session_in(PAGE))

    def test_a_second_service_on_the_port_or_on_the_store_and_another_address(self):
        with self.service(1) as port:
            with Client.connect(10001, port=port, timeout=PATIENCE, patience=PATIENCE) as client:
                client.open()
                check_address(port)
                second = ended(self.program, ["serve", str(port), "1", "1"], self.folder)
                check("one on the port", second, (9, b"", [b"keystore2: listen fault"]))
                second = ended(self.program, ["serve", "0", "1", "1"], self.folder)
                check("one on the store", second, (6, b"", [b"keystore2: disk fault"]))

    def test_a_session_that_ends_at_each_of_its_bytes(self):
        with self.service(len(TEXT) + 1) as port:
            for size in range(len(TEXT) + 1):
                with self.subTest(bytes=size):
                    check("what comes back", once_it_listens(replies_to, port, TEXT[:size]), replies_in(size))

    def test_a_session_that_comes_in_two_pieces(self):
        with self.service(len(TEXT) - 1) as port:
            for size in range(1, len(TEXT)):
                with self.subTest(bytes=size):
                    check(
                        "what comes back",
                        once_it_listens(replies_to, port, TEXT[:size], TEXT[size:]),
                        replies_in(len(TEXT)),
                    )

    def test_the_client_at_the_command_line_then_a_crowd_and_an_app_beside_a_silent_client(self):
        commands = sum(UNCALLED.isdisjoint(turn[3:]) for turn in TURNS)
        with self.service(1 + commands + CLIENTS + 2) as port:
            once_it_listens(play, port, session_in(PAGE))
            check_commands(port, self.folder)
            check_crowd(port, CALLS * times())
            check_silent(port)
        check_store(self.program, self.folder)

    def test_the_trace_of_a_service_has_each_call_of_its_clients(self):
        make_store(self.program, self.folder)
        port = free_port()
        words = [self.program, "serve", str(port), "2", "2", "--trace"]
        with subprocess.Popen(words, cwd=self.folder, stdout=subprocess.PIPE, stderr=subprocess.DEVNULL) as process:
            try:
                check("the macs of two clients", [make_calls(port, number, TRACED) for number in range(2)], [0, 0])
                said, _ = process.communicate(timeout=PATIENCE)
            finally:
                process.kill()
        check("the end of the service", process.returncode, 0)
        acted = [entry_of(line) for line in said.splitlines()]
        check("the acts", collections.Counter(event["act"] for event, _, _ in acted), collections.Counter(ACTS_TRACED))
        check("the replies", {reply["code"] for _, _, reply in acted}, {0})

    def test_a_client_behind_a_silent_one_waits_where_there_is_one_worker(self):
        with self.service(2, 1) as port:
            check_only_worker(port)

    def test_a_client_that_goes_on_sending_behind_a_bad_frame_is_stopped(self):
        with self.service(2, 2) as port:
            check_flood(port)
