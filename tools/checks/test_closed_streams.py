"""The program with standard streams closed, as a daemon that closed its own may start it, in each of the eight sets.

Each form of the words, and words that are none: the status, what the streams that are open got, and the files of the
folder are byte for byte those of a run that has the null device in place of the closed ones. So a closed input is an
empty script, and what goes to a closed output goes nowhere, least of all into the store. `serve` runs in a process
that may have seven descriptors, as many as it needs with its three streams, over two connections in turn, and so
does each other form. The scripts draw nothing, so that all bytes of a store are known; it lies in a folder of its
own. A run whose script never ends, or that writes without end, is stopped."""
import contextlib
import itertools
import json
import os
import resource
import subprocess
from pathlib import Path

from keystore.cases import Case, each
from keystore.harness import chosen_program
from keystore.lines import APP, PARAMS, begin, call, connect, made, named, text_of
from keystore.runs import free_port, until
from keystore.scratch import scratch_folder
from keystore.store import AREAS
from keystore.store_bytes import StoreBytes
from keystore_client import Client, ConnectionEnded, Key, ServiceError, parameters

STREAMS = {0: "input", 1: "output", 2: "error"}
SETS = [set(it) for count in range(4) for it in itertools.combinations(STREAMS, count)]
# Three streams, the port, the store, the random device and one connection.
DESCRIPTORS = 7
# A run that goes wrong may write without end, or read the random device for its script: it ends at so many bytes, where
# the second area of a store would begin, and is killed behind so many seconds.
MOST_BYTES, PATIENCE = AREAS["B"], 60
OWNER, OTHER, SYSTEM = 10001, 10002, 1000
FORMS = [
    ["init"],
    ["run"],
    ["run", "--fresh"],
    ["run", "--slots", "4"],
    ["run", "--fresh", "--slots", "4"],
    ["soak", "7", "10"],
    ["--help"],
    ["--version"],
    [],
    ["run", "--slots", "0"],
    ["store.ks"],
]

# What makes the store: a key with three uses, and one without a limit.
MAKES = [connect(OWNER), made(1, named("m"), [*PARAMS, ["USAGE_COUNT_LIMIT", 3]]), made(1, named("n"))]
# Lines that draw nothing. Over an empty store some are refused, and the last two write a record all the same.
SCRIPT = [
    connect(OWNER),
    connect(SYSTEM),
    begin(1, named("m")),
    call(1, "finish", op=1, input="4869205468657265"),
    call(1, "grant", key=named("m"), uid=OTHER, bits=256),
    call(1, "deleteKey", key=named("n")),
    call(1, "getKeyEntry", key=named("m")),
    call(2, "clearNamespace", domain=APP, nspace=OTHER),
    call(2, "userRemoved", user=7),
]
LINES = "".join(map(text_of, SCRIPT)).encode()


def call_service(port, look):
    """The same over connections, by two clients in turn; between them the process is looked at."""
    with Client.connect(OWNER, port=port, timeout=PATIENCE, patience=PATIENCE) as client:
        client.finish(client.createOperation(Key(alias="m"), parameters(PURPOSE=[2], MAC_LENGTH=256)).op, b"Hi There")
        client.grant(Key(alias="m"), OTHER, 256)
        client.deleteKey(Key(alias="n"))
    look()
    with Client.connect(SYSTEM, port=port, timeout=PATIENCE, patience=PATIENCE) as client:
        client.clearNamespace(APP, OTHER)
        client.userRemoved(7)


def links_of(process):
    """Where each descriptor of a process leads; none where it has ended. One may be closed meanwhile."""
    links, folder = {}, f"/proc/{process.pid}/fd"
    with contextlib.suppress(FileNotFoundError):
        for name in os.listdir(folder):
            with contextlib.suppress(FileNotFoundError):
                links[int(name)] = os.readlink(f"{folder}/{name}")
    return links


def while_it_runs(process, call):
    """What a call gives, as soon as that is not None; None where the process ended before, or after a while."""
    ended = ("it has ended",)

    def called():
        return ended if process.poll() is not None else call()

    found = until(called, PATIENCE)
    return None if found is ended else found


def started(program, words, folder, gone, closes):
    """A process over the script of a folder, whose streams of a set are closed, or the null device."""

    def prepare():
        resource.setrlimit(resource.RLIMIT_NOFILE, (DESCRIPTORS, DESCRIPTORS))
        resource.setrlimit(resource.RLIMIT_FSIZE, (MOST_BYTES, MOST_BYTES))
        for stream in gone if closes else ():
            os.close(stream)

    files = [
        open(os.devnull if it in gone else folder / STREAMS[it], "w+b") if it > 0 or it in gone else subprocess.PIPE
        for it in STREAMS
    ]
    process = subprocess.Popen(
        [program, *words], stdin=files[0], stdout=files[1], stderr=files[2], cwd=folder / "runs", preexec_fn=prepare
    )
    for file in files:
        if file is not subprocess.PIPE:
            file.close()
    return process


def serve(process, port, gone):
    """Calls a service as soon as it listens; gives where its streams of a set lead then, and what went wrong, or
    None."""
    seen = {}

    def called():
        try:
            call_service(port, lambda: seen.update(links_of(process)))
        except ConnectionRefusedError:
            return None
        except (OSError, ConnectionEnded, ServiceError, ValueError) as error:
            return f"a call got {type(error).__name__} {error}"
        return ""

    fault = while_it_runs(process, called)
    return [seen.get(it) for it in sorted(gone)], "nobody listened" if fault is None else fault or None


def run(process, gone):
    """Hands a run its script as soon as its store is open; gives where its streams of a set lead then. A process
    that has no input, or ends before, is not looked at."""

    def opened():
        links = links_of(process)
        return links if any(it.endswith("/store.ks") for it in links.values()) else None

    if process.stdin is None:
        return None
    links = while_it_runs(process, opened)
    try:
        process.stdin.write(LINES)
        process.stdin.close()
    except BrokenPipeError:
        pass
    return links and [links.get(it) for it in sorted(gone)]


def left_by(program, words, folder, store, gone, closes):
    """What a process leaves: how it ended, what it wrote to open streams, and the files of its folder."""
    runs = folder / "runs"
    for file in [*runs.iterdir(), folder / "output", folder / "error"]:
        file.unlink(missing_ok=True)
    store.write(runs / "store.ks")
    serves = words[:1] == ["serve"]
    port = free_port() if serves else None
    words = [str(port) if it == "PORT" else it for it in words]
    process = started(program, words, folder, gone, closes)
    links, fault = (
        serve(process, port, gone) if serves else (run(process, gone) if words[:1] == ["run"] else None, None)
    )
    try:
        status = process.wait(PATIENCE if fault is None else 1)
    except subprocess.TimeoutExpired:
        process.kill()
        status = f"none, it was killed, {process.wait()}"
    if process.stdin is not None:
        process.stdin.close()
    # A service says which port the system gave it.
    told = {
        STREAMS[it]: (folder / STREAMS[it]).read_bytes().replace(str(port).encode(), b"PORT")
        for it in (1, 2)
        if it not in gone
    }
    return {
        "streams": links,
        "calls": fault,
        "status": status,
        **told,
        **{it.name: StoreBytes.read(it) for it in sorted(runs.iterdir())},
    }


def shown(value):
    text = repr(value)
    return text if len(text) < 200 else f"{text[:200]}.."


def name_of(words):
    return " ".join(words) or "no words"


def name_of_set(gone):
    return " and ".join(STREAMS[it] for it in sorted(gone)) or "no stream"


@each(
    [
        (f"{name_of(words)} with {name_of_set(gone)} closed", words, gone)
        for words in [*FORMS, ["serve", "PORT", "2", "1"]]
        for gone in SETS
    ]
)
class ClosedStreams(Case):
    @classmethod
    def setUpClass(cls):
        """The store over which each process runs."""
        with scratch_folder() as folder:
            lines = "".join(map(text_of, MAKES)).encode()
            done = subprocess.run(
                [chosen_program(), "run", "--fresh"], input=lines, cwd=folder, capture_output=True, check=True
            )
            if any(json.loads(it)["code"] for it in done.stdout.splitlines()):
                raise AssertionError(f"no store was made: {done.stdout}")
            cls.store = StoreBytes.read(Path(folder) / "store.ks")

    def show(self, words, gone):
        (self.folder / "runs").mkdir()
        wanted, found = (
            left_by(self.program, words, self.folder, self.store, gone, closes) for closes in (False, True)
        )
        for name in wanted | found:
            if wanted.get(name) != found.get(name):
                raise AssertionError(f"{name} is {shown(found.get(name))} and not {shown(wanted.get(name))}")
        # So that not every run goes wrong alike.
        self.assertEqual(
            (wanted["calls"], wanted["status"]),
            (None, 2 if words in FORMS[-3:] else 0),
            "with the null device in their place",
        )
