"""The program is used wrongly, as people do: the whole of what it prints, and its status.

A row has the words, the files of the folder and the standard input; what must come on standard output and on
standard error, and the status. Rows of who may not do something run as another user, where this one is root."""
import contextlib
import os
import shutil
import socket
import subprocess
from pathlib import Path

from keystore.cases import Case, each
from keystore.harness import TOP, check
from keystore.scratch import scratch_folder
from keystore.store import HEADER, MAGIC, NEWEST, SELECTOR

NOBODY = 65534
CONNECT = '{"t":[0,1000],"do":"connect","uid":10001}\n'
IMPORT = (TOP / "examples/hmac.jsonl").read_text(encoding="utf-8").splitlines(keepends=True)[1]
CLIENT, KEY, L1 = '{"client":1,"code":0}\n', '{"code":0,"key":1}\n', '{"code":20,"rule":"L1"}\n'
JOURNAL = HEADER + b"\0"
DEMO = "device.key: it is not in this folder; the demo device is taken, which protects nothing: anybody knows its keys"
NO_STORE = "store.ks: it is not in this folder; 'keystore2 init' makes an empty one"
NO_BEGIN = "store.ks: it does not begin as a store does"
DENIED = "Permission denied (os error 13)"
RUN, SOAK, SERVE = "run [--fresh] [--slots N] [--trace]", "soak SEED N", "serve PORT CONNECTIONS WORKERS [--trace]"
MANY = "replies to malformed lines (code 20, rule L1): {}, the first to line {}"
# A folder in the place of a file; a link that leads nowhere; a file of so many bytes that are holes.
FOLDER, NOWHERE, HOLES = "folder", "nowhere", 1 << 31


def number(form, name, least, most, word):
    return f"'{form}' wants for {name} a number from {least} to {most}, and not '{word}'"


def lacks(form, name, least, most):
    return f"'{form}' lacks {name}, a number from {least} to {most}"


def extra(form, word, near=None):
    return f"'{word}' has no place there in '{form}'" + (f"; '{near}' is near" if near else "")


# Words that are no form, and what is said of them.
SLOTS, LINES = ("N", 1, 1024), ("N", 1, 100000)
PORT, CONNECTIONS, WORKERS = ("PORT", 0, 65535), ("CONNECTIONS", 1, 65536), ("WORKERS", 1, 64)
USAGES = [
    ("", "no form is given"),
    ("rn", "no form begins with 'rn'; 'run' is near"),
    ("Run", "no form begins with 'Run'; 'run' is near"),
    ("start", "no form begins with 'start'"),
    ("--fresh", "no form begins with '--fresh'"),
    ("--slots 4 run", "no form begins with '--slots'"),
    ("check", "no form begins with 'check'"),
    ("init now", extra("init", "now")),
    ("run --frsh", extra(RUN, "--frsh", "--fresh")),
    ("run --fresh --fresh", extra(RUN, "--fresh")),
    ("run --slots=4", extra(RUN, "--slots=4", "--slots")),
    ("run --slots 4 --fresh", extra(RUN, "--fresh")),
    ("run --trace --fresh", extra(RUN, "--fresh")),
    ("run --trace --slots 4", extra(RUN, "--slots")),
    ("run --trace --trace", extra(RUN, "--trace")),
    ("run --slots 4 --trac", extra(RUN, "--trac", "--trace")),
    ("run --fresh --slots 4 4", extra(RUN, "4")),
    ("run script.jsonl", extra(RUN, "script.jsonl")),
    ("run --fresh script.jsonl", extra(RUN, "script.jsonl")),
    ("run --slots", lacks(RUN, *SLOTS)),
    ("run --slots 0", number(RUN, *SLOTS, "0")),
    ("run --slots 1025", number(RUN, *SLOTS, "1025")),
    ("run --slots +4", number(RUN, *SLOTS, "+4")),
    ("run --slots -1", number(RUN, *SLOTS, "-1")),
    ("run --slots 1e1", number(RUN, *SLOTS, "1e1")),
    ("run --slots abc", number(RUN, *SLOTS, "abc")),
    ("run --slots 000000000000000000004", number(RUN, *SLOTS, "000000000000000000004")),
    ("soak", lacks(SOAK, "SEED", 0, 2**64 - 1)),
    ("soak 7", lacks(SOAK, *LINES)),
    ("soak 7 0", number(SOAK, *LINES, "0")),
    ("soak 7 100001", number(SOAK, *LINES, "100001")),
    ("soak 18446744073709551616 1", number(SOAK, "SEED", 0, 2**64 - 1, "18446744073709551616")),
    ("soak 7 1 1", extra(SOAK, "1")),
    ("serve", lacks(SERVE, *PORT)),
    ("serve 7813", lacks(SERVE, *CONNECTIONS)),
    ("serve 7813 1", lacks(SERVE, *WORKERS)),
    ("serve 70000 1 1", number(SERVE, *PORT, "70000")),
    ("serve -1 1 1", number(SERVE, *PORT, "-1")),
    ("serve localhost:7813 1 1", number(SERVE, *PORT, "localhost:7813")),
    ("serve 7813 0 1", number(SERVE, *CONNECTIONS, "0")),
    ("serve 7813 65537 1", number(SERVE, *CONNECTIONS, "65537")),
    ("serve 7813 1 65", number(SERVE, *WORKERS, "65")),
    ("serve 7813 1 1 --fresh", extra(SERVE, "--fresh")),
    ("serve 7813 1 1 --trace --trace", extra(SERVE, "--trace")),
    ("serve 7813 --trace 1 1", number(SERVE, *CONNECTIONS, "--trace")),
]

# Files of the device that are none, and what is said of them.
DEVICES = [
    (bytes(95), "it has 95 bytes, and must have 96 or 104"),
    (b"", "it has 0 bytes, and must have 96 or 104"),
    (bytes(97), "it has 97 bytes, and must have 96 or 104"),
    (bytes(103), "it has 103 bytes, and must have 96 or 104"),
    (bytes(105), "it has more than 104 bytes"),
    (HOLES, "it has more than 104 bytes"),
    (FOLDER, "Is a directory (os error 21)"),
]
ROW = "row {} is no array of exactly a uid, a namespace and permission bits, as [1000, 100, 509]"
POLICIES = [
    (b"[[1000,100,509]", "it is no JSON text"),
    (b"", "it is no JSON text"),
    (b"\xff", "it is no JSON text"),
    (b'{"1000":509}', "it is no array of rows"),
    (b'[[1000,100,"USE"]]', ROW.format(1)),
    (b"[[1000,100,509],[1001,100]]", ROW.format(2)),
    (b"[[1000,100,509],[1001,100,1],[1002,100,1,1]]", ROW.format(3)),
    (b"[[4294967296,100,509]]", ROW.format(1)),
    (b"[" + b",".join([b"[1,2,3]"] * 257) + b"]", "it has more than 256 rows"),
    (HOLES, "it has more than 1048576 bytes"),
    (FOLDER, "Is a directory (os error 21)"),
]

# Lines with a mistake, behind a client and a key: each is answered L1, and the run goes on.
MISTAKES = [
    "hello",
    "",
    '{"t":[0,1000],"c":1,"do":"getNumberOfEntries"',
    "{t:[0,1000]}",
    '{"t":[0,1000],"c":1,"do":"sign","op":1}',
    '{"t":[0,1000],"c":1,"do":"generatekey","key":{"domain":0,"alias":"m"}}',
    '{"c":1,"do":"createOperation","key":{"domain":0,"alias":"m"},"params":[["PURPOSE",2]]}',
    '{"t":[0,1000],"do":"createOperation","key":{"domain":0,"alias":"m"},"params":[["PURPOSE",2]]}',
    '{"t":[0,1000],"c":1,"do":"createOperation","key":{"alias":"m"},"params":[["PURPOSE",2]]}',
    '{"t":[0,1000],"c":1,"do":"createOperation","key":"m","params":[["PURPOSE",2]]}',
    '{"t":[0,1000],"c":1,"do":"createOperation","key":{"domain":0,"alias":"m"},"params":[["PURPOSES",2]]}',
    '{"t":[0,1000],"c":1,"do":"createOperation","key":{"domain":0,"alias":"m"},"params":[["PURPOSE","SIGN"]]}',
    '{"t":[0,1000],"c":1,"do":"createOperation","key":{"domain":0,"alias":"m"},"params":{"PURPOSE":2}}',
    '{"t":[0,1000],"c":1,"do":"update","op":1,"input":"abc"}',
    '{"t":[0,1000],"c":1,"do":"update","op":1,"input":"0xab"}',
    '{"t":[0,1000],"c":1,"do":"update","op":1,"input":"Hi There"}',
    '{"t":[0,1000],"c":1,"do":"update","op":"1","input":"ab"}',
    '{"t":[0,1000],"c":-1,"do":"update","op":1,"input":"ab"}',
    '{"t":[0,1e3],"c":1,"do":"update","op":1,"input":"ab"}',
]


class Row:
    """A wrong use, and what must come of it."""

    def __init__(self, name, words, status, said="", told=(), files=None, script="", as_nobody=False):
        self.name, self.words, self.status = name, words.split() if isinstance(words, str) else words, status
        self.said, self.told = said, "".join(f"keystore2: {it}\n" for it in told)
        self.files, self.script, self.as_nobody = files or {}, script, as_nobody


def rows_of_runs():
    """Stores, scripts and streams."""
    mistakes = "".join(f"{line}\n" for line in MISTAKES)
    yield Row("a run without a store", "run", 7, told=["store corrupted at 0", NO_STORE, DEMO], script=CONNECT)
    yield Row("a service without a store", "serve 0 1 1", 7, told=["store corrupted at 0", NO_STORE])
    yield Row(
        "a text for a store",
        "run",
        7,
        told=["store corrupted at 0", NO_BEGIN, DEMO],
        files={"store.ks": b"hello world\n"},
        script=CONNECT,
    )
    yield Row(
        "an empty file for a store", "run", 7, told=["store corrupted at 0", NO_BEGIN, DEMO], files={"store.ks": b""}
    )
    for what, bytes_, offset in (
        ("before its version", MAGIC, len(MAGIC)),
        ("before its selector", MAGIC + NEWEST, SELECTOR),
        ("of the first format behind its header", HEADER, len(HEADER)),
    ):
        told = [f"store corrupted at {offset}", DEMO]
        yield Row(f"a store that is cut {what}", "run", 7, told=told, files={"store.ks": bytes_})
    for words in ("run", "run --fresh"):
        yield Row(
            f"a folder for a store: {words}",
            words,
            6,
            told=["disk fault", "store.ks: Is a directory (os error 21)", DEMO],
            files={"store.ks": FOLDER},
        )
        yield Row(
            f"a link that leads nowhere: {words}",
            words,
            6,
            told=["disk fault", "store.ks: it is no regular file", DEMO],
            files={"store.ks": NOWHERE},
        )
    yield Row(
        "init over a folder",
        "init",
        6,
        told=["disk fault", "store.ks: Is a directory (os error 21)"],
        files={"store.ks": FOLDER},
    )
    yield Row("init over a text", "init", 0, files={"store.ks": b"my diary\n"})
    yield Row("a run with the demo device", "run --fresh", 0, CLIENT, [DEMO], script=CONNECT)
    yield Row(
        "malformed lines",
        "run --fresh",
        0,
        CLIENT + KEY + L1 * len(MISTAKES),
        [MANY.format(len(MISTAKES), 3), DEMO],
        script=CONNECT + IMPORT + mistakes,
    )
    yield Row(
        "a text with a mark of its order", "run --fresh", 0, L1, [MANY.format(1, 1), DEMO], script="\ufeff" + CONNECT
    )
    yield Row("lines that end as elsewhere", "run --fresh", 0, CLIENT, [DEMO], script=CONNECT.replace("\n", "\r\n"))
    yield Row(
        "an object over many lines",
        "run --fresh",
        0,
        L1 * 3,
        [MANY.format(3, 1), DEMO],
        script='{\n"t": [0, 1000]\n}\n',
    )
    yield Row(
        "a line that is too long",
        "run --fresh",
        5,
        CLIENT,
        ["line 2 too long", DEMO],
        script=CONNECT + "a" * 262145 + "\n",
    )


def rows():
    help_text = "HELP"
    for place, (words, misuse) in enumerate(USAGES, 1):
        row = Row(f"usage {place:02} {words or 'no words'}", words, 2, told=["usage", misuse])
        row.told += help_text
        yield row
    for bytes_, fault in DEVICES:
        what = len(bytes_) if isinstance(bytes_, bytes) else "holes" if bytes_ is HOLES else bytes_
        yield Row(
            f"a bad device file: {what}",
            "init",
            2,
            told=["bad device file", f"device.key: {fault}"],
            files={"device.key": bytes_},
        )
    for place, (bytes_, fault) in enumerate(POLICIES, 1):
        yield Row(
            f"a bad policy file {place:02} {fault}",
            "init",
            2,
            told=["bad policy file", f"policy.json: {fault}"],
            files={"policy.json": bytes_},
        )
    for words in ("--help", "-h", "help", "run --help", "--version", "-V"):
        yield Row(
            f"{words} beside a bad device file",
            words,
            0,
            "VERSION" if "v" in words.lower() else "HELP",
            files={"device.key": bytes(95)},
        )
    yield from rows_of_runs()
    yield Row(
        "a store for reading alone",
        "run",
        6,
        told=["disk fault", f"store.ks: {DENIED}", DEMO],
        files={"store.ks": JOURNAL},
        as_nobody=True,
    )
    yield Row("a folder for reading alone: init", "init", 6, told=["disk fault", f"store.ks: {DENIED}"], as_nobody=True)
    yield Row(
        "a folder for reading alone: run",
        "run --fresh",
        6,
        told=["disk fault", f"store.ks: {DENIED}", DEMO],
        as_nobody=True,
    )
    yield Row(
        "a device that may not be read",
        "init",
        2,
        told=["bad device file", f"device.key: {DENIED}"],
        files={"device.key": bytes(96)},
        as_nobody=True,
    )


def make(folder, files):
    for name, content in files.items():
        place = folder / name
        if content is FOLDER:
            place.mkdir()
        elif content is NOWHERE:
            place.symlink_to("nothing")
        elif content is HOLES:
            with place.open("wb") as it:
                it.truncate(HOLES)
        else:
            place.write_bytes(content)


def ended(program, row, folder):
    """What a row's use prints, and its status. Nobody may read the folder, and none of its files."""

    def prepare():
        if row.as_nobody and os.getuid() == 0:
            os.setgroups([])
            os.setgid(NOBODY)
            os.setuid(NOBODY)

    make(folder, row.files)
    for place in folder.iterdir() if row.as_nobody else ():
        place.chmod(0o400 if place.name == "store.ks" else 0o000)
    folder.chmod(0o555 if row.as_nobody else 0o755)
    done = subprocess.run(
        [program, *row.words],
        input=row.script,
        cwd=folder,
        capture_output=True,
        encoding="utf-8",
        errors="replace",
        check=False,
        preexec_fn=prepare,
    )
    folder.chmod(0o755)
    return done.stdout, done.stderr, done.returncode


@each([(row.name, row) for row in rows()])
class WrongUses(Case):
    def show(self, row):
        program, folder = self.program, self.folder
        if row.as_nobody:
            # A user who is nobody runs a copy that is anyone's.
            other = Path(self.enterContext(scratch_folder()))
            program = Path(shutil.copy(program, other))
            program.chmod(0o755)
            other.chmod(0o755)
        texts = {name: self.text(word) for name, word in {"HELP": "--help", "VERSION": "--version"}.items()}
        found = ended(program, row, folder)
        wanted = (texts.get(row.said, row.said), row.told.replace("HELP", texts["HELP"]), row.status)
        for what, one, other in zip(("standard output", "standard error", "the status"), found, wanted):
            self.assertEqual(one, other, what)

    def text(self, word):
        return subprocess.run([self.program, word], capture_output=True, text=True, check=True).stdout

    def test_a_port_that_another_has(self):
        with contextlib.closing(socket.socket()) as taken:
            taken.bind(("127.0.0.1", 0))
            taken.listen()
            port = str(taken.getsockname()[1])
            words = [self.program, "serve", port, "1", "1"]
            done = subprocess.run(words, cwd=self.folder, capture_output=True, text=True, check=False)
            told = f"keystore2: listen fault\nkeystore2: port {port}: Address already in use (os error 98)\n"
            check("the end", (done.returncode, done.stdout, done.stderr), (9, "", told))
