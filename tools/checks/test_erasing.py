"""`./keystore2` asks once before it erases keys at a terminal, and nowhere else.

`init` and `run --fresh` are typed at a terminal. Over a store with keys, and over a file that is no store, a
question comes once, and all but a yes leaves the folder as it was, with status 2. There is none with the word --yes,
where there is no terminal, where the store has no key or is not there, and for other words. The script may stand on
the terminal or come from a file."""
import os
import pty
import select
import shutil
import subprocess
import time

from keystore.cases import Case, each
from keystore.harness import TOOLS, TOP, check, chosen_program
from keystore.lines import PARAMS, call, connect, made, named, text_of
from keystore.runs import PATIENCE
from keystore.scratch import scratch_folder
from keystore.store import EMPTY, area_of, live_keys
from keystore.store_bytes import StoreBytes

QUESTION, OTHER_QUESTION = (
    "the store of this folder has keys, 2: erase them? [y/N] ",
    "store.ks of this folder is no store that reads: erase it? [y/N] ",
)
LEFT = "keystore2: nothing was erased"
KEYS = [
    connect(10001),
    made(1, named("m")),
    made(1, named("m")),
    made(1, named("n")),
    made(1, named("o"), [*PARAMS, ["USAGE_COUNT_LIMIT", 1]]),
    made(1, named("p")),
    call(1, "deleteKey", key=named("o")),
    call(1, "deleteKey", key=named("p")),
]
DIARY, NOTHING, OF_KEYS = StoreBytes.of(b"my diary"), StoreBytes(), "a store with keys"
# Stores by what they are, the answer that is typed, the question that comes, and whether the store is erased.
ANSWERS = [
    *(
        (f"{OF_KEYS} and the answer {answer or 'nothing'}", OF_KEYS, answer, QUESTION, False)
        for answer in ("", "n", "no", "yesterday")
    ),
    *((f"{OF_KEYS} and the answer {answer}", OF_KEYS, answer, QUESTION, True) for answer in ("y", "yes")),
    ("a file that is no store and the answer n", DIARY, "n", OTHER_QUESTION, False),
    ("a file that is no store and the answer y", DIARY, "y", OTHER_QUESTION, True),
    ("an empty store", EMPTY, None, None, True),
    ("an empty file", NOTHING, None, None, True),
    ("no store", None, None, None, True),
]
TYPED = {"init": "init", "run fresh": "run --fresh < script", "run fresh with slots": "run --fresh --slots 4 < script"}


def typings():
    for what, words in TYPED.items():
        for name, *row in ANSWERS:
            yield f"{what} over {name}", words, *row
    yield "init whose fault goes to a file", "init 2> told", OF_KEYS, "y", QUESTION, True
    for words in ("init --yes", "--yes init", "run --fresh --yes < script", "init < script 2> told"):
        yield f"{words} without a question", words, OF_KEYS, None, None, True


def typed(command, folder, answers):
    """What a terminal shows of a command, to which these answers are typed as they are asked for, and its status."""
    pid, terminal = pty.fork()
    if pid == 0:
        os.chdir(folder)
        os.execv("/bin/sh", ["/bin/sh", "-c", command])
    shown, end = b"", time.monotonic() + PATIENCE
    while time.monotonic() < end:
        if not select.select([terminal], [], [], 0.1)[0]:
            continue
        try:
            piece = os.read(terminal, 4096)
        except OSError:
            break
        shown += piece
        if shown.endswith(b"[y/N] ") and answers:
            os.write(terminal, answers.pop(0).encode() + b"\n")
    _, status = os.waitpid(pid, 0)
    os.close(terminal)
    return shown.decode().replace("\r\n", "\n"), os.waitstatus_to_exitcode(status)


def is_empty(store):
    """Whether a store has no key, whatever stands behind its records."""
    return live_keys(store) == 0 and area_of(store) == "A"


def check_typed(top, folder, words, store, answer, question, erased):
    """One command at a terminal."""
    where = folder / "store.ks"
    where.unlink(missing_ok=True)
    if store is not None:
        store.write(where)
    shown, status = typed(f"{top}/keystore2 {words}", folder, [] if answer is None else [answer])
    what = f"{words} over {store}, answered {answer}"
    check(f"{what}, the question", shown.count("[y/N]"), 0 if question is None else 1)
    if question is not None:
        check(f"{what}, its text", shown.startswith(f"keystore2: {question}"), True)
    check(f"{what}, the end", (status, LEFT in shown), (0, False) if erased else (2, True))
    left = StoreBytes.read(where)
    check(f"{what}, the store", is_empty(left) if erased else left == store, True)


def copy_of_top(program, folder):
    """A folder in which `./keystore2` finds this program built."""
    built = folder / "crates/keystore_program/out/keystore_program"
    built.parent.mkdir(parents=True)
    shutil.copy(TOP / "keystore2", folder)
    (folder / "tools").symlink_to(TOOLS)
    (folder / "crates.txt").touch()
    shutil.copy(program, built)
    return folder


class AtTheTop(Case):
    """Cases with a copy of the top folder, over a store with two keys."""

    @classmethod
    def setUpClass(cls):
        with scratch_folder() as folder:
            lines = "".join(map(text_of, KEYS)).encode()
            none = subprocess.DEVNULL
            subprocess.run(
                [chosen_program(), "run", "--fresh"], input=lines, cwd=folder, stdout=none, stderr=none, check=True
            )
            cls.store = StoreBytes.read(f"{folder}/store.ks")
        check("the keys of a store", live_keys(cls.store), 2)

    def setUp(self):
        self.work = self.folder / "work"
        self.work.mkdir()
        (self.work / "script").write_text("", encoding="utf-8")
        self.top = copy_of_top(self.program, self.folder / "top")


@each(typings())
class Typed(AtTheTop):
    def show(self, words, store, answer, question, erased):
        check_typed(self.top, self.work, words, self.store if store == OF_KEYS else store, answer, question, erased)


@each(
    [
        ("run", "run < script", 0),
        ("version", "--version", 0),
        ("init init", "init init", 2),
        ("run frsh", "run --frsh", 2),
    ]
)
class ErasesNothing(AtTheTop):
    def show(self, words, status):
        self.store.write(self.work / "store.ks")
        shown, found = typed(f"{self.top}/keystore2 {words}", self.work, [])
        check(
            "the end",
            (found, "[y/N]" in shown, StoreBytes.read(self.work / "store.ks") == self.store),
            (status, False, True),
        )


class NoTerminal(AtTheTop):
    def test_init_without_a_terminal_asks_nobody(self):
        self.store.write(self.work / "store.ks")
        words, none = [self.top / "keystore2", "init"], subprocess.DEVNULL
        done = subprocess.run(
            words, cwd=self.work, stdin=none, capture_output=True, start_new_session=True, check=False
        )
        left = is_empty(StoreBytes.read(self.work / "store.ks"))
        check("the end", (done.returncode, done.stdout, done.stderr, left), (0, b"", b"", True))
