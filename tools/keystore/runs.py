"""A run and a service of the program as context managers, what one leaves, and waits that end."""
from __future__ import annotations

import contextlib
import itertools
import json
import os
import re
import resource
import socket
import subprocess
import threading
import time
from collections.abc import Callable, Iterable, Iterator, Mapping, Sequence
from pathlib import Path
from types import TracebackType
from typing import IO, Any, NamedTuple, TypeVar

from keystore.device import DEMO_DEVICE, with_system
from keystore.harness import SLOWER, Word, check, cut, without_notices
from keystore.scratch import scratch_folder

# No step takes as long, in seconds.
PATIENCE = 120 * int(os.environ.get(SLOWER) or 1)
# A run over a script of many lines may take as long.
LONGEST = 10 * PATIENCE
Given = TypeVar("Given")


# ---- Waits


def until(call: Callable[[], Given | None], seconds: float = PATIENCE, pause: float = 0.002) -> Given | None:
    """What a call gives, as soon as that is not None; None where it is so for all of the time."""
    end = time.monotonic() + seconds
    while (found := call()) is None and time.monotonic() < end:
        time.sleep(pause)
    return found


def once_it_listens(call: Callable[..., Given], *words: Any) -> Given:
    """What a call gives as soon as somebody listens."""

    def called() -> tuple[Given] | None:
        try:
            return (call(*words),)
        except ConnectionRefusedError:
            return None

    found = until(called, pause=0.05)
    if found is None:
        raise AssertionError("nobody listens")
    return found[0]


@contextlib.contextmanager
def killed_late(process: subprocess.Popen[bytes]) -> Iterator[None]:
    """Kills a process that takes too long, so that nobody waits for it for good."""
    timer = threading.Timer(LONGEST, process.kill)
    timer.daemon = True
    timer.start()
    try:
        yield
    finally:
        timer.cancel()


def free_port() -> int:
    with socket.create_server(("127.0.0.1", 0)) as listener:
        port: int = listener.getsockname()[1]
        return port


# ---- Runs


def ended(program: Word, words: Sequence[Word], folder: Word, script: bytes = b"") -> tuple[int, bytes, list[bytes]]:
    """How the program ended: its status, what it wrote, and the lines of its fault."""
    done = subprocess.run(
        [program, *words], cwd=folder, input=script, capture_output=True, timeout=PATIENCE, check=False
    )
    return done.returncode, done.stdout, without_notices(done.stderr).splitlines()


def check_replies(program: Word, asked: Sequence[str], wanted: Sequence[str], *further: str) -> None:
    """A run over these lines, on a store of its own and with these further words, answers these, and ends with status
    0; the first line that is answered otherwise is told."""
    words: list[Word] = [program, "run", "--fresh", *further]
    with scratch_folder() as folder:
        script = "\n".join(asked)
        done = subprocess.run(
            words, input=script, cwd=folder, capture_output=True, text=True, timeout=LONGEST, check=False
        )
    if done.stdout != "".join(f"{reply}\n" for reply in wanted):
        for line, own, reply in itertools.zip_longest(asked, wanted, done.stdout.splitlines()):
            if own != reply:
                raise AssertionError(f"{cut(line)}\n    gave {cut(reply)}\n    and not {cut(own)}")
    check("the status", (done.returncode, without_notices(done.stderr)), (0, ""))


def check_rows(program: Word, rows: Iterable[tuple[Mapping[str, Any], Mapping[str, Any]]]) -> None:
    """The same of lines and replies by their members."""
    both = list(rows)
    asked = [json.dumps(line, separators=(",", ":")) for line, _ in both]
    check_replies(program, asked, [json.dumps(reply, separators=(",", ":"), sort_keys=True) for _, reply in both])


def fits(given: str, wanted: str) -> bool:
    """Whether replies are the wanted ones: a `?` there stands for a digit that is drawn, and one that is a member's
    value by itself for a drawn number."""
    pattern = re.escape(wanted).replace(r":\?", ":[0-9]+").replace(r"\?", ".")
    return re.fullmatch(pattern, given) is not None


def words_of(script: Path) -> list[str]:
    """The further words of a script, which stand in a file .words beside it."""
    words = script.with_suffix(".words")
    return words.read_text(encoding="utf-8").split() if words.exists() else []


class Part(NamedTuple):
    """What one run has of a script: its lines, and the versions of its device's system, or None for the demo device."""

    lines: list[bytes]
    versions: tuple[int, int] | None = None


def parts_of(script: Path) -> list[Part]:
    """The runs of a script over one store, one after another: a single one where no file .systems stands beside it,
    and else one for each of its rows, the versions of the operating system and of its patches, and how many lines."""
    lines, rows = script.read_bytes().removesuffix(b"\n").split(b"\n"), script.with_suffix(".systems")
    if not rows.exists():
        return [Part(lines)]
    parts, begin = [], 0
    for row in rows.read_text(encoding="utf-8").splitlines():
        os_version, patch, count = map(int, row.split())
        parts.append(Part(lines[begin : begin + count], (os_version, patch)))
        begin += count
    check(f"the lines of the runs of {script.name}", begin, len(lines))
    return parts


class Run:
    """A run that is asked line by line. Where it is left before its end it is killed, and where it takes too long,
    so that nobody waits for good."""

    def __init__(self, program: Word, folder: Word, *words: Word, environment: Mapping[str, str] | None = None) -> None:
        pipe = subprocess.PIPE
        self.process = subprocess.Popen(
            [program, "run", *words],
            stdin=pipe,
            stdout=pipe,
            stderr=pipe,
            cwd=folder,
            env=environment and {**os.environ, **environment},
        )

        self.late = contextlib.ExitStack()
        self.late.enter_context(killed_late(self.process))

    def __enter__(self) -> Run:
        return self

    def __exit__(
        self, kind: type[BaseException] | None, error: BaseException | None, trace: TracebackType | None
    ) -> None:
        self.late.close()
        self.process.kill()
        self.process.communicate()

    def stream(self, name: str) -> IO[bytes]:
        found: IO[bytes] = getattr(self.process, name)
        return found

    def send(self, line: bytes) -> None:
        """Sends a line, where the run has not ended."""
        with contextlib.suppress(BrokenPipeError):
            self.stream("stdin").write(line + b"\n")
            self.stream("stdin").flush()

    def reply(self, line: Mapping[str, Any]) -> Any:
        """The reply to a line, by its members."""
        self.send(json.dumps(line, separators=(",", ":")).encode())
        told = self.stream("stdout").readline()
        return json.loads(told) if told else "no reply"

    def check(self, what: str, rows: Iterable[tuple[Mapping[str, Any], Any]]) -> None:
        for line, wanted in rows:
            check(f"{what}, the line {json.dumps(line)[:200]}", self.reply(line), wanted)

    def end(self, what: str, status: int = 0, fault: bytes = b"") -> None:
        """It ends by itself, with this status, and writes nothing more."""
        said, told = self.process.communicate()
        check(f"{what}, the end", (self.process.returncode, said, without_notices(told)), (status, b"", fault))


# ---- Services


def make_store(program: Word, folder: Word) -> None:
    """Makes an empty store."""
    check("init", ended(program, ["init"], folder), (0, b"", []))


def make_store_on(program: Word, folder: Path, versions: tuple[int, int], script: bytes) -> None:
    """Makes a store by a run over a script on a device with these versions of its system, whose file goes with it."""
    device = folder / "device.key"
    device.write_bytes(with_system(DEMO_DEVICE, *versions))
    status, _, fault = ended(program, ["run", "--fresh"], folder, script)
    check("the run on another system", (status, fault), (0, []))
    device.unlink()


@contextlib.contextmanager
def service_process(
    program: Word,
    folder: Word,
    connections: int,
    workers: int = 1,
    environment: Mapping[str, str] | None = None,
    limits: Sequence[tuple[int, int]] = (),
) -> Iterator[tuple[int, subprocess.Popen[bytes]]]:
    """A service over the store of a folder; gives its port and its process, which is killed at the end. Of each
    resource of these limits it has so much and no more."""

    def limit() -> None:
        for kind, most in limits:
            resource.setrlimit(kind, (most, most))

    port = free_port()
    words: list[Word] = [program, "serve", str(port), str(connections), str(workers)]
    process = subprocess.Popen(
        words,
        cwd=folder,
        stdout=subprocess.PIPE,
        stderr=subprocess.PIPE,
        env=environment and {**os.environ, **environment},
        preexec_fn=limit if limits else None,
    )
    try:
        yield port, process
    finally:
        process.kill()
        process.communicate()


@contextlib.contextmanager
def service(
    program: Word, folder: Word, connections: int, workers: int = 1, environment: Mapping[str, str] | None = None
) -> Iterator[int]:
    """A service over the store of a folder, which has so many connections and ends behind the last one with status
    0; gives its port."""
    with service_process(program, folder, connections, workers, environment) as (port, process):
        yield port
        said, fault = process.communicate(timeout=PATIENCE)
        check("the end of the service", (process.returncode, said, without_notices(fault)), (0, b"", b""))


def held_by(process: subprocess.Popen[bytes]) -> tuple[int, int]:
    """How many threads and descriptors a process has."""
    folder = Path(f"/proc/{process.pid}")
    return len(list((folder / "task").iterdir())), len(list((folder / "fd").iterdir()))


def memory_of(process: subprocess.Popen[bytes], kind: str) -> int:
    """What a process has of its memory, in bytes; `VmRSS` is what is in the machine's, `VmSize` its addresses."""
    with open(f"/proc/{process.pid}/status", encoding="utf-8") as lines:
        return next(int(line.split()[1]) * 1024 for line in lines if line.startswith(f"{kind}:"))


def check_held(process: subprocess.Popen[bytes], before: tuple[int, int]) -> None:
    """In the end a process has no more threads and no more descriptors than before."""

    def greatest() -> tuple[int, int]:
        threads, descriptors = held_by(process)
        return max(threads, before[0]), max(descriptors, before[1])

    until(lambda: greatest() == before or None)
    check("the threads and descriptors", greatest(), before)
