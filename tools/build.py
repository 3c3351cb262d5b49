#!/usr/bin/env python3
"""Builds the program: proves each crate that it stands on and then the program, on all processors.

What the program stands on is copied to a temporary folder (where TMPDIR says, some gigabytes), without must-fail edits,
and the gate's `rt ci` runs there: it proves crates side by side, each over the statements of those below it, and runs
the program once as each of two compilers builds it. A toolchain that keeps what it proved passes over what has not
changed, here and in the gate; another one proves all of it each time. On a terminal one line goes on: how much is
proved, the minutes so far, and what is at work; elsewhere a line comes each minute. Crates count by their sources'
length, which is near the time that they take. At a failure it prints the lines of the first crate that was refused, and
where the whole log is. It tries no must-fail edit: that is the gate.

At its end it says of each release that lies in the top folder, an archive of `tools/release.py` or its .sha256 alone,
whether the program that was built has the bytes of its program.

With --checked it makes the program that `rt try` compiles of the same sources, with checks and no proof: `rt try`
has it in a temporary folder while it runs, and it is copied from there to out/. Beside a program stands git's digest
of the sources that it was made of."""
import contextlib
import fcntl
import glob
import hashlib
import os
import re
import shutil
import signal
import subprocess
import sys
import tarfile
import tempfile
import time
import zlib

from keystore.harness import parser_of

PROGRAM = "keystore_program"
TOP = os.path.dirname(os.path.dirname(os.path.realpath(__file__)))
BUILT = f"crates/{PROGRAM}/out/{PROGRAM}"
CHECKED = "out/keystore2-checked"
PREFIX = "keystore2-build-"


def listed():
    """The crates of crates.txt, each with the libraries that it stands on."""
    with open(f"{TOP}/crates.txt", encoding="utf-8") as lines:
        rows = [line.split("#")[0].strip() for line in lines]
    return {row.split(":")[0].split()[0]: row.split(":")[1].split() for row in rows if row}


def libraries():
    """The same, each with those of the repository alone."""
    named = listed()
    return {name: [it for it in below if it in named] for name, below in named.items()}


def needed(below, name):
    """A crate and those that it stands on, from the bottom up."""
    found = []
    for it in below[name]:
        found += [one for one in needed(below, it) if one not in found]
    return [*found, name]


def digest():
    """Git's digest of the sources as they are committed; no text where git does not tell it."""
    words = ["git", "-C", TOP, "rev-parse", "HEAD:crates", "HEAD:crates.txt"]
    told = subprocess.run(words, stdout=subprocess.PIPE, stderr=subprocess.DEVNULL, text=True, check=False)
    return told.stdout.replace("\n", "") if told.returncode == 0 else ""


def put(program, place, sources):
    """Puts a program in its place, in one step, with the digest of its sources beside it."""
    os.makedirs(os.path.dirname(place), exist_ok=True)
    shutil.copy(program, f"{place}.new")
    with open(f"{place}.sources", "w", encoding="utf-8") as beside:
        beside.write(sources + "\n")
    os.replace(f"{place}.new", place)


def is_of(place, sources):
    """Whether a program is there that was made of these sources."""
    try:
        with open(f"{place}.sources", encoding="utf-8") as beside:
            return os.access(place, os.X_OK) and beside.read().strip() == sources != ""
    except OSError:
        return False


def weight_of(name):
    """The bytes of a crate's sources."""
    files = [
        it
        for part in ("src", "specs", "proofs")
        for it in glob.glob(f"{TOP}/crates/{name}/{part}/**/*.*", recursive=True)
    ]
    return sum(map(os.path.getsize, files))


def copy_crates(names, folder, left_out=()):
    """Copies these crates into a folder, without what has one of these names, and the lines that crates.txt has of
    them."""
    for name in names:
        shutil.copytree(
            f"{TOP}/crates/{name}", f"{folder}/crates/{name}", symlinks=True, ignore=shutil.ignore_patterns(*left_out)
        )
    with open(f"{TOP}/crates.txt", encoding="utf-8") as lines, open(
        f"{folder}/crates.txt", "w", encoding="utf-8"
    ) as kept:
        kept.writelines(
            line for line in lines if line.split("#")[0].split(":")[0].split()[:1] in [[it] for it in names]
        )


def make_repository(names, folder):
    """Makes a folder a repository that has these crates' sources and nothing else."""
    copy_crates(names, folder, ("out", "must-fail"))
    shutil.copy(f"{TOP}/HANDLES", folder)
    # A repository begins where a folder .git is.
    os.mkdir(f"{folder}/.git")


def processes_below(top):
    """The processes under a process, with their words, their folders and the fields of their `stat`."""
    parents, found = {}, {}
    for pid in map(int, filter(str.isdigit, os.listdir("/proc"))):
        try:
            with open(f"/proc/{pid}/stat", encoding="utf-8", errors="replace") as it:
                stat = it.read().rsplit(")", 1)[1].split()
            with open(f"/proc/{pid}/cmdline", "rb") as it:
                words = it.read().decode(errors="replace").split("\0")
            folder = os.readlink(f"/proc/{pid}/cwd")
        except OSError:
            continue
        parents[pid] = int(stat[1])
        # A process that is ending has no words any more.
        if words[0]:
            found[pid] = (words, folder, stat)

    def is_below(pid):
        while pid in parents and pid != top:
            pid = parents[pid]
        return pid == top

    return {pid: it for pid, it in found.items() if pid != top and is_below(pid)}


def tell(what, end=""):
    if sys.stderr.isatty():
        print(
            f"\r\033[Kkeystore2: {what}"[: shutil.get_terminal_size().columns + 3], end=end, file=sys.stderr, flush=True
        )
    else:
        print(f"keystore2: {what}", file=sys.stderr, flush=True)


def run(words, folder, log, told):
    """Runs a command to its end, with what it says in a log; it is told meanwhile which crates are at work."""
    with open(log, "wb") as out, subprocess.Popen(
        words, cwd=folder, stdin=subprocess.DEVNULL, stdout=out, stderr=out
    ) as process:
        try:
            while True:
                with contextlib.suppress(subprocess.TimeoutExpired):
                    return process.wait(1 if sys.stderr.isatty() else 60)
                at_work = {
                    it[0][it[0].index("--crate-name") + 1]
                    for it in processes_below(process.pid).values()
                    if "--crate-name" in it[0]
                }
                told(", ".join(sorted(at_work)))
        finally:
            process.terminate()


def lines_of(log):
    with open(log, encoding="utf-8", errors="replace") as lines:
        return lines.read().splitlines()


def tell_failure(log):
    """Says what was refused, and keeps the whole log."""
    lines = lines_of(log)
    with tempfile.NamedTemporaryFile("w", prefix="keystore2-log-", delete=False) as kept:
        kept.write("\n".join(lines))
    end = next((place for place, line in enumerate(lines, 1) if line.endswith(" NOT PROVED")), len(lines))
    print(
        f"\nkeystore2: the program was not built; {kept.name} says",
        *lines[max(end - 20, 0) : end],
        sep="\n",
        file=sys.stderr,
    )


def build(names):
    """Builds the program; the status is 0, or 2 where it was not built."""
    start, sources = time.time(), digest()
    weights = {name: weight_of(name) for name in names}
    with tempfile.TemporaryDirectory(prefix=f"{PREFIX}{os.getpid()}-") as folder:
        make_repository(names, folder)
        log = f"{folder}/log"

        def told(at_work):
            proved = {it[1] for line in lines_of(log) if (it := re.fullmatch(r"rt: (\w+) (?:proved|is kept:.*)", line))}
            part = sum(weights[name] for name in proved & weights.keys()) / sum(weights.values())
            minutes = (time.time() - start) / 60
            tell(f"{part:.0%} proved, {len(proved)} of {len(names)} crates, {minutes:.1f} min: {at_work}")

        status = run(["rt", "ci"], folder, log, told)
        if status or not os.access(f"{folder}/{BUILT}", os.X_OK):
            tell_failure(log)
            return 2
        put(f"{folder}/{BUILT}", f"{TOP}/{BUILT}", sources)
    tell(f"proved and built in {(time.time() - start) / 60:.1f} min", "\n")
    tell_releases()
    return 0


def sum_in(release):
    """The sha256 of the program in a release: an archive, or the file of its sums; nothing where it has none."""
    if release.endswith(".sha256"):
        with open(release, encoding="utf-8") as rows:
            return next((row.split()[0] for row in rows if row.rstrip().endswith("/keystore2")), None)
    with tarfile.open(release, "r:gz") as archive:
        member = next(
            (it for it in archive if it.isfile() and it.name.count("/") == 1 and it.name.endswith("/keystore2")), None
        )
        return hashlib.sha256(archive.extractfile(member).read()).hexdigest() if member else None


def tell_releases():
    """Says of each release that lies beside the program whether its bytes are the program's."""
    with open(f"{TOP}/{BUILT}", "rb") as program:
        found = hashlib.sha256(program.read()).hexdigest()
    for release in sorted([*glob.glob(f"{TOP}/keystore2-*.tar.gz"), *glob.glob(f"{TOP}/keystore2-*.tar.gz.sha256")]):
        name = os.path.basename(release)
        try:
            wanted = sum_in(release)
            said = "the same bytes as" if wanted == found else f"other bytes (sha256 {found}) than"
            what = f"the program has {said} that of {name}" if wanted else f"{name} has no program"
        except (OSError, EOFError, ValueError, tarfile.TarError, zlib.error) as error:
            what = f"{name} does not read: {error}"
        print(f"keystore2: {what}", file=sys.stderr, flush=True)


def is_run(program):
    """Whether the words of a process name this file: it is whole then."""
    for words in glob.glob("/proc/[0-9]*/cmdline"):
        with contextlib.suppress(OSError), open(words, "rb") as it:
            if program.encode() in it.read():
                return True
    return False


def build_checked(names):
    """Makes the checked program, which `rt try` has in its folder while it runs; the status is 0, or 2 where it was
    not seen there."""
    start, sources = time.time(), digest()
    with tempfile.TemporaryDirectory(prefix=f"{PREFIX}{os.getpid()}-") as folder:
        make_repository(names, folder)
        # A load that does not end within the limit of `rt try`, so that the program is there to be copied once it runs.
        words = ["rt", "try", "--", "soak", "7", "100000"]
        where = {**os.environ, "TMPDIR": folder}
        none = subprocess.DEVNULL
        with subprocess.Popen(
            words, cwd=f"{folder}/crates/{PROGRAM}", env=where, stdin=none, stdout=none, stderr=none
        ) as process:
            try:
                told = start
                while process.poll() is None:
                    found = next((it for it in glob.glob(f"{folder}/**/program", recursive=True) if is_run(it)), None)
                    if found:
                        put(found, f"{TOP}/{CHECKED}", sources)
                        tell(f"checked program made in {(time.time() - start) / 60:.1f} min", "\n")
                        return 0
                    if time.time() - told > (1 if sys.stderr.isatty() else 60):
                        told = time.time()
                        tell(f"compiling with checks, {(told - start) / 60:.1f} min")
                    time.sleep(0.2)
            finally:
                process.terminate()
    tell("the toolchain did not leave its checked program", "\n")
    return 2


def sweep():
    """Removes the folders of builds that were killed."""
    for folder in glob.glob(f"{tempfile.gettempdir()}/{PREFIX}*"):
        pid = os.path.basename(folder).removeprefix(PREFIX).split("-")[0]
        if not os.path.exists(f"/proc/{pid}"):
            shutil.rmtree(folder, ignore_errors=True)


@contextlib.contextmanager
def held(folder):
    """Keeps other builds out of a folder, and waits for the one that is in it; gives whether it had to."""
    at, has_waited = os.open(folder, os.O_RDONLY), False
    try:
        try:
            fcntl.flock(at, fcntl.LOCK_EX | fcntl.LOCK_NB)
        except BlockingIOError:
            print("keystore2: another build is at work here; this one waits for it", file=sys.stderr, flush=True)
            fcntl.flock(at, fcntl.LOCK_EX)
            has_waited = True
        yield has_waited
    finally:
        os.close(at)


def main():
    parser = parser_of(__doc__)
    parser.add_argument("--checked", action="store_true", help="make the checked program, without proofs")
    given = parser.parse_args()
    if not shutil.which("rt"):
        sys.exit("keystore2: the Rattle toolchain's command rt is not on the PATH")
    # What is at work ends with this.
    signal.signal(signal.SIGTERM, lambda *_: sys.exit(2))
    names = needed(libraries(), PROGRAM)
    try:
        with held(f"{TOP}/crates") as has_waited:
            if has_waited and is_of(f"{TOP}/{CHECKED if given.checked else BUILT}", digest()):
                if not given.checked:
                    tell_releases()
                return 0
            sweep()
            return build_checked(names) if given.checked else build(names)
    except KeyboardInterrupt:
        print("\nkeystore2: the build was stopped", file=sys.stderr)
        return 2


if __name__ == "__main__":
    sys.exit(main())
