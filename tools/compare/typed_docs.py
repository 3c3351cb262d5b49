"""Types the commands of README.md and docs/EXAMPLES.md, and tells where they print otherwise than stands there.

    tools/ks compare typed_docs [DOCUMENT ..] [--program PATH] [--list]

Each indented block that begins with a command is typed as it stands, once, in the order of the document, in a copy of
the repository whose `./keystore2` finds the program; each document has a copy of its own. A block is typed in the
folder where the one before ended, or at the top where it names files that are there alone. What builds or proves is
passed over, and what needs the package `cryptography` where it is not there. Each command must end with status 0, and
the services of a section must have ended at its end. Where the text between says that it `prints` what follows, the
block that follows is compared with all that the commands printed: `?` stands for a digit, a line `..` for any lines. A
further block, behind a text that begins with `and`, goes on with the same. A block of lines with numbers has lines of
the script that was run last, without their clocks, and below them their replies; `..` stands there for what is cut.

It tells all that is not so and ends with status 1; it says nothing where all is well. Where the machine allows it,
the commands have a network of their own, so that their ports are free."""
import fcntl
import os
import pathlib
import re
import shutil
import signal
import socket
import struct
import subprocess
import sys
import time

from keystore.cases import HAS_CIPHERS
from keystore.harness import TOOLS, TOP, add_program, parser_of
from keystore.scratch import scratch_folder

TYPED = ["README.md", "docs/EXAMPLES.md"]
# The first words of what is typed, and what is not typed here: it builds, proves, or takes the archive of another
# place.
COMMANDS = (
    "./keystore2 tools/ks ../keystore2 python3 head sed mkdir seq (umask cd echo cat cc ./client cmp rm tar "
    "sha256sum printf"
).split()
PASSED = re.compile(
    r"^(\.{1,2}/keystore2 build\b|rt |\.ci/run|git |tar |sha256sum |\S*python3 \S*tools/(build|release)\.py)",
    re.MULTILINE,
)
NEEDS_PACKAGE = re.compile(r"tools/(blobs\.py|wrap_key\.py|ks compare second_(server|model))")
# What names files of the top, for a block that is typed elsewhere.
OF_TOP = re.compile(r"(?:^|[\s<=])\.?/?(keystore2|tools|examples|checks|docs)(?=[/\s]|$)")
# A line of a script with its number, and the file that a command reads as its script.
NUMBERED, SCRIPT, CLOCK = (
    re.compile(r" *(\d+)  (\{.*)"),
    re.compile(r"(?:examples|checks)/\S+\.jsonl"),
    re.compile(r'"t":\[\d+,\d+\],?'),
)
# In seconds: how long a block may take, and the services of a section until they have ended. A pause is so many times
# as long as it says, for a machine that has other work.
PATIENCE, PAUSES = 900, 3
NETWORK = "KEYSTORE2_OWN_NETWORK"


class Told:
    """What is not as it should be."""

    def __init__(self):
        self.count = 0

    def tell(self, document, line, what):
        self.count += 1
        print(f"{document}:{line}: {what}", flush=True)


class Block:
    """An indented block: its line, its text, and the prose before it, from the block or heading before."""

    def __init__(self, line, prose, text):
        self.line, self.prose, self.text = line, prose, text

    def is_command(self):
        return bool(self.text) and self.text[0].split()[:1] in [[it] for it in COMMANDS]

    def is_script(self):
        return bool(self.text) and NUMBERED.fullmatch(self.text[0]) is not None


def blocks_of(text):
    """The indented and the fenced blocks of a document with its headings, each of which is a block without text."""
    found, prose, block, is_fenced = [], [], None, False
    for number, line in enumerate([*text.splitlines(), ""], 1):
        is_fence = line.startswith("```")
        is_fenced ^= is_fence
        is_indented = line.startswith("    ") and line.strip() and (block or not prose or not prose[-1])
        if is_fence and is_fenced or is_indented and not is_fenced and block is None:
            block = Block(number + is_fence, " ".join(filter(None, prose)), [])
            found.append(block)
            prose = []
        if is_fence:
            block = block if is_fenced else None
        elif is_fenced or is_indented:
            block.text.append(line if is_fenced else line[4:])
        elif line.startswith("#"):
            found.append(Block(number, line.lstrip("# "), []))
            prose, block = [], None
        else:
            prose.append(line.strip())
            block = None
    return found


def runs_of(block):
    """The parts of a block: lines that are commands, with what goes on with them, and lines that are not."""
    parts = []
    for number, line in enumerate(block.text, block.line):
        goes_on = parts and parts[-1][1] and parts[-1][2][-1].endswith("\\")
        is_command = goes_on or line.split()[0] in COMMANDS
        if not parts or parts[-1][1] != is_command:
            parts.append((number, is_command, []))
        parts[-1][2].append(line)
    return parts


def processes_of(group):
    """The processes of a group that have not ended."""
    found = []
    for pid in filter(str.isdigit, os.listdir("/proc")):
        try:
            stat = (
                pathlib.Path(f"/proc/{pid}/stat")
                .read_text(encoding="utf-8", errors="replace")
                .rsplit(")", 1)[1]
                .split()
            )
        except OSError:
            continue
        if int(stat[2]) == group and stat[0] not in "ZX":
            found.append(int(pid))
    return found


class Session:
    """Somebody who types a document's commands in a copy of the repository."""

    def __init__(self, document, top, told, lists):
        self.document, self.top, self.told, self.lists = document, top, told, lists
        self.folder, self.groups, self.printed, self.compared, self.script = top, [], None, None, []

    def folder_for(self, text):
        """Where a block is typed: at the top where it names what is there, and not where the last one ended."""
        names = OF_TOP.findall(text)
        return self.folder if all((self.folder / name).exists() for name in names) else self.top

    def type(self, line, lines):
        """Types commands; keeps what they print, and where they end."""
        text = "\n".join(lines)
        if PASSED.search(text) or (NEEDS_PACKAGE.search(text) and not HAS_CIPHERS):
            self.list(line, "passed over", text)
            self.printed = None
            return
        self.list(line, "typed", text)
        scratch, folder = self.top.parent, self.folder_for(text)
        scripts = [self.top / name for name in SCRIPT.findall(text)]
        self.script = [
            line for path in scripts if path.exists() for line in path.read_text(encoding="utf-8").splitlines()
        ]
        where, out, fault = scratch / "where", scratch / "out", scratch / "fault"
        script = f"set -eo pipefail\nsleep() {{ command sleep $(($1 * {PAUSES})); }}\n{text}\npwd > {where}\n"
        with open(out, "wb") as said, open(fault, "wb") as told:
            shell = subprocess.Popen(
                ["bash", "-c", script],
                cwd=folder,
                stdin=subprocess.DEVNULL,
                stdout=said,
                stderr=told,
                start_new_session=True,
            )
        self.groups.append((line, shell.pid))
        try:
            status = shell.wait(PATIENCE)
        except subprocess.TimeoutExpired:
            self.told.tell(self.document, line, f"this did not end in {PATIENCE} seconds: {text}")
            self.stop(shell.pid)
            status = shell.wait()
        if status:
            text = fault.read_text(encoding="utf-8", errors="replace").strip()
            self.told.tell(self.document, line, f"this ended with status {status}: {' ; '.join(lines)}: {text}")
        else:
            self.folder = pathlib.Path(where.read_text(encoding="utf-8").strip())
        self.printed = out.read_text(encoding="utf-8", errors="replace").splitlines() if status == 0 else None

    def compare(self, line, lines, goes_on):
        """Compares what was printed with a block; one that goes on takes what the one before left."""
        if self.printed is None or (goes_on and self.compared is None):
            return
        if goes_on and not self.compared:
            self.told.tell(self.document, line, "nothing more was printed")
            return
        self.list(line, "compared", "\n".join(lines))
        given, place = self.compared if goes_on else self.printed, 0
        for number, wanted in enumerate(lines):
            if wanted == "..":
                behind = lines[number + 1 : number + 2]
                place = next(
                    (at for at in range(place, len(given)) if behind and fits(given[at], behind[0])), len(given)
                )
                continue
            found = given[place] if place < len(given) else None
            if found is None or not fits(found, wanted):
                self.told.tell(
                    self.document,
                    line + number,
                    f"printed is {'no more' if found is None else repr(found)} and not {wanted!r}",
                )
            place += 1
        self.compared = given[place:]

    def compare_script(self, line, lines):
        """Compares lines of a script by their numbers, and the reply below each."""
        if self.printed is None:
            return
        self.list(line, "compared", "\n".join(lines))
        number = 0
        for place, text in enumerate(lines, line):
            row = NUMBERED.fullmatch(text)
            number, wanted = (int(row[1]), row[2]) if row else (number, text.strip())
            given = ([CLOCK.sub("", it) for it in self.script] if row else self.printed)[number - 1 : number]
            if not given or not fits(given[0], wanted):
                what = f"line {number} of the script" if row else f"the reply to line {number}"
                self.told.tell(
                    self.document, place, f"{what} is {given[0] if given else 'not there'!r} and not {wanted!r}"
                )

    def end_comparing(self, line):
        """What was printed must have been compared to its end, where it was compared at all."""
        if self.compared:
            self.told.tell(self.document, line, f"printed was also {self.compared[0]!r}")
        self.compared = None

    def end_section(self):
        """The services that were started must have ended by themselves."""
        end = time.monotonic() + PATIENCE / 10
        for line, group in self.groups:
            while processes_of(group) and time.monotonic() < end:
                time.sleep(0.1)
            if processes_of(group):
                self.told.tell(
                    self.document, line, "what this started had not ended by itself at the end of the section"
                )
                self.stop(group)
        self.groups = []

    @staticmethod
    def stop(group):
        for pid in processes_of(group):
            os.kill(pid, signal.SIGKILL)

    def list(self, line, what, text):
        if self.lists:
            print(f"{self.document}:{line}: {what}", *text.splitlines(), sep="\n    ", flush=True)

    def run(self, blocks):
        for block in blocks:
            if not block.text:
                self.end_comparing(block.line)
                self.end_section()
                self.printed = None
                continue
            if block.is_script():
                self.compare_script(block.line, block.text)
                continue
            is_command = block.is_command()
            for line, is_typed, lines in runs_of(block) if is_command else [(block.line, False, block.text)]:
                if is_typed:
                    self.end_comparing(line)
                    self.type(line, lines)
                elif is_command or re.search(r"\bprints\b[^.]*$", block.prose):
                    self.end_comparing(line)
                    self.compare(line, lines, False)
                elif re.match(r"and\b", block.prose) and self.compared is not None:
                    self.compare(line, lines, True)
                else:
                    self.list(line, "not compared", "\n".join(lines))
        self.end_comparing(blocks[-1].line)
        self.end_section()


def fits(given, wanted):
    """Whether a line is the wanted one, in which `?` stands for a digit, one that is a member's value for a number,
    and `..` for any."""
    pattern = re.escape(wanted).replace(r":\?", ":[0-9]+").replace(r"\?", "[0-9a-f]").replace(r"\.\.", ".*")
    return re.fullmatch(pattern, given) is not None


def copy_of_top(program, folder):
    """A copy of what the documents' commands name, in which `./keystore2` finds this program built."""
    built = folder / "crates/keystore_program/out/keystore_program"
    built.parent.mkdir(parents=True)
    shutil.copy(program, built)
    for path in [*TOP.glob("*.md"), *TOP.glob("LICENSE"), TOP / "keystore2", TOP / "crates.txt"]:
        shutil.copy(path, folder)
    for name in ("tools", "examples", "checks", "docs"):
        shutil.copytree(TOP / name, folder / name, ignore=shutil.ignore_patterns("out", "__pycache__"))
    return folder


def check_typed(documents, program, told, lists):
    for document in documents:
        with scratch_folder() as name:
            top = copy_of_top(program, pathlib.Path(name).resolve() / "keystore2")
            session = Session(document, top, told, lists)
            try:
                session.run(blocks_of((TOP / document).read_text(encoding="utf-8")))
            finally:
                for _, group in session.groups:
                    session.stop(group)


def take_network():
    """Runs this tool anew in a network of its own, where the machine allows it, and there puts its loopback up."""
    if os.environ.get(NETWORK):
        with socket.socket(socket.AF_INET, socket.SOCK_DGRAM) as any_socket:
            set_flags, is_up = 0x8914, 1
            fcntl.ioctl(any_socket, set_flags, struct.pack("16sh22x", b"lo", is_up))
        return
    words = ["unshare", "--map-root-user", "--net"]
    if (
        shutil.which("unshare")
        and subprocess.run([*words, "true"], stderr=subprocess.DEVNULL, check=False).returncode == 0
    ):
        os.environ[NETWORK] = "yes"
        os.execvp("unshare", [*words, sys.executable, TOOLS / "ks", "compare", "typed_docs", *sys.argv[1:]])


def main():
    parser = parser_of(__doc__)
    parser.add_argument(
        "documents", nargs="*", default=TYPED, metavar="DOCUMENT", help=f"{' and '.join(TYPED)} where none is named"
    )
    add_program(parser)
    parser.add_argument(
        "--list", action="store_true", help="list what is typed, passed over, compared and not compared"
    )
    given, told = parser.parse_args(), Told()
    take_network()
    check_typed(given.documents, given.program, told, given.list)
    return 1 if told.count else 0
