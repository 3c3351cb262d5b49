"""An archive of `tools/release.py` has what it says, with the program of the commit's sources or, where none is built,
a stand-in.

The archive is made twice in temporary folders, with the same bytes. Its members are the program, RELEASE, and the
committed files that are named here, with their bytes, modes and the commit's time, in one folder; `sha256sum -c`
finds both sums right, in the archive's place and for the program that is unpacked; RELEASE has the commit, the
digest of its sources, the line of `rt version` with the logic, and the program's sum; and `./keystore2 build` would
find that sum in the archive and beside it. It needs `rt`, `git`, `tar` and `sha256sum`."""
import hashlib
import os
import pathlib
import re
import subprocess
import tarfile

import build
import release
from keystore.cases import Case
from keystore.harness import TOP

# What an archive has of the repository, said here once more.
FILES = re.compile(
    r"(README|CHANGELOG|SECURITY)\.md|LICENSE|docs/.+|examples/.+|tools/(keystore_client|dialog|make_device|make_token|"
    r"wrap_key|keystore/(__init__|device|harness|spelling|tokens))\.py"
)
ASKED = {
    "README.md",
    "LICENSE",
    "docs/keystore2.1",
    "docs/EXAMPLES.md",
    "tools/keystore_client.py",
    "examples/client.c",
}
LOGIC = re.compile(r"logic ([0-9a-f]{16})\b")


def need(holds, what):
    if not holds:
        raise AssertionError(what)


def said(*words, folder=TOP):
    return subprocess.run(words, cwd=folder, stdout=subprocess.PIPE, check=True).stdout


def stand_in(folder):
    """A program that tells a version, and does nothing else."""
    path = folder / "program"
    logic = LOGIC.search(said("rt", "version").decode())
    need(logic, "rt version tells no logic")
    path.write_text(f"#!/bin/sh\necho 'keystore2 0.0.0 (logic {logic[1]})'\n", encoding="utf-8")
    path.chmod(0o755)
    return path


def made_in(folder, program):
    """The archive that is made in a folder, where nothing but its sums is put besides."""
    folder.mkdir()
    path = pathlib.Path(release.release(folder, program))
    need({it.name for it in folder.iterdir()} == {path.name, f"{path.name}.sha256"}, "release puts other files")
    return path


def check_members(path, program):
    """The members of an archive, each with what it must have; the text of RELEASE."""
    commit, time = said("git", "show", "-s", "--format=%H %ct", "HEAD").decode().split()
    wanted = {
        it: None
        for it in said("git", "ls-tree", "-r", "--name-only", "HEAD").decode().splitlines()
        if FILES.fullmatch(it)
    }
    need(ASKED <= wanted.keys(), f"the commit has no {' '.join(sorted(ASKED - wanted.keys()))}")
    need(commit[:12] in path.name and path.name.endswith(".tar.gz"), f"{path.name} does not name the commit")
    top, found = path.name.removesuffix(".tar.gz"), {}
    with tarfile.open(path, "r:gz") as archive:
        for it in archive:
            need(it.isfile() and it.name.startswith(f"{top}/"), f"{it.name} is no file of {top}")
            need((it.uid, it.gid, it.mtime) == (0, 0, int(time)), f"{it.name} has an owner or another time")
            found[it.name.removeprefix(f"{top}/")] = (archive.extractfile(it).read(), it.mode)
    need(list(found) == sorted(found), "the members are in no order")
    differ = found.keys() ^ (wanted.keys() | {"keystore2", "RELEASE"})
    need(not differ, f"other members: {' '.join(sorted(differ))}")
    need(found["keystore2"] == (program.read_bytes(), 0o755), "keystore2 is not the program")
    for name in wanted:
        need(found[name][0] == said("git", "cat-file", "blob", f"HEAD:{name}"), f"{name} is not as it is committed")
    return commit, found["RELEASE"][0].decode()


def check_description(commit, text, program):
    """The lines of RELEASE, and that the logic is the one that the program tells."""
    rows = dict(line.split(" ", 1) for line in text.split("\n\n")[0].splitlines())
    need(list(rows) == ["commit", "sources", "logic", "program"], f"RELEASE has the lines {' '.join(rows)}")
    need(rows["commit"] == commit, "RELEASE names another commit")
    need(
        rows["sources"]
        == "".join(said("git", "rev-parse", f"HEAD:{it}").decode().strip() for it in ("crates", "crates.txt")),
        "RELEASE has another digest of the sources",
    )
    need(rows["logic"] == said("rt", "version").decode().strip(), "RELEASE has not the line of rt version")
    told = LOGIC.search(said(program, "--version").decode())
    need(told and LOGIC.search(rows["logic"])[1] == told[1], "RELEASE and the program name another logic")
    need(
        rows["program"] == f"sha256 {hashlib.sha256(program.read_bytes()).hexdigest()}",
        "RELEASE has not the program's sum",
    )
    need("./keystore2 build" in text, "RELEASE does not say how to prove the program")


def check_sums(path, program):
    """The sums, by the command of whoever has the archive, before and behind its unpacking, and as the build reads
    them."""
    folder, sums = path.parent, f"{path.name}.sha256"
    checked = ["sha256sum", "--quiet", "-c", "--ignore-missing", sums]
    said(*checked, folder=folder)
    said("tar", "xzf", path.name, folder=folder)
    said(*checked[:-2], sums, folder=folder)
    unpacked = folder / path.name.removesuffix(".tar.gz") / "keystore2"
    need(
        os.access(unpacked, os.X_OK) and unpacked.read_bytes() == program.read_bytes(),
        "the program that is unpacked does not run",
    )
    for name in (path, folder / sums):
        need(
            build.sum_in(str(name)) == hashlib.sha256(program.read_bytes()).hexdigest(),
            f"{name.name} has another sum for the build",
        )
    with open(unpacked, "ab") as changed:
        changed.write(b"\n")
    status = subprocess.run(
        checked, cwd=folder, stdout=subprocess.DEVNULL, stderr=subprocess.DEVNULL, check=False
    ).returncode
    need(status, "the sums are right of a program that was changed")


class Release(Case):
    def setUp(self):
        is_built = build.is_of(f"{TOP}/{build.BUILT}", build.digest())
        self.packed = TOP / build.BUILT if is_built else stand_in(self.folder)
        self.archive = made_in(self.folder / "first", self.packed)

    def test_two_archives_of_one_program_have_the_same_bytes(self):
        second = made_in(self.folder / "second", self.packed)
        self.assertEqual(self.archive.read_bytes(), second.read_bytes())

    def test_its_members_are_the_committed_files_and_the_program(self):
        check_members(self.archive, self.packed)

    def test_it_describes_the_commit_the_logic_and_the_program(self):
        check_description(*check_members(self.archive, self.packed), self.packed)

    def test_its_sums_are_right_and_tell_a_changed_program(self):
        check_sums(self.archive, self.packed)

    def test_the_tools_in_it_run_by_themselves(self):
        """What docs/EXAMPLES.md types of the archive's tools needs no other file."""
        said("tar", "xzf", self.archive.name, folder=self.archive.parent)
        tools = self.archive.parent / self.archive.name.removesuffix(".tar.gz") / "tools"
        for name in ("keystore_client.py", "dialog.py", "make_device.py", "make_token.py", "wrap_key.py"):
            said("python3", str(tools / name), "--help", folder=tools.parent)
        need(
            b"addAuthToken" in said("python3", str(tools / "make_token.py"), "7", folder=tools.parent),
            "make_token.py makes no token",
        )
