#!/usr/bin/env python3
"""Makes an archive of the proved program, for machines without the toolchain.

    python3 tools/release.py [--folder FOLDER]

It has the program, the client, the tools that make devices and hand in tokens, the documents, the man page, the
examples and LICENSE, as they are committed, and a file RELEASE with the commit, the digest of the sources, the logic's
line of `rt version` and the program's sha256. The same commit and program give the same bytes, as far as `zlib` packs
them alike: names in order, the commit's time, no owner. Beside it stands a file .sha256 for `sha256sum -c
--ignore-missing`, with the sums of the archive and of the program in it. The program must be that of the commit's
sources.

Who puts the archive, or its .sha256 alone, into the top folder is told by `./keystore2 build` whether the program
that it proved has the bytes of the release."""
import gzip
import hashlib
import io
import os
import platform
import shutil
import subprocess
import sys
import tarfile

from build import BUILT, digest, is_of
from keystore.harness import TOP, folder_at, parser_of

KEPT = ["README.md", "CHANGELOG.md", "SECURITY.md", "LICENSE", "docs", "examples"]
# The client, and by which docs/EXAMPLES.md makes devices, hands in tokens and wraps keys.
TOOLS = [
    "keystore_client.py",
    "dialog.py",
    "make_device.py",
    "make_token.py",
    "wrap_key.py",
    "keystore/__init__.py",
    "keystore/device.py",
    "keystore/harness.py",
    "keystore/spelling.py",
    "keystore/tokens.py",
]


def git(*words):
    return subprocess.run(["git", "-C", TOP, *words], stdout=subprocess.PIPE, check=True).stdout


def committed():
    """The files of the archive as they are committed, by their names, with their modes."""
    found = {}
    for row in (
        git("ls-tree", "-r", "-z", "HEAD", "--", *KEPT, *(f"tools/{it}" for it in TOOLS)).decode().split("\0")[:-1]
    ):
        mode, _, rest = row.split(" ", 2)
        blob, name = rest.split("\t")
        found[name] = (git("cat-file", "blob", blob), 0o755 if mode == "100755" else 0o644)
    return found


def version_of(program):
    """The version that the program tells."""
    return subprocess.run([program, "--version"], stdout=subprocess.PIPE, text=True, check=True).stdout.split()[1]


HOW = """
To prove this program: clone the repository at that commit, put the archive into its top folder and call
'./keystore2 build' there, with a toolchain of that logic. It proves the sources, and says whether its program has
these bytes.
"""


def description(commit, data):
    logic = subprocess.run(["rt", "version"], cwd=TOP, stdout=subprocess.PIPE, text=True, check=True).stdout.strip()
    rows = {
        "commit": commit,
        "sources": digest(),
        "logic": logic,
        "program": f"sha256 {hashlib.sha256(data).hexdigest()}",
    }
    return ("".join(f"{name} {it}\n" for name, it in rows.items()) + HOW).encode()


def packed(files, folder, time):
    """The bytes of an archive of these files, in a folder of this name."""
    whole = io.BytesIO()
    with gzip.GzipFile("", "wb", 9, whole, time) as stream, tarfile.open(
        fileobj=stream, mode="w", format=tarfile.USTAR_FORMAT
    ) as archive:
        for name in sorted(files):
            data, mode = files[name]
            row = tarfile.TarInfo(f"{folder}/{name}")
            row.size, row.mode, row.mtime = len(data), mode, time
            archive.addfile(row, io.BytesIO(data))
    return whole.getvalue()


def put(path, data):
    """Writes a file in one step."""
    new = path.with_name(f"{path.name}.new")
    new.write_bytes(data)
    os.replace(new, path)


def release(folder, program):
    """Puts the archive of a program into a folder, with its sums beside it, and gives its path."""
    commit, time = git("show", "-s", "--format=%H %ct", "HEAD").decode().split()
    data = program.read_bytes()
    name = f"keystore2-{version_of(program)}-{commit[:12]}-{platform.machine()}"
    files = {**committed(), "keystore2": (data, 0o755), "RELEASE": (description(commit, data), 0o644)}
    archive = packed(files, name, int(time))
    sums = [(archive, f"{name}.tar.gz"), (data, f"{name}/keystore2")]
    put(folder / f"{name}.tar.gz", archive)
    put(
        folder / f"{name}.tar.gz.sha256",
        "".join(f"{hashlib.sha256(it).hexdigest()}  {of}\n" for it, of in sums).encode(),
    )
    return folder / f"{name}.tar.gz"


def main():
    parser = parser_of(__doc__)
    parser.add_argument(
        "--folder", type=folder_at, default=TOP, metavar="FOLDER", help="where the archive is put; the top folder"
    )
    folder = parser.parse_args().folder
    if not shutil.which("rt"):
        sys.exit("release: the Rattle toolchain's command rt, which tells the logic, is not on the PATH")
    if not is_of(f"{TOP}/{BUILT}", digest()):
        sys.exit("release: there is no program of the commit's sources; './keystore2 build' proves and builds it")
    print(release(folder, TOP / BUILT))
    return 0


if __name__ == "__main__":
    sys.exit(main())
