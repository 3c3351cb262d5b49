"""Checks a crate as it stands over the libraries that `rt ci` left in a clone, and lists the modules that took longest.

    tools/ks measure check_over CLONE CRATE [--test] [--only PATH].. [--most N]
        [--jobs N] [--holes | --fix-imports | --build]

`rt ci` keeps what it proves for itself alone, and a first `rt check` proves all crates below once more. Over a clone
in which a whole `rt ci` has run, the functions of a path (`--only CRATE::MODULE`) are checked within a minute or two,
and again only where they changed. With `--test` the tests are checked too; N modules are listed. With `--holes` the
goals that are open are printed, and with `--fix-imports` imports that nothing uses are dropped; `--build` proves the
whole crate and puts its library into the clone, for those above it. What was checked stays in the crate's `out/over`.
It is for the work on proofs and on what they cost, and gives no verdict: that is the gate's."""
import pathlib
import shutil
import subprocess
import time

import build
from keystore.harness import TOP, parser_of


def times(folder, start=0):
    """Seconds and name of each module that a check has written to a folder since then, from the times at which it
    wrote them."""
    written = sorted(
        (file.stat().st_mtime, file.name) for file in folder.rglob("*.oantt") if file.stat().st_mtime > start
    )
    return [(later - sooner, name.removesuffix(".oantt")) for (sooner, _), (later, name) in zip(written, written[1:])]


def command(clone, name, kept, jobs=1):
    """The check of a crate, as the gate makes it, over the libraries of a clone, by so many modules at a time; what was
    checked is kept in the folder `kept`."""
    kit = pathlib.Path(subprocess.run(["rt", "doc"], capture_output=True, text=True, check=True).stdout.strip()).parent
    own = build.libraries()
    root = "src/lib.rt" if (TOP / f"crates/{name}/src/lib.rt").exists() else "src/main.rt"
    words = [kit / "bin/rattle", "check", "--crate-name", name, root]
    for library in ["std", *build.listed()[name]]:
        place = clone / f"crates/{library}/out/rlib" if library in own else kit / "rlibs"
        words += ["--extern", f"{library}={place}/{library}.rlib"]
    for place in [kit / "rlibs", *(clone / f"crates/{it}/out/rlib" for it in build.needed(own, name)[:-1])]:
        words += ["-L", f"dependency={place}"]
    words += [
        "--antt-project",
        kit / "rattle/logic/antt-project.json",
        "--logic-built",
        kit / "logic_built",
        "--links",
        f"{name}=",
    ]
    return [*words, "--jobs", str(jobs), "--incremental", kept]


def build_command(clone, name, jobs):
    """The same whose library is put into the clone, in the place of one that is there."""
    words = command(clone, name, None, jobs)
    words[1] = "build"
    place = clone / f"crates/{name}/out/rlib/{name}.rlib"
    shutil.rmtree(place, ignore_errors=True)
    place.parent.mkdir(parents=True, exist_ok=True)
    return [*words[: words.index("--incremental")], "--statements", "-o", place]


def main():
    parser = parser_of(__doc__)
    parser.add_argument("clone", type=pathlib.Path)
    parser.add_argument("crate")
    parser.add_argument("--test", action="store_true")
    parser.add_argument("--only", action="append", default=[])
    parser.add_argument("--most", type=int, default=12)
    parser.add_argument("--jobs", type=int, default=1)
    ways = parser.add_mutually_exclusive_group()
    ways.add_argument("--holes", action="store_const", const="--allow-holes", dest="way")
    ways.add_argument("--fix-imports", action="store_const", const="--fix-imports", dest="way")
    ways.add_argument("--build", action="store_true")
    given = parser.parse_args()
    if given.crate not in build.listed():
        parser.error(f"crates.txt lists no {given.crate}")
    folder = TOP / "crates" / given.crate
    (folder / "out/over").mkdir(parents=True, exist_ok=True)
    clone = given.clone.resolve()
    if given.build:
        words = build_command(clone, given.crate, given.jobs)
    else:
        words = command(clone, given.crate, "out/over", given.jobs)
    words += ["--empty-contracts", *[given.way] * bool(given.way)]
    words += ["--test"] * given.test + [word for path in given.only for word in ("--only", path)]
    start = time.time()
    said = subprocess.run(words, cwd=folder, stdout=subprocess.PIPE, stderr=subprocess.STDOUT, text=True, check=False)
    print(
        "\n".join(
            it for it in said.stdout.splitlines() if not it.startswith("statements ") and not it.endswith(": proved")
        )
    )
    for seconds, what in sorted(times(folder / "out/over", start), reverse=True)[: given.most]:
        print(f"{seconds:7.1f}  {what}")
    return said.returncode
