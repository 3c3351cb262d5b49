#!/usr/bin/env python3
"""Before a gate, in seconds: brings the crates into the layout that the gate asks for, and looks at their layers and
must-fail edits.

    python3 tools/before_gate.py [CRATE ..]

`rt ci` refuses a crate with a file that `rt fmt` would change, and then all above it, once everything is proved; `rt
check` does not say so. This runs `rt fmt` in each crate and names the files that it changed, then the edits that are
bad: an `old:` that does not stand in its file once, and more of them in a crate than the budget has; and where the
layers of crates.txt and of docs/ARCHITECTURE.md differ, or a crate has none. It ends with 1 where it names
something."""
import subprocess
import sys

import build
from keystore.harness import TOP, parser_of
from make import layers

MOST_EDITS = 10


def moved(crate):
    """The files of a crate that its layout changed."""
    folder = TOP / "crates" / crate
    files = [
        it
        for part in ("src", "specs", "proofs")
        for it in sorted((folder / part).rglob("*"))
        if it.suffix in (".rt", ".antt")
    ]
    before = {it: it.read_bytes() for it in files}
    subprocess.run(["rt", "fmt"], cwd=folder, stdout=subprocess.DEVNULL, check=True)
    return [f"{it.relative_to(TOP)} was not in the layout" for it in files if it.read_bytes() != before[it]]


def changed(folder, edit):
    """The texts of the files that an edit changes in a crate's folder, by their paths in it, each change made behind
    the one before; and what is wrong with the edit: an `old: TEXT` that does not stand in its file once, and lines
    that are not read."""
    texts, faults, path, old = {}, [], None, None
    for line in edit.read_text(encoding="utf-8").splitlines():
        word, _, rest = line.partition(":")
        rest = rest.removeprefix(" ")
        if word == "file":
            path = rest.strip()
            texts.setdefault(path, (folder / path).read_text(encoding="utf-8"))
        elif word == "old":
            old = rest
        elif word == "new" and path and old:
            count = texts[path].count(old)
            if count != 1:
                faults.append(f"{old!r} stands in {path} {count} times")
            texts[path] = texts[path].replace(old, rest)
        elif line:
            faults.append(f"{line!r} is not read")
    return texts, faults


def bad_edits(crate):
    folder = TOP / "crates" / crate
    edits = sorted((folder / "must-fail").glob("*.edit"))
    if len(edits) > MOST_EDITS:
        yield f"{crate} has {len(edits)} edits, and {MOST_EDITS} are the most"
    for edit in edits:
        _, faults = changed(folder, edit)
        yield from (f"{edit.relative_to(TOP)}: {fault}" for fault in faults)


def main():
    parser = parser_of(__doc__)
    parser.add_argument("crates", nargs="*")
    given = parser.parse_args()
    own = list(build.libraries())
    unknown = [it for it in given.crates if it not in own]
    if unknown:
        parser.error(f"crates.txt lists no {', '.join(unknown)}")
    told = [*layers.faults(), *(line for crate in given.crates or own for line in (*moved(crate), *bad_edits(crate)))]
    print("\n".join(told) or "all in the layout, each crate has its layer, and each edit can be applied")
    return 1 if told else 0


if __name__ == "__main__":
    sys.exit(main())
