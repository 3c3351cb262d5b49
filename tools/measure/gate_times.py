"""Runs the gate, `rt ci`, at the top of the repository, passes its output on, and writes how long each part of it took:
for each crate the processor seconds of its bodies, of its tests' proofs, of its bodies once more for its edits, of
these and of its runs, their sums, what an edit took on the average, and the last check, of the crate as it stands,
where it stands behind the edits.

    tools/ks measure gate_times [FILE [WORD ..]]

FILE is where the table goes, as Markdown; without it, standard output has it last. The words are handed to `rt ci`. A
toolchain whose `rt ci` keeps what it proved for a later run does not do that again; there the word `--anew` has it
begin from nothing. Behind the table stands each edit that is told from its crate's bodies, with its seconds, the
longest first.

The seconds are those of the processes that the gate starts, read from /proc twice a second, so a process that is
shorter than that is missed. A process that is ending has no words any more, and is not looked at again. An edit is
told from a crate by its folder: the gate checks it on a copy. A crate's edits are checked one after another, each
over what the ones before it proved, so the first of them proves the bodies once more, and with a kit that seeds them
a check of the crate as it stands does: that is the part "again". It has the last check of a crate too where that is
the crate as it stands. To compile what a program's check proved counts with the runs. Below the table stands what
all checks for edits took beyond the bodies once, for each edit, and how much of it was the last checks; and after
how many minutes the program was proved with all that it stands on, which is what a first `./keystore2` waits for at
most."""
import argparse
import collections
import dataclasses
import functools
import glob
import os
import subprocess
import threading
import time

import build
from keystore.harness import parser_of

TICKS = os.sysconf("SC_CLK_TCK")
PARTS = ("bodies", "tests", "again", "edits", "runs")


@dataclasses.dataclass
class Work:
    """A process of the gate: its crate, the part that it works for, the folder in which it does, the edit that it
    tries where that is told, its processor seconds so far, and whether it is known to check a crate as it stands
    behind its edits."""

    crate: str
    part: str
    folder: str
    edit: str | None
    seconds: float = 0.0
    stands: bool = False


def part_of(words, folder):
    """The crate and the part that a process works for, or None for a process of no crate.

    A library is proved by `rattle build`, a program by `rattle check`, and an edit by `rattle check` in a copy."""
    name = os.path.basename(words[0])
    if "--crate-name" not in words:
        crate = name.removesuffix("_tests")
        return (crate, "runs") if os.path.isdir(f"crates/{crate}") else None
    crate = words[words.index("--crate-name") + 1]
    if "--crate-checked" in words:
        return crate, "runs"
    if "--test" in words:
        return crate, "tests"
    if not os.path.basename(folder).startswith("rt-edit-"):
        return crate, "bodies"
    return crate, "again" if any(it.startswith("/") and it.endswith("/seed") for it in words) else "edits"


@functools.cache
def edits_of(crate):
    """The names of a crate's edits, in the order in which the gate tries them."""
    return [os.path.basename(it).removesuffix(".edit") for it in sorted(glob.glob(f"crates/{crate}/must-fail/*.edit"))]


def edit_of(words, crate):
    """The edit that a process tries, by the number at the end of the folder that it begins with, where that has one."""
    number = os.path.basename(words[words.index("--incremental") + 1]) if "--incremental" in words else ""
    edits = dict(enumerate(edits_of(crate)))
    return edits.get(int(number)) if number.isdigit() else None


def watch(process, seen, last):
    start = time.time()
    while process.poll() is None:
        for pid, (words, folder, stat) in build.processes_below(process.pid).items():
            part = part_of(words, folder)
            if part:
                seconds = (int(stat[11]) + int(stat[12])) / TICKS
                work = seen.setdefault(
                    (pid, *part), Work(*part, folder, edit_of(words, part[0]) if part[1] == "edits" else None)
                )
                work.seconds = max(seconds, work.seconds)
                last[part] = (time.time() - start) / 60
        time.sleep(0.5)


def tell_again(works):
    """Where no check of a crate's edits was seeded, the first of them proves the bodies once more, those behind it
    are told by their order, and the one behind the last edit checks the crate as it stands. A check has a folder of
    its own, and may have several processes."""
    folders = collections.defaultdict(dict)
    for work in works:
        if work.part in ("edits", "again"):
            folders[work.crate].setdefault(work.folder, []).append(work)
    for crate, checks in folders.items():
        checks = list(checks.values())
        if all(work.part == "edits" for check in checks for work in check):
            edits = edits_of(crate)
            for edit, work in ((edit, it) for edit, check in zip(edits, checks) for it in check):
                work.edit = edit
            for work in checks[0]:
                work.part = "again"
            for work in (it for check in checks[len(edits) : len(edits) + 1] for it in check):
                work.part, work.stands = "again", True


def table(works, last, minutes):
    tell_again(works)
    sums = collections.defaultdict(lambda: dict.fromkeys(PARTS, 0.0))
    for work in works:
        sums[work.crate][work.part] += work.seconds
    tried = collections.Counter(crate for crate, _ in {(it.crate, it.folder) for it in works if it.part == "edits"})
    stands = collections.Counter()
    for work in works:
        if work.stands:
            stands[work.crate] += work.seconds
    rows = ["| Crate | " + " | ".join(PARTS) + " | all | an edit | as it stands |", "|---|" + "---|" * (len(PARTS) + 3)]

    def add_row(name, parts, count, stands):
        rows.append(
            f"| {name} | "
            + " | ".join(
                f"{it:.0f}" for it in [*parts, sum(parts), parts[PARTS.index("edits")] / max(count, 1), stands]
            )
            + " |"
        )

    for crate in sorted(sums, key=lambda it: -sum(sums[it].values())):
        add_row(crate, [sums[crate][it] for it in PARTS], tried[crate], stands[crate])
    add_row(
        "all",
        [sum(it[part] for it in sums.values()) for part in PARTS],
        tried.total(),
        stands.total() / max(len(stands), 1),
    )
    rows.append(beyond(sums, stands.total()))
    proved = max(last.get((it, "bodies"), 0) for it in build.needed(build.libraries(), build.PROGRAM))
    rows.append(
        f"\nSeconds of processor; {minutes:.1f} minutes by the clock on {os.cpu_count()} processors; the program "
        f"was proved after {proved:.1f}."
    )
    return "\n".join([*rows, *by_edit(works)]) + "\n"


def beyond(sums, stands):
    """A line that says what the edits take beside the bodies, which their first check or its seed proves once more,
    and how much of that the checks of the crates as they stand took, where they come last."""
    edited = {crate: len(edits_of(crate)) for crate in sums if sums[crate]["edits"]}
    seconds = sum(sums[it]["again"] + sums[it]["edits"] - sums[it]["bodies"] for it in edited)
    count = max(sum(edited.values()), 1)
    return (
        f"\nAll checks for edits took {seconds:.0f} seconds more than the bodies of their "
        f"crates: {seconds / count:.2f} for each of "
        f"{count} edits, {(seconds - stands) / count:.2f} without the last checks of the crates as they stand."
    )


def by_edit(works):
    """Lines of the edits by their names, the longest first; none where none was told."""
    sums = collections.Counter()
    for work in works:
        if work.edit and work.part == "edits":
            sums[work.crate, work.edit] += work.seconds
    rows = [f"| {crate} | {edit} | {seconds:.0f} |" for (crate, edit), seconds in sums.most_common()]
    return ["", "| Crate | edit | seconds |", "|---|---|---|", *rows] if rows else []


def main():
    parser = parser_of(__doc__)
    parser.add_argument("file", nargs="?")
    parser.add_argument("words", nargs=argparse.REMAINDER)
    given = parser.parse_args()
    start, seen, last = time.time(), {}, {}
    process = subprocess.Popen(
        ["rt", "ci", *given.words], stdout=subprocess.PIPE, stderr=subprocess.STDOUT, text=True, errors="replace"
    )
    watcher = threading.Thread(target=watch, args=(process, seen, last), daemon=True)
    watcher.start()
    try:
        for line in process.stdout:
            print(line, end="", flush=True)
    except KeyboardInterrupt:
        print("the gate was stopped; the table has what it did by then")
    status = process.wait()
    watcher.join()
    text = table(list(seen.values()), last, (time.time() - start) / 60)
    if given.file:
        with open(given.file, "w", encoding="utf-8") as out:
            out.write(text)
    else:
        print(text)
    return status
