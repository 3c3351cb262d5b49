"""A program of a measuring tool's own: it is proved and built in a folder for the time of a run, over copies of the
crates."""
import pathlib
import shutil
import subprocess

import build


def run_over(used, tool, files, folder):
    """Runs the program of a tool, whose sources stand in the folder of the tool's name beside it, in a folder, over the
    crates that it uses and those below, with what a `rt ci` kept of them on this machine.

    `tool` is the tool's file. `files` says for each file of the program's crate which file of its sources it is, or
    None where it is empty. What comes back is the path of the program, which is there where it was built, and what
    the run said."""
    sources = pathlib.Path(tool).with_suffix("")
    name, below = sources.name, build.libraries()
    needed = {it for one in used for it in build.needed(below, one)}
    build.make_repository([it for it in below if it in needed], folder)
    with open(f"{folder}/crates.txt", "a", encoding="utf-8") as lines:
        lines.write(f"{name}: {' '.join(used)}\n")
    crate = f"{folder}/crates/{name}"
    for path, source in files.items():
        place = pathlib.Path(crate, path)
        place.parent.mkdir(parents=True, exist_ok=True)
        if source:
            shutil.copy(sources / source, place)
        else:
            place.touch()
    program = f"{crate}/out/{name}"
    said = run(["rt", "ci"], folder)
    return program, run([program], folder) if pathlib.Path(program).exists() else said


def run(words, folder):
    """Runs words in a folder, and gives what they said."""
    return subprocess.run(words, cwd=folder, stdin=subprocess.DEVNULL, capture_output=True, text=True, check=False)
