"""The scripts of examples/ and checks/ have the replies that stand beside them, and those of the second model, and its
traces.

A `?` in an expected reply stands for a digit that is drawn, and one that is a member's value by itself for a drawn
number: two runs must differ there, so that a program whose random bytes are none is seen. A script's further words,
as `--slots 1`, stand in a file .words beside it. A script with a file .systems beside it is served by several runs over
one store, whose devices have the secrets of the demo device and the versions that stand there; else no device.key
stands beside the store, and never a policy.json. A script that needs what its replies tell is answered line by line,
as `tools/dialog.py` says. A trace is the second model's, where it draws the bytes that the trace tells."""
import importlib
import json
import subprocess
import sys

from dialog import OPEN, Told, replies_of
from keystore.cases import Case, each, needs_ciphers
from keystore.device import DEMO_DEVICE, with_system
from keystore.harness import TOOLS, TOP, cut
from keystore.runs import fits, killed_late, parts_of, words_of
from keystore.script_events import Malformed, event_of
from model.trace_lines import entry_of

SCRIPTS = sorted([*TOP.glob("examples/*.jsonl"), *TOP.glob("checks/*.jsonl")])
MODEL = [sys.executable, TOOLS / "ks", "compare", "second_model"]


def wanted_of(script):
    return script.with_suffix(".expected").read_text(encoding="utf-8")


PIPES = {"stdin": subprocess.PIPE, "stdout": subprocess.PIPE, "stderr": subprocess.PIPE}


def answers_to(lines, program, folder, told):
    """The replies of a program to lines, or how it ended where that is not with status 0."""
    text = b"".join(line + b"\n" for line in lines)
    with subprocess.Popen(program, **PIPES, cwd=folder) as process, killed_late(process):
        if OPEN.search(text) is None:
            output, fault = process.communicate(text)
            told.lines += len(lines)
        else:
            output = b"".join(replies_of(process, lines, told))
            rest, fault = process.communicate()
            output += rest
    return output.decode() if process.returncode == 0 else f"status {process.returncode}: {fault.decode()}"


def runs_of(script, program, folder):
    """Each run of a script: its part, and the words by which the program serves it once the device is there."""
    for number, part in enumerate(parts_of(script)):
        if part.versions is not None:
            (folder / "device.key").write_bytes(with_system(DEMO_DEVICE, *part.versions))
        yield part, [program, "run", *([] if number else ["--fresh"]), *words_of(script)]


def check_fits(script, given):
    """The replies fit those that are wanted; the first that does not is told."""
    wanted = wanted_of(script)
    if not fits(given, wanted):
        for number, (one, other) in enumerate(zip(given.splitlines(), wanted.splitlines()), 1):
            if not fits(one, other):
                raise AssertionError(f"line {number} of {script.name} gave\n{cut(one)}\nand not\n{cut(other)}")
        raise AssertionError(f"{script.name} has {given.count(chr(10))} replies and not {wanted.count(chr(10))}")


def rows(wants=""):
    return [(f"{it.parent.name} {it.stem}", it) for it in SCRIPTS if wants in wanted_of(it)]


class OfTheProgram(Case):
    def answers(self, script):
        told, runs = Told(), runs_of(script, self.program, self.folder)
        return "".join(answers_to(part.lines, words, self.folder, told) for part, words in runs)


@each(rows())
class Replies(OfTheProgram):
    def show(self, script):
        check_fits(script, self.answers(script))


@each(rows("?"))
class Drawn(OfTheProgram):
    """What is drawn is drawn anew at each run."""

    def show(self, script):
        self.assertNotEqual(self.answers(script), self.answers(script), f"{script.name} drew the same bytes twice")


def model_of(script, part, before):
    """The second model's service of a run, over what the one before left."""
    model = importlib.import_module("model.second_model")
    versions = {} if part.versions is None else {"versions": part.versions}
    return model.Service(slots=slots_of(script), store=before and before.store, **versions)


def model_answers(script):
    """The second model's replies to a script of several runs."""
    model, service, told, replies = importlib.import_module("model.second_model"), None, Told(), []
    for part in parts_of(script):
        service = model_of(script, part, service)
        for line in part.lines:
            replies.append(model.reply_line(service, told.filled(line)))
            told.note(replies[-1])
    return b"".join(reply + b"\n" for reply in replies).decode()


@needs_ciphers
@each(rows())
class SecondModel(Case):
    def show(self, script):
        if script.with_suffix(".systems").exists():
            check_fits(script, model_answers(script))
        else:
            lines = parts_of(script)[0].lines
            check_fits(script, answers_to(lines, [*MODEL, *words_of(script)], self.folder, Told()))


class TracedEntropy:
    """The bytes that a trace tells, one draw after another."""

    def __init__(self, data):
        self.data, self.drawn = data, b""

    def draw(self, count):
        drawn, self.data = self.data[:count], self.data[count:]
        self.drawn += drawn
        return drawn

    def taken(self):
        drawn, self.drawn = self.drawn, b""
        return drawn


def slots_of(script):
    words = words_of(script)
    return int(words[words.index("--slots") + 1]) if "--slots" in words else 16


def entries_of(process, line):
    """Sends a line, and gives the lines of the entries that it adds, and its reply: an event that enters and is not
    held has a leave."""
    process.stdin.write(line + b"\n")
    process.stdin.flush()
    try:
        hold = event_of(line).get("hold", False)
    except Malformed:
        return [], b""
    lines = [process.stdout.readline()]
    reply = entry_of(lines[0][:-1])[2]
    if "ticket" in reply and not hold:
        lines.append(process.stdout.readline())
        reply = entry_of(lines[1][:-1])[2]
    return lines, json.dumps(reply).encode()


def dialog_traced(process, lines, told):
    """The lines that were sent, and the trace, of lines that need what they are told."""
    sent, trace = [], []
    for line in lines:
        sent.append(told.filled(line))
        lines, reply = entries_of(process, sent[-1])
        told.note(reply)
        trace += lines
    return sent, b"".join(trace)


def traced(lines, program, folder, told):
    """Lines as they were sent, and the trace that the program writes."""
    text = b"".join(line + b"\n" for line in lines)
    with subprocess.Popen([*program, "--trace"], **PIPES, cwd=folder) as process, killed_late(process):
        if OPEN.search(text) is None:
            told.lines += len(lines)
            return lines, process.communicate(text)[0]
        sent, trace = dialog_traced(process, lines, told)
        return sent, trace + process.communicate()[0]


@needs_ciphers
@each(rows())
class Traces(OfTheProgram):
    def show(self, script):
        model, service, told = importlib.import_module("model.second_model"), None, Told()
        for part, words in runs_of(script, self.program, self.folder):
            lines, trace = traced(part.lines, words, self.folder, told)
            service = model_of(script, part, service)
            service.entropy = TracedEntropy(b"".join(entry_of(line)[1] for line in trace.splitlines()))
            wanted = [it for text in lines for it in model.trace_lines(service, text)]
            given = trace.splitlines()
            for number, (one, other) in enumerate(zip(given, wanted), 1):
                self.assertEqual(one, other, f"line {number} of a trace of {script.name}")
            self.assertEqual(len(given), len(wanted), f"the lines of a trace of {script.name}")
