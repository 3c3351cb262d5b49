"""The examples of the program's help run, the help is the same wherever it is asked for, and a load has the summary
that is known."""
import shlex
import shutil
import subprocess

from keystore.cases import Case, each
from keystore.harness import TOP, check, without_notices

WORDS = ["init", "run", "soak", "serve"]
# The summary of seed 7 with 1,000 lines, of a model that was written independently of the service.
SUMMARY_OF_7 = (
    "code -28 count 466\n"
    "code 0 count 541\n"
    "sha256 d502d8cafd43b8c8f032620c78e28bd5aa96b2d2f19097d0bc92d6160f212f9d\n"
)
HELPS = [
    ["--help"],
    ["-h"],
    ["help"],
    ["run", "--help"],
    ["run", "--fresh", "--help"],
    ["serve", "1", "--help"],
    ["init", "--help"],
]
NO_FORMS = [
    [],
    ["soak"],
    ["soak", "7"],
    ["soak", "7", "0"],
    ["soak", "7", "100001"],
    ["soak", "+7", "1"],
    ["soak", "7", "1", "1"],
    ["soak", "18446744073709551616", "1"],
    ["soak", "000000000000000000007", "1"],
    ["soak", "", "1"],
    ["--help", "init"],
    ["serve"],
    ["serve", "1", "1"],
    ["serve", "65536", "1", "1"],
    ["serve", "1", "0", "1"],
    ["serve", "1", "65537", "1"],
    ["serve", "1", "1", "0"],
    ["serve", "1", "1", "65"],
    ["serve", "1", "1", "1", "1"],
    ["serve", "-1", "1", "1"],
]


def ended_run(program, words, folder, script=None):
    """What the program writes, its status, and what it tells on standard error."""
    with open(script or "/dev/null", "rb") as source:
        ended = subprocess.run([program, *words], stdin=source, cwd=folder, capture_output=True, text=True, check=False)
    return ended.stdout, ended.returncode, without_notices(ended.stderr)


def examples_in(text):
    lines = text.split("Examples:\n", 1)[1].splitlines()
    return [shlex.split(line) for line in lines if line.startswith("  keystore2 ")]


class OfTheProgram(Case):
    def ended(self, *words, script=None):
        return ended_run(self.program, words, self.folder, script)

    def text(self):
        text, status, fault = self.ended("--help")
        check("--help", (status, fault), (0, ""))
        return text


class Examples(OfTheProgram):
    def test_each_example_runs_in_turn(self):
        """`< FILE` at an example's end is its script, a file of the repository."""
        examples = examples_in(self.text())
        self.assertTrue(examples)
        for words in examples:
            script = None
            if "<" in words:
                words, script = words[: words.index("<")], TOP / words[-1]
            output, status, fault = self.ended(*words[1:], script=script)
            check(" ".join(words), (status, fault), (0, ""))
            # a trace has drawn bytes, and the check of scripts looks at it
            expected = script and "--trace" not in words and script.with_suffix(".expected")
            if expected and "?" not in expected.read_text(encoding="utf-8"):
                check(" ".join(words), output, expected.read_text(encoding="utf-8"))


@each([(word, word) for word in WORDS])
class Commands(OfTheProgram):
    """The help names each command."""

    def show(self, word):
        self.assertIn(f"\n  {word} ", self.text())


@each([(f"{place} {' '.join(words)}", words) for place, words in enumerate(HELPS, 1)])
class Helps(OfTheProgram):
    def show(self, words):
        check("the help", self.ended(*words), (self.text(), 0, ""))


@each([(f"{place:02} {' '.join(words)}", words) for place, words in enumerate(NO_FORMS, 1)])
class NoForms(OfTheProgram):
    def show(self, words):
        said, status, fault = self.ended(*words)
        usage, misuse, rest = fault.split("\n", 2)
        check(
            "what is said",
            (said, status, usage, misuse[:11], rest),
            ("", 2, "keystore2: usage", "keystore2: ", self.text()),
        )


class Version(OfTheProgram):
    def test_it_is_that_of_keystore2_also_in_short(self):
        output, status, fault = self.ended("--version")
        check("--version", (output.split()[0], status, fault), ("keystore2", 0, ""))
        check("-V", self.ended("-V"), (output, 0, ""))

    def test_it_has_the_logic_of_the_toolchain(self):
        if shutil.which("rt") is None:
            self.skipTest("the toolchain's command rt is not there")
        logic = subprocess.run(["rt", "version"], capture_output=True, text=True, check=True).stdout.split()[-1]
        check("the logic", self.ended("--version")[0].split()[-1], f"{logic})")


@each([("once", "7", "1000"), ("again", "7", "1000"), ("with leading zeros", "00000000000000000007", "0001000")])
class Load(OfTheProgram):
    def show(self, seed, lines):
        check("the summary", self.ended("soak", seed, lines), (SUMMARY_OF_7, 0, ""))
