"""The commands of README and docs/EXAMPLES.md print what stands there, and what all documents name is there.

The commands are typed by `compare/typed_docs.py`. In all documents each link leads to a file, and to a heading where
it says so; each name in backquotes that has a slash or the ending of a file is that of a file or folder of the
repository, by the end of its path, or one that runs make; of a command `tools/ks KIND NAME` there is that tool; each
name that is written with low lines stands in the sources; a heading that is quoted behind a document's name is one
of its headings. Each tool is named in tools/README.md."""
import re
import subprocess
import sys
import unicodedata
import unittest

from compare.typed_docs import TYPED
from keystore import gate
from keystore.cases import Case, each
from keystore.harness import TOOLS, TOP

DOCUMENTS = ["README.md", "CHANGELOG.md", "CONTRIBUTING.md", "SECURITY.md", "tools/README.md"]
ENDINGS = r"py|md|c|rt|antt|edit|jsonl|json|expected|words|txt|ks|key|sh"
# A name with letters that stand for others, as `NAME.edit`, and what is no path of the repository: what runs, builds
# and people make, and the toolchain's.
STANDS_FOR = re.compile(r"[A-Z]{2,}|\bX\b|\.\.|[*<>{}|=?+:,;@#$%&'\"\\()\[\]]")
PAGE = re.compile(r"(?:[a-z]+/)?[A-Z]+\.md|LICENSE|HANDLES")
MADE = re.compile(
    r"(^|/)out(/|$)|^(store\.ks|device\.key|policy\.json|letter\.jsonl)$|^my-device(/|$)|^playground(/|$)"
)
ELSEWHERE = re.compile(r"^(/|std/|rattle/|~|https?:)")
LOW_LINES = re.compile(r"[a-z][a-z0-9]*(?:_[a-z0-9]+)+")
# Names of the language and of its library that no source has, and of examples of docs/PROVING.md.
OF_LANGUAGE = {"as_chunks_mut", "call_mut", "call_once", "copy_within", "bytes_decides", "put_at"}


def slug(heading):
    """The anchor of a heading, as hosts make it."""
    kept = "".join(it for it in heading.lower().replace("`", "") if it in "-_ " or unicodedata.category(it)[0] in "LN")
    return kept.strip().replace(" ", "-")


def headings_of(path):
    lines = path.read_text(encoding="utf-8").splitlines()
    return [line.lstrip("#").strip() for line in lines if re.match(r"#{1,6} ", line)]


def files_of_top():
    """The files and folders of the repository, as git knows them where it does."""
    words = ["git", "-C", TOP, "ls-files", "--cached", "--others", "--exclude-standard"]
    told = subprocess.run(words, stdout=subprocess.PIPE, stderr=subprocess.DEVNULL, text=True, check=False)
    files = (
        told.stdout.splitlines()
        if told.returncode == 0
        else [str(it.relative_to(TOP)) for it in TOP.rglob("*") if it.is_file()]
    )
    return [it for it in files if (TOP / it).exists()]


def ends_of(files):
    """All ends of the paths of files and of their folders."""
    paths = {"/".join(parts[:count]) for parts in (it.split("/") for it in files) for count in range(1, len(parts) + 1)}
    return {path[place:] for path in paths for place in [0, *(at + 1 for at, it in enumerate(path) if it == "/")]}


def words_of(files):
    """All names with low lines of the sources, which the documents are not among."""
    found = set()
    for name in files:
        if not name.endswith(".md") and not name.startswith(("checks/", "examples/")):
            found |= set(LOW_LINES.findall(f"{name} {(TOP / name).read_text(encoding='utf-8', errors='replace')}"))
    return found


def is_path(name):
    """Whether a name in backquotes is that of a file or folder of the repository."""
    if ELSEWHERE.search(name) or MADE.search(name.removeprefix("./").removeprefix("../")):
        return False
    if PAGE.fullmatch(name):
        return True
    return not STANDS_FOR.search(name.removeprefix("../")) and (
        "/" in name or re.search(rf"\w\.({ENDINGS})$", name) is not None
    )


def without_blocks(text):
    """A document whose indented and fenced lines are empty."""
    lines, is_fenced = [], False
    for line in text.splitlines():
        is_fenced ^= line.startswith("```")
        lines.append("" if is_fenced or line.startswith(("    ", "```")) else line)
    return "\n".join(lines)


def check_names(document, text, ends, words, told):
    """The names in backquotes of a document."""
    for found in re.finditer(r"`([^`\n]+(?:\n[^`\n]+)?)`", text):
        line, quoted = text.count("\n", 0, found.start()) + 1, found[1].split()
        # Of a command each word may be a name, of other texts the first.
        for name in quoted if quoted[:1] in (["python3"], ["./keystore2"], ["../keystore2"]) else quoted[:1]:
            if is_path(name) and re.sub(r"^(\.{1,2}/)*|/$", "", name) not in ends:
                told.tell(document, line, f"there is no file or folder {name}")
        if len(quoted) == 1 and LOW_LINES.fullmatch(quoted[0]) and quoted[0] not in words | OF_LANGUAGE:
            told.tell(document, line, f"{quoted[0]} stands nowhere in the sources")


def check_links(document, text, told):
    """The links of a document, and the headings that it quotes behind a document's name."""
    folder = (TOP / document).parent
    for found in re.finditer(r"\]\(([^)\s]+)\)", text):
        line = text.count("\n", 0, found.start()) + 1
        target, _, anchor = found[1].partition("#")
        if re.match(r"[a-z]+:", target):
            continue
        path = folder / target if target else TOP / document
        if not path.exists():
            told.tell(document, line, f"the link {found[1]} leads to no file")
        elif anchor and anchor not in map(slug, headings_of(path)):
            told.tell(document, line, f"the link {found[1]} leads to no heading")
    for found in re.finditer(r'`((?:docs|tools)/\w+\.md)`,\s+"([^"]+)"', text):
        line = text.count("\n", 0, found.start()) + 1
        wanted = " ".join(found[2].split())
        if (TOP / found[1]).exists() and not any(wanted in heading for heading in headings_of(TOP / found[1])):
            told.tell(document, line, f"{found[1]} has no heading {wanted!r}")


def documents():
    files = files_of_top()
    return [it for it in DOCUMENTS if (TOP / it).exists()] + sorted(
        it for it in files if re.fullmatch(r"docs/\w+\.md", it)
    )


class Told:
    """What is not as it should be."""

    def __init__(self):
        self.lines = []

    def tell(self, document, line, what):
        self.lines.append(f"{document}:{line}: {what}")


def check_doors(document, text, told):
    """The tools that are called by the door."""
    for found in re.finditer(r"\btools/ks (check|measure|make|compare) ([a-z]\w+)", text):
        names = gate.CHECKS if found[1] == "check" else tools_of(found[1])
        if found[2] not in names:
            told.tell(document, text.count("\n", 0, found.start()) + 1, f"there is no {found[0]}")


def tools_of(kind):
    """The tools of a folder that have a main."""
    found = {it.stem for it in (TOOLS / kind).glob("*.py") if "\ndef main(" in it.read_text(encoding="utf-8")}
    return found | ({"second_model"} if kind == "compare" else set())


@each([(it, it) for it in documents()])
class Names(unittest.TestCase):
    """What a document names is there."""

    @classmethod
    def setUpClass(cls):
        files = files_of_top()
        cls.ends, cls.words = ends_of(files), words_of(files)

    def show(self, document):
        whole = (TOP / document).read_text(encoding="utf-8")
        text, told = without_blocks(whole), Told()
        check_names(document, text, self.ends, self.words, told)
        check_links(document, text, told)
        check_doors(document, whole, told)
        self.assertEqual(told.lines, [])


@each([(it, it) for it in TYPED])
class Typed(Case):
    def show(self, document):
        words = [sys.executable, TOOLS / "ks", "compare", "typed_docs", document, "--program", self.program]
        done = subprocess.run(
            words, stdin=subprocess.DEVNULL, stdout=subprocess.PIPE, stderr=subprocess.STDOUT, text=True, check=False
        )
        self.assertEqual((done.stdout, done.returncode), ("", 0))


class Tools(unittest.TestCase):
    def test_each_tool_is_named_in_their_table(self):
        named = (TOOLS / "README.md").read_text(encoding="utf-8")
        top = {it.name for it in TOOLS.iterdir() if it.suffix in (".py", ".toml") or it.name == "ks"}
        tools = top.union(gate.CHECKS, *(tools_of(kind) for kind in ("measure", "make", "compare")))
        self.assertEqual([it for it in sorted(tools) if not re.search(rf"`{re.escape(it)}[/ `]", named)], [])
