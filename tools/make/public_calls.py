"""Makes docs/CALLS.md: each public call of the libraries that may refuse, with the clauses of its contract that say
so.

    tools/ks make public_calls [--check]

A call is a function that its crate offers, or a method of a type or a trait that it offers, whose answer has another
side than Ok. Its clauses are those of its contract by name, sorted by what they speak of: of the answer, where they
hold of a refusal too, and of what the call was lent, where they hold whatever it answers. A call that changes what it
was lent, and has no clause of that for its refusal, stands in a list of its own with the reason. With --check it says
where the page is another one."""
import re
import sys
from typing import Iterator, NamedTuple

from keystore.harness import TOP, parser_of
from keystore.sources import in_braces, inside, offered, split, step_at, without_attributes, without_comments
from make.layers import TESTS, headed

PAGE = TOP / "docs/CALLS.md"
# Crates that a user does not call, and answers that are a refusal by one of their kinds.
PROGRAMS = {"keystore_program", "keystore_threads", "turn_list"}
OWN_ANSWERS = {
    "Status": "a status",
    "ServeStatus": "a status",
    "Stepped": "a reply",
    "Served": "a reply",
    "End": "an end",
    "Taken": "Absent or Busy",
    "Reply": "a reply",
}
OF_OK = re.compile(r"^(?:\(\w+ : [^)]*\) → )*(?:\S.* → )?(?:OnOk|IfOk|IfSome|IsOk|OnSome|IfOkAnd)\b")
UNNAMED = "its clause"
# Want of memory, which no clause says when: it may come wherever memory is taken.
MEMORY = {"AllocError", "NoMemory"}
WANT, EDGE = "want of memory", "no clause"
HEAD = """# The calls that may refuse

Each public call of the libraries whose answer has another side than Ok: what it may answer besides; the clauses of
its contract that speak of the answer, and those that speak of what it was lent or handed in, as far as they hold of
a refusal too; and the one that says when it may not refuse. "its clause" is the one clause of a contract that has no
name. The clauses stand above each function, in `crates/CRATE/src`. Where it says "want of memory" no clause says
when: it may come wherever memory is taken. "no clause" is the edge to the system, which tests show. "may wait" is
said of a call that waits for a turn, for another thread, or for bytes of a peer.

`tools/ks make public_calls` makes this page from the sources, and the gate compares both.
"""
# Calls that change what they are lent, without a clause of what stays behind a refusal.
REASONS = {
    r"byte_strings::put_\w+": "the vector may end with a front of the field; whoever writes into it drops it then",
    r"line_members::WrittenObject::put_\w+": "the object's line is not written then, and whoever makes it drops it",
    r"soak_lines::(SoakScript::next|Summary::add)": "a load ends there, and its script and summary with it",
}


class Call(NamedTuple):
    """A public call."""

    crate: str
    name: str
    refusal: str
    changes: bool
    waits: bool
    clauses: list[tuple[str, str]]

    def of_the_answer(self) -> list[str]:
        """The clauses of the answer that hold of a refusal too."""
        return [name for name, text in self.clauses if "result" in text and not OF_OK.match(text)]

    def of_what_was_lent(self) -> list[str]:
        """The clauses of what the call was lent that hold whatever it answers, or of a refusal."""
        return [name for name, text in self.clauses if ".new" in text and not OF_OK.match(text)]

    def complete(self) -> list[str]:
        return [name for name, _ in self.clauses if name in ("complete", "never", "total")]


def variants_of(name: str, texts: dict[str, str]) -> list[str]:
    """The variants of an enum of the repository, or none."""
    for text in texts.values():
        found = re.search(rf"\bpub enum {name}\b[^{{;]*\{{", text)
        if found:
            body = without_attributes(in_braces(text, found.end() - 1))
            return re.findall(r"^\s*([A-Z]\w*)", re.sub(r"[({][^(){}]*[)}]", "", body), re.MULTILINE)
    return []


def refusal_of(answer: str, texts: dict[str, str]) -> str:
    """What an answer's type may be besides Ok, or no text."""
    whole = re.match(r"(?:std::)?(?:io::)?Result<(.*)>$", answer, re.DOTALL)
    if whole:
        parts = split(whole[1])
        fault = parts[-1] if len(parts) > 1 else "io::Error"
        fault = re.sub(r"^\(([^,]+),.*\)$", r"\1", fault, flags=re.DOTALL)
        variants = variants_of(fault.split("<")[0], texts)
        return f"{fault}: {', '.join(variants)}" if variants else fault
    if answer.startswith("Option<"):
        return "None"
    for name, text in OWN_ANSWERS.items():
        if re.search(rf"\b{name}\b", answer):
            return text
    return ""


def signature(text: str, place: int) -> tuple[str, str, str, list[tuple[str, str]]]:
    """The bounds, the arguments, the answer and the clauses of the function whose name ends at a place."""
    bounds = ""
    if text[place] == "<":
        bounds = inside(text, place)
        place += len(bounds) + 2
    arguments = inside(text, place)
    place += len(arguments) + 2
    answer = ""
    if found := re.compile(r"\s*->\s*").match(text, place):
        place = found.end()
        end, depth = place, 0
        while not (depth == 0 and re.compile(r"\s*(?:\{|;|where\b|requires\b|ensures\b)").match(text, end)):
            depth += step_at(text, end)
            end += 1
        answer, place = text[place:end], end
    if found := re.compile(r"\s*where\b([^{]*?)(?=\s*(?:\{|requires\b|ensures\b))").match(text, place):
        bounds, place = bounds + found[1], found.end()
    clauses = []
    while found := re.compile(r"\s*(requires|ensures)\s*(\w*)\s*\{").match(text, place):
        clause = in_braces(text, found.end() - 1)
        if found[1] == "ensures":
            clauses.append((found[2] or UNNAMED, " ".join(clause.split())))
        place = found.end() + len(clause) + 1
    return bounds, arguments, " ".join(answer.split()), clauses


def blocks(text: str) -> Iterator[tuple[str, str, str]]:
    """Each impl of a type by itself and each trait: its name, the bounds at its head, and what stands in its braces."""
    for it in re.finditer(r"^(?:pub )?(impl|trait)\b([^{;]*)\{", text, re.MULTILINE):
        head = it[2]
        if it[1] == "impl" and re.search(r"\bfor\b", head):
            continue
        generics = inside(head, head.index("<")) if head.lstrip().startswith("<") else ""
        rest = head.lstrip()[len(generics) + 2 :] if generics else head
        name = re.search(r"[A-Z]\w*", rest)
        if name:
            yield name[0], head, in_braces(text, it.end() - 1)


def calls_of(crate: str, texts: dict[str, str]) -> Iterator[Call]:
    """The calls of a crate that may refuse."""
    text = texts[crate]
    root = without_comments((TOP / "crates" / crate / "src/lib.rt").read_text(encoding="utf-8"))
    shown = offered(root)

    def call(name: str, place: int, within: str, bounds: str) -> Call | None:
        own, arguments, answer, clauses = signature(within, place)
        refusal = refusal_of(answer, texts)
        both = bounds + own
        return (
            Call(crate, name, refusal, "&mut" in arguments, bool(re.search(r"\b(Wait|Threads)\b", both)), clauses)
            if refusal
            else None
        )

    for it in re.finditer(r"^pub fn (\w+)", text, re.MULTILINE):
        if it[1] in shown and (found := call(it[1], it.end(), text, "")):
            yield found
    for name, head, body in blocks(text):
        if name in shown:
            for it in re.finditer(
                r"\n    (?:pub )?fn (\w+)" if f"trait {name}" in text else r"\n    pub fn (\w+)", body
            ):
                if found := call(f"{name}::{it[1]}", it.end(), body, head):
                    yield found


def all_calls() -> list[Call]:
    layers, _ = headed((TOP / "crates.txt").read_text(encoding="utf-8"))
    crates = [name for layer, names in layers if layer != TESTS for name in names if name not in PROGRAMS]
    texts = {}
    for crate in crates:
        files = sorted((TOP / "crates" / crate / "src").rglob("*.rt"))
        texts[crate] = "\n".join(without_comments(it.read_text(encoding="utf-8")) for it in files)
    return [it for crate in crates for it in calls_of(crate, texts)]


def spelled(names: list[str]) -> str:
    return ", ".join(f"`{it}`" if it != UNNAMED else it for it in names)


def row_of(it: Call) -> str:
    kinds = it.refusal + (" (may wait)" if it.waits else "")
    when = spelled(it.of_the_answer()) or (WANT if it.refusal in MEMORY else EDGE)
    return f"| `{it.name}` | {kinds} | {when} | {spelled(it.of_what_was_lent())} | {spelled(it.complete())} |"


def page() -> str:
    """The page, and an error where a call has neither a clause nor a reason."""
    lines, calls = [HEAD], all_calls()
    for crate in dict.fromkeys(it.crate for it in calls):
        lines += [
            f"## {crate}\n",
            "| Call | May answer | Of the answer | Of what it was lent | Complete |",
            "|---|---|---|---|---|",
        ]
        lines += [row_of(it) for it in calls if it.crate == crate] + [""]
    bare = [it for it in calls if it.changes and not it.of_what_was_lent()]
    unknown = [
        f"{it.crate}::{it.name}"
        for it in bare
        if not any(re.fullmatch(key, f"{it.crate}::{it.name}") for key in REASONS)
    ]
    if unknown:
        raise LookupError(f"no clause says what stays behind a refusal of {', '.join(unknown)}")
    lines += ["## Without a clause of what stays\n", "| Call | Why |", "|---|---|"]
    for key, reason in REASONS.items():
        names = [it.name for it in bare if re.fullmatch(key, f"{it.crate}::{it.name}")]
        if names:
            lines.append(f"| {spelled(names)} of `{key.split('::')[0]}` | {reason} |")
    return "\n".join(lines) + "\n"


def main() -> int:
    parser = parser_of(__doc__)
    parser.add_argument(
        "--check", action="store_true", help="say whether the page is the one that the sources make, and write nothing"
    )
    text = page()
    if not parser.parse_args().check:
        PAGE.write_text(text, encoding="utf-8")
        return 0
    same = PAGE.is_file() and PAGE.read_text(encoding="utf-8") == text
    if not same:
        print("docs/CALLS.md is not what the sources make: tools/ks make public_calls")
    return 0 if same else 1


if __name__ == "__main__":
    sys.exit(main())
