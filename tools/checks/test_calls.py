"""The crates offer what the calls of docs/LIBRARIES.md name, with as many arguments and these fields.

What a block of Rust there imports must be offered at the root of its crate, by a `pub` item or a `pub use` of
lib.rt, and be defined there. A `Type::name` of an imported type must be a function of it, with as many arguments, or
a variant with these fields; so must a `crate::name`, in the text between the blocks too. A struct that is made or
matched on has these fields, and a method that is called is one of the crates that the block imports from, or of the
standard library. Nothing is built: whether the types agree is not looked at."""
import re
import unittest

from keystore.harness import TOP
from keystore.sources import inside, offered, split, without_attributes, without_comments

PAGE = TOP / "docs/LIBRARIES.md"
# Methods of the standard library that the page calls.
OF_STD = {"to_be_bytes", "len", "ok", "split_at_mut", "as_slice", "with_capacity"}
ITEM = r"\b(?:fn|struct|enum|trait|const|static|type)\s+"


class Crate:
    """What a crate offers, by its sources alone."""

    def __init__(self, name):
        folder = TOP / "crates" / name / "src"
        self.name = name
        self.root = without_comments((folder / "lib.rt").read_text(encoding="utf-8"))
        self.text = "\n".join(without_comments(it.read_text(encoding="utf-8")) for it in sorted(folder.rglob("*.rt")))

    def offers(self, name):
        """Whether a name is one of the crate's root, and is defined in the crate."""
        here = re.search(rf"\bpub {ITEM}{name}\b", self.root)
        return bool(here or (name in offered(self.root) and re.search(rf"\bpub {ITEM}{name}\b", self.text)))

    def body(self, kind, name):
        """What stands in the braces of a struct, an enum or a trait."""
        found = re.search(rf"\bpub {kind} {name}\b[^{{;]*\{{", self.text)
        return inside(self.text, found.end() - 1) if found else ""

    def implemented(self, name):
        """What stands in the braces of all impls of a type, and of a trait of this name."""
        heads = re.finditer(rf"\bimpl\b[^{{;]*\b{name}\b[^{{;]*\{{", self.text)
        return "\n".join(inside(self.text, it.end() - 1) for it in heads) + self.body("trait", name)

    def variant(self, name, variant):
        """The text behind an enum's variant, or None."""
        for it in split(without_attributes(self.body("enum", name))):
            if re.match(rf"{variant}\b", it):
                return it.removeprefix(variant)
        return None

    def fields(self, name):
        """The public fields of a struct."""
        return re.findall(r"\bpub (\w+):", self.body("struct", name))


def counts_of(text, name):
    """With how many arguments a function of this name is called, in these sources: one count for each, without its
    `self`."""
    counts = set()
    for it in re.finditer(rf"\bfn {name}\b\s*(<)?", text):
        place = it.end() - 1 + len(inside(text, it.end() - 1)) + 2 if it[1] else it.end()
        place = text.index("(", place)
        counts.add(
            len([one for one in split(inside(text, place)) if not re.match(r"(&\s*('\w+\s+)?)?(mut\s+)?self\b", one)])
        )
    return counts


class Block:
    """A block of Rust of the page, and where it is unlike the crates."""

    def __init__(self, line, text):
        self.line, self.text, self.crates, self.of = line, without_comments(text), {}, {}

    def at(self, place):
        return self.line + self.text.count("\n", 0, place)

    def imported(self, known):
        """Takes the imports, and says which of them no crate offers."""
        for it in re.finditer(r"\buse (\w+)::(?:\{([^}]*)\}|(\w+));", self.text):
            if it[1] not in known:
                if it[1] != "std":
                    yield self.at(it.start()), f"there is no crate {it[1]}"
                continue
            crate = self.crates.setdefault(it[1], Crate(it[1]))
            for name in re.findall(r"\w+", it[2] or it[3]):
                self.of[name] = crate
                if not crate.offers(name):
                    yield self.at(it.start()), f"{crate.name} offers no {name}"

    def arguments(self, place):
        """How many arguments stand in the bracket at a place, or None where none opens there."""
        return len(split(inside(self.text, place))) if self.text[place : place + 1] == "(" else None

    def paths(self):
        """Functions, variants and structs by their names."""
        for it in re.finditer(r"\b(\w+)::(\w+)\s*", self.text):
            crate = self.of.get(it[1])
            if crate is None:
                continue
            counts, variant = counts_of(crate.implemented(it[1]), it[2]), crate.variant(it[1], it[2])
            if not counts and variant is None:
                yield self.at(it.start()), f"{it[1]} of {crate.name} has no {it[2]}"
            elif variant is not None:
                yield from self.with_fields(it, f"{it[1]}::{it[2]}", set(re.findall(r"(\w+)\s*:", variant)))
            elif (count := self.arguments(it.end())) is not None and count not in counts:
                yield self.at(it.start()), f"{it[1]}::{it[2]} of {crate.name} is not called with {count} arguments"
        for it in re.finditer(r"\b([A-Z]\w*)\s*(?=\{)", self.text):
            crate = self.of.get(it[1])
            if crate and self.text[it.start() - 2 : it.start()] != "::" and crate.body("struct", it[1]):
                yield from self.with_fields(it, it[1], set(crate.fields(it[1])))

    def with_fields(self, found, name, fields):
        """The fields that are named behind a struct or a variant must be its own."""
        if self.text[found.end() : found.end() + 1] == "{":
            for part in split(inside(self.text, found.end())):
                field = re.match(r"\w+", part)
                if field and field[0] not in fields:
                    yield self.at(found.start()), f"{name} has no field {field[0]}"

    def calls(self):
        """Functions that are imported, and methods."""
        sources = "\n".join(crate.text for crate in self.crates.values())
        for it in re.finditer(r"(?<![\w:.])(?<!fn )(\w+)\(", self.text):
            crate = self.of.get(it[1])
            counts = counts_of(crate.text, it[1]) if crate else set()
            if counts and self.arguments(it.end() - 1) not in counts:
                yield self.at(it.start()), f"{it[1]} of {crate.name} is not called so"
        for it in re.finditer(r"\.(\w+)\(", self.text):
            counts = counts_of(sources, it[1])
            if not counts and it[1] not in OF_STD:
                yield self.at(it.start()), f"no crate that this imports from has a method {it[1]}"
            elif counts and it[1] not in OF_STD and self.arguments(it.end() - 1) not in counts:
                yield self.at(it.start()), f"the method {it[1]} is not called with so many arguments"


def faults_in(page, known):
    """Where the page is unlike the crates of these names: lines, and what is wrong there."""
    for it in re.finditer(r"^```rust\n(.*?)^```$", page, re.MULTILINE | re.DOTALL):
        block = Block(page.count("\n", 0, it.start(1)) + 1, it[1])
        yield from block.imported(known)
        yield from block.paths()
        yield from block.calls()
    for it in re.finditer(r"`(\w+)::(\w+)`", page):
        line = page.count("\n", 0, it.start()) + 1
        if it[1] in known:
            if not Crate(it[1]).offers(it[2]):
                yield line, f"{it[1]} offers no {it[2]}"
        elif not any(counts_of(Crate(name).implemented(it[1]), it[2]) for name in known):
            yield line, f"no crate has {it[1]}::{it[2]}"


class Calls(unittest.TestCase):
    def test_the_page_is_like_the_crates(self):
        known = sorted(it.name for it in (TOP / "crates").iterdir() if (it / "src/lib.rt").exists())
        faults = faults_in(PAGE.read_text(encoding="utf-8"), known)
        self.assertEqual([f"{PAGE.relative_to(TOP)}:{line}: {what}" for line, what in faults], [])

    def test_there_are_calls_on_the_page(self):
        self.assertGreater(len(re.findall("^```rust$", PAGE.read_text(encoding="utf-8"), re.MULTILINE)), 0)
