"""Makes the man page docs/keystore2.1 of the program's own help and version, and of nothing else; `man -l` reads it.

    tools/ks make man_page [--program PATH]"""
import itertools
import re
import subprocess
import sys

from keystore.harness import TOP, add_program, parser_of

PAGE = TOP / "docs/keystore2.1"
# The parts of the help that have a heading, each of which is wanted.
HEADINGS = ["Commands", "Forms", "Examples"]


def said(program, word):
    return subprocess.run([program, word], stdout=subprocess.PIPE, text=True, check=True).stdout


def parts_of(text):
    """The paragraphs of the help, those with a heading by it and the others in their order."""
    headed, plain = {}, []
    for paragraph in text.strip("\n").split("\n\n"):
        first, _, rest = paragraph.partition("\n")
        if first.rstrip(":") in HEADINGS and first.endswith(":"):
            headed[first[:-1]] = rest.splitlines()
        elif not first.startswith("Usage: "):
            plain.append(" ".join(paragraph.split()))
    if sorted(headed) != sorted(HEADINGS) or not plain:
        sys.exit(f"man_page: the help has not the parts {', '.join(HEADINGS)}")
    return headed, plain


def rows_of(lines):
    """Rows of a name and what is said of it, behind it or in lines that are further in."""
    rows = []
    for line in lines:
        name, _, words = re.sub(r"  +", "\t", line.strip()).partition("\t")
        if len(line) - len(line.lstrip()) > 2 and rows:
            rows[-1][1] = f"{rows[-1][1]} {line.strip()}".strip()
        else:
            rows.append([name, words])
    return rows


def roff(text):
    """A text as a line of the page."""
    text = text.replace("\\", r"\e").replace("-", r"\-")
    return rf"\&{text}" if text.startswith((".", "'")) else text


def form(text):
    """A form: words in bold, and in italics what stands for another word."""
    return " ".join(rf"\fI{roff(it)}\fR" if it.strip("[]").isupper() else rf"\fB{roff(it)}\fR" for it in text.split())


def page(help_text, version):
    """The lines of the man page."""
    headed, (about, *plain) = parts_of(help_text)
    forms, name = rows_of(headed["Forms"]), version.split()[0]
    lines = [
        r".\" Made by `tools/ks make man_page` of the help of the program.",
        f'.TH {name.upper()} 1 "" "{roff(version)}" "User Commands"',
        ".SH NAME",
        rf"{name} \- {roff(about[0].lower() + about[1:])}",
        ".SH SYNOPSIS",
        ".nf",
        *(form(it) for it, _ in forms),
        ".fi",
        ".SH DESCRIPTION",
        *itertools.chain(*([".PP", roff(it)] for it in plain)),
        ".SH COMMANDS",
    ]
    for command, words in rows_of(headed["Commands"]):
        notes = [note for it, note in forms if it.split()[1:2] == [command] and note]
        lines += [".TP", rf"\fB{command}\fR", *(roff(f"{it}.") for it in [words, *notes])]
    return [*lines, ".SH EXAMPLES", ".nf", *(roff(it.strip()) for it in headed["Examples"]), ".fi"]


def lines_of(program):
    """The page as the program's help and version give it."""
    return page(said(program, "--help"), said(program, "--version").splitlines()[0])


def main():
    parser = parser_of(__doc__)
    add_program(parser)
    PAGE.write_text("\n".join(lines_of(parser.parse_args().program)) + "\n", encoding="utf-8")
