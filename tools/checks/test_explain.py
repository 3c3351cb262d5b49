"""`tools/explain.py` finds exactly the lines that are no events, with its words for each mistake; its names are those
of `tags`.

Mistakes in a line, each with what is said of it. Of the scripts of examples/ and checks/, and of a line of each act
with one member changed to something else or left out, something is said exactly where the line is no event by
`keystore/script_events.py`. Each reply that refuses there has its words. The tags, codes, acts and values of
docs/RULES.md are those of crates/tags, of `keystore/lists.py` and of the client. A script with names for values
runs, once they are written as numbers, as the one with numbers."""
import json
import re
import subprocess
import sys
import unittest

import keystore_client
from explain import KEYS, LISTS, faults_of, fields_of, meaning_of, notes_of, replies_in, written
from keystore import lists
from keystore.cases import Case, each
from keystore.harness import TOOLS, TOP, check
from keystore.rules_page import ACTS, CODES, RULES, TAGS, VALUES
from keystore.script_events import FIELDS, Malformed, event_of

AT = '{"t":[0,1000],'
BEGIN = AT + '"c":1,"do":"createOperation","key":{"domain":0,"alias":"m"},"params":%s}'
UPDATE = AT + '"c":1,"do":"update","op":1,"input":%s}'
# Mistakes in a line, and what is said first.
MISTAKES = [
    ("hello", "no JSON: expecting value at character 1, 'h'"),
    ("", "it is empty"),
    (
        "{",
        "no JSON: expecting property name enclosed in double quotes at character 2, its end; an object stands on "
        "one line, whole",
    ),
    (AT + '"c":1,"do":"getNumberOfEntries"', "no JSON: expecting ',' delimiter at character 46, its end"),
    (
        "{t:[0,1000]}",
        "no JSON: expecting property name enclosed in double quotes at character 2, 't'; a member's name stands "
        "in double quotes",
    ),
    (
        "{'t':[0,1000]}",
        'no JSON: expecting property name enclosed in double quotes at character 2, "\'"; names and texts stand '
        "in double quotes",
    ),
    ("\ufeff{}", "a byte order mark stands at its front: a script is UTF-8 without one"),
    ("[1]", "it is a list, where an object is wanted"),
    ('{"t":[0,NaN]}', "NaN is no JSON"),
    ('{"t":[0,1e999],"do":"restart"}', "1e999 is beyond the range of a number"),
    ('{"t":[0,1000],"do":"restart","x":"\\ud800"}', "a text has half of a surrogate pair"),
    ("[" * 128 + "]" * 128, "arrays and objects stand in each other too deep"),
    ("x" * 262_145, "262145 bytes are more than 262144"),
    (AT + '"c":1,"do":"generatekey"}', '`do`: "generatekey" is no act; the nearest is generateKey'),
    (AT + '"c":1,"do":"updte"}', '`do`: "updte" is no act; the nearest is update'),
    (AT + '"c":1}', "`do` is missing, the act's name"),
    ('{"do":"restart"}', "`t` is missing: [milliseconds since the start, milliseconds since 1970]"),
    ('{"t":[0],"do":"restart"}', "`t`: [0] is no list of two numbers, milliseconds since the start and since 1970"),
    (
        '{"t":[0,1e3],"do":"restart"}',
        "`t`: 1e3 has a fraction or an exponent: a whole number is wanted, digit by digit",
    ),
    (AT + '"do":"abort","op":1}', "`c` is missing"),
    (AT + '"c":-1,"do":"abort","op":1}', "`c`: -1 has a sign: a whole number from 0 on is wanted"),
    (AT + '"c":1,"do":"abort","op":"1"}', '`op`: "1" is a text: a number stands without quotes'),
    (
        AT + '"c":1,"do":"abort","op":18446744073709551616}',
        "`op`: 18446744073709551616 is too great: the greatest is 18446744073709551615",
    ),
    (
        AT + '"c":1,"do":"getKeyEntry","key":"m"}',
        '`key`: "m" is a text, where an object is wanted, as {"domain":0,"alias":"m"}',
    ),
    (AT + '"c":1,"do":"getKeyEntry","key":{"alias":"m"}}', "`key`: `domain` is missing"),
    (
        AT + '"c":1,"do":"getKeyEntry","key":{"domain":"APP"}}',
        '`key`: `domain`: "APP" is a name: the program takes its number, 0',
    ),
    (
        AT + '"c":1,"do":"getKeyEntry","key":{"domain":"APPS"}}',
        '`key`: `domain`: "APPS" is no number; the nearest is APP',
    ),
    (
        AT + '"c":1,"do":"getKeyEntry","key":{"domain":0,"blob":null}}',
        "`key`: `blob`: null is no value (what may be absent is left out), where hex text is wanted",
    ),
    (BEGIN % '[["PURPOSES",2]]', '`params`: pair 1: "PURPOSES" is no tag; the nearest is PURPOSE'),
    (
        BEGIN % '[["MAC_LENGTH",256],["PURPOSE","SIGN"]]',
        '`params`: pair 2: PURPOSE: "SIGN" is a name: the program takes its number, 2',
    ),
    (BEGIN % '[["PURPOSE","SING"]]', '`params`: pair 1: PURPOSE: "SING" is no number; the nearest is SIGN'),
    (BEGIN % '[["PURPOSE"]]', '`params`: pair 1: ["PURPOSE"] is no pair of a tag and its value'),
    (BEGIN % '{"PURPOSE":2}', '`params`: an object, where a list of pairs is wanted: [["PURPOSE", 2]]'),
    (
        BEGIN % '[["NO_AUTH_REQUIRED",false]]',
        "`params`: pair 1: NO_AUTH_REQUIRED has false: such a tag has true, or is left out",
    ),
    (
        BEGIN % '[["PURPOSE",4294967296]]',
        "`params`: pair 1: PURPOSE: 4294967296 is too great: the greatest is 4294967295",
    ),
    (BEGIN % '[["NONCE",12]]', "`params`: pair 1: NONCE: 12 is a number, where hex text is wanted"),
    (UPDATE % '"abc"', '`input`: "abc" has an odd count of hex digits, 3'),
    (UPDATE % '"0xab"', '`input`: "0xab" begins with 0x: hex is digits alone'),
    (UPDATE % '"Hi There"', "`input`: \"Hi There\" is no hex at 'H'; as hex that text is 4869205468657265"),
    (UPDATE % '"ab","hold":1', "`hold`: 1 is a number, where true or false is wanted"),
    (AT + '"do":"restart","root":"ab"}', '`root`: "ab" has 1 bytes, where 32 are wanted'),
]
# Members that nothing looks at.
NOTES = [
    (
        BEGIN.replace("params", "prams") % "[]",
        "`prams` is no member of createOperation, and is not looked at; the nearest is params",
    ),
    (
        AT + '"c":1,"do":"getKeyEntry","key":{"domain":0,"alais":"m"}}',
        "`alais` is no member of a key, and is not looked at; the nearest is alias",
    ),
    (
        AT
        + '"c":1,"do":"importWrappedKey","key":{"domain":0,"alias":"m"},"wrapping":{"domain":4,"nspce":1},"wrapped":""}',
        "`nspce` is no member of a key, and is not looked at; the nearest is nspace",
    ),
]
NAMED = [
    (
        '{"t":[0,1],"do":"x","params":[["PURPOSE","SIGN"],["NONCE","SIGN"]]}',
        '{"t":[0,1],"do":"x","params":[["PURPOSE",2],["NONCE","SIGN"]]}',
    ),
    (
        '{"t":[0,1],"key":{"domain":"KEY_ID","nspace":1},"format":"RAW"}',
        '{"t":[0,1],"key":{"domain":4,"nspace":1},"format":3}',
    ),
    ('{"bits":["USE","GET_INFO"],"domain":"SELINUX"}', '{"bits":260,"domain":2}'),
    (
        '{"wrapping":{"domain":"KEY_ID"},"unwrapping":[["PURPOSE","WRAP_KEY"]]}',
        '{"wrapping":{"domain":4},"unwrapping":[["PURPOSE",5]]}',
    ),
    ('{"bits": "USE"}', '{"bits":256}'),
    ('{"bits": 256}', '{"bits": 256}'),
    ("no JSON", "no JSON"),
    ("[]", "[]"),
]
ODD = [
    None,
    True,
    False,
    "",
    "x",
    "ab",
    "0b" * 32,
    0,
    -1,
    1.5,
    1 << 32,
    1 << 64,
    [],
    {},
    [["PURPOSE", 2]],
    [["PURPOSE", True]],
    {"domain": 0},
    {"alias": "m"},
]


def is_event(line):
    try:
        event_of(line)
    except Malformed:
        return False
    return True


def line_of(act):
    """A line of an act with all its members."""
    sample = {
        "u32": 1,
        "u64": 1,
        "bytes": "0b",
        "text": "m",
        "32 bytes": "0b" * 32,
        "forced": True,
        "hold": True,
        "params": [["PURPOSE", 2]],
    }
    sample["key"] = {"domain": 0, "nspace": 1, "alias": "m", "blob": "0b"}
    return {"t": [0, 1000], "do": act, **{name: sample[form] for name, form in fields_of(act).items()}}


def changed_lines():
    for act in ACTS:
        whole = line_of(act)
        yield whole
        for name in whole:
            rest = {it: value for it, value in whole.items() if it != name}
            yield rest
            yield from ({**rest, name: odd} for odd in ODD)
        for key in set(KEYS) & set(whole):
            for name in whole[key]:
                rest = {it: value for it, value in whole[key].items() if it != name}
                yield {**whole, key: rest}
                yield from ({**whole, key: {**rest, name: odd}} for odd in ODD)
        for name in set(LISTS) & set(whole):
            yield from ({**whole, name: [[tag, odd]]} for tag in [*TAGS, "TAG", None] for odd in ODD)


def scripts():
    return sorted([*TOP.glob("examples/*.jsonl"), *TOP.glob("checks/*.jsonl")])


def lines_of(script):
    """The lines of a script; a dialog's line asks for what an earlier reply told, and is none of them."""
    return [
        it for it in script.read_bytes().removesuffix(b"\n").split(b"\n") if b'"op ' not in it and b'"line ' not in it
    ]


def check_line(line):
    check(f"the line {line[:200]}", not faults_of(line), is_event(line) and len(line) <= 262_144)


@each([(f"{number:02} {said}", line, said) for number, (line, said) in enumerate(MISTAKES, 1)])
class Mistakes(unittest.TestCase):
    def show(self, line, said):
        check("what is said first", faults_of(line.encode())[:1], [said])
        check_line(line.encode())


@each([(said, line, said) for line, said in NOTES])
class Notes(unittest.TestCase):
    def show(self, line, said):
        check("what is said", (faults_of(line.encode()), notes_of(line.encode())), ([], [said]))


@each([(f"{number} {line}", line, numbers) for number, (line, numbers) in enumerate(NAMED, 1)])
class Named(unittest.TestCase):
    def show(self, line, numbers):
        check("the written line", written(line.encode()), numbers.encode())


@each([(f"{it.parent.name} {it.stem}", it) for it in scripts()])
class Scripts(unittest.TestCase):
    """Each line is an event or has a fault, and each reply has its words."""

    def show(self, script):
        for line in lines_of(script):
            check_line(line)
        text = script.with_suffix(".expected").read_text(encoding="utf-8").replace(":?", ":0").replace("?", "0")
        for reply in replies_in(text):
            words = meaning_of(reply)
            check(f"the reply {reply}", words is None or "UNKNOWN" not in words and "no page" not in words, True)


class Changed(unittest.TestCase):
    def test_a_line_of_each_act_with_a_member_changed_or_left_out(self):
        for line in changed_lines():
            with self.subTest(line=line):
                check_line(json.dumps(line).encode())


def rows_in(file, left):
    """What stands behind `left::Name =>` in a file, by the name, each."""
    rows = {}
    for name, value in re.findall(
        rf"{left}::(\w+) => ([^,\s]+),", (TOP / "crates/tags/src" / file).read_text(encoding="utf-8")
    ):
        rows.setdefault(name, []).append(value)
    return rows


def spelled(name):
    """A name of Rust's as the page spells it."""
    return re.sub("(?<=[a-z])(?=[A-Z])", "_", name).upper()


def codes_of_tags():
    """The codes of the crate `tags`, by number."""
    rows = rows_in("code.rt", "Code").items()
    return {
        int(numbers[0]): spelled(name).replace("INVALID_KEY_ARGUMENT", "INVALID_ARGUMENT") for name, numbers in rows
    }


def kinds():
    return {name: (getattr(lists, kind), number) for name, (kind, number) in TAGS.items()}


class Names(unittest.TestCase):
    def test_the_tags_of_the_page_are_those_of_the_crate(self):
        tags = {}
        for kind, number, text in (row[:3] for row in rows_in("tag.rt", "Tag").values()):
            tags[text.strip('"')] = spelled(kind.removeprefix("TagType::")), int(number)
        check("the tags of docs/RULES.md", TAGS, tags)

    def test_the_tags_of_lists_and_of_the_client_are_those_of_the_page(self):
        check("the tags of lists", lists.TAGS, kinds())
        check("the client's tags", keystore_client.TAGS, kinds())

    def test_the_codes_of_the_page_and_of_the_client_are_those_of_the_crate(self):
        named = {number: name for number, (name, _) in CODES.items() if number}
        check("the codes of docs/RULES.md", named, codes_of_tags())
        check("the client's codes", keystore_client.NAMES, named)

    def test_the_acts_and_the_rules(self):
        check("the acts", set(ACTS), set(FIELDS))
        check("the rules", [sum(it[0] == letter for it in RULES) for letter in "KBSAL"], [22, 23, 8, 14, 1])


SCRIPT = TOP / "examples/hmac.jsonl"


def script_with_names():
    """The script with names for its numbers."""
    names = {
        f'["{tag}",{number}]': f'["{tag}","{name}"]' for tag, table in VALUES.items() for name, number in table.items()
    }
    text = (
        SCRIPT.read_text(encoding="utf-8")
        .replace('"domain":0', '"domain":"APP"')
        .replace('"format":3', '"format":"RAW"')
    )
    for number, name in names.items():
        text = text.replace(number, name)
    check("names in a script", sum(f'"{it}"' in text for it in ("APP", "RAW", "SIGN", "HMAC", "SHA-256")), 5)
    return text.encode()


class AtTheCommandLine(Case):
    def explain(self, *words, data=b""):
        words = [sys.executable, TOOLS / "explain.py", *words]
        return subprocess.run(words, input=data, cwd=self.folder, capture_output=True, check=False)

    def test_a_script_with_names_runs_as_the_one_with_numbers_once_it_is_written(self):
        told = self.explain("-", "--write", data=script_with_names())
        check("explain --write", (told.returncode, told.stderr), (0, b""))
        words = [self.program, "run", "--fresh"]
        ran = subprocess.run(words, input=told.stdout, cwd=self.folder, capture_output=True, check=False)
        check("the replies", ran.stdout, SCRIPT.with_suffix(".expected").read_bytes())
        check("the status of the written script", self.explain("-", data=told.stdout).returncode, 0)

    def test_the_status_tells_faults_refusals_and_missing_files(self):
        refused = b'{"code":7,"rule":"B4"}\n'
        for words, data, status in (
            [["-"], script_with_names(), 1],
            [["missing.jsonl"], b"", 2],
            [[str(SCRIPT), "-"], refused, 1],
        ):
            check(f"the status of explain {words}", self.explain(*words, data=data).returncode, status)

    def test_the_names_as_json(self):
        found = json.loads(self.explain("--names", "--json").stdout)
        check(
            "the names", (found["tags"]["PURPOSE"]["values"]["SIGN"], found["codes"]["7"]["name"]), (2, "KEY_NOT_FOUND")
        )
