"""Devices and policies of a folder's own, right, wrong and vast ones.

A device or a policy of gigabytes is told as a bad file at once, and takes no memory. Where the Python package
`cryptography` is there, the blobs that the program makes are opened by `keystore/blobs.py` and sealed again to the
same bytes, and blobs of other devices are handed in; so are tokens."""
import json
import os
import pathlib
import resource
import subprocess
import time

from keystore.cases import HAS_CIPHERS, Case, each, needs_ciphers
from keystore.device import versions_of
from keystore.every_act import WRAPPING, WRAPPING_KEY, comes_wrapped
from keystore.harness import check, without_notices
from keystore.lines import ASKED, BLOB, MAC_LIST, OK, PARAMS, begin, broken, call, connect, made, named, sealed, text_of
from keystore.scratch import scratch_folder
from keystore.tokens import mac_of

if HAS_CIPHERS:
    from keystore import blobs

RUN = ["run", "--fresh"]
DEVICE, OTHER_DEVICE = bytes(range(96)), bytes(range(1, 97))
SYSTEM, DEMO_SYSTEM = bytes.fromhex("00000007fffffffe"), bytes.fromhex("000222e0000316a6")
# What stands in place of a file's content where a folder stands there.
FOLDER = object()
NO_DEVICE = ("", 2, "keystore2: bad device file")
NO_POLICY = ("", 2, "keystore2: bad policy file")


def script_of(lines):
    return "".join(text_of(line) for line in lines)


def ended_run(program, files, words, lines):
    """What the program writes in a folder with these files, its status and the first line of its fault."""
    with scratch_folder() as name:
        for file, content in files.items():
            if content is FOLDER:
                (pathlib.Path(name) / file).mkdir()
            else:
                (pathlib.Path(name) / file).write_bytes(content)
        ended = subprocess.run(
            [program, *words], input=script_of(lines), cwd=name, capture_output=True, text=True, check=False
        )
    return ended.stdout, ended.returncode, without_notices(ended.stderr).split("\n")[0]


# The two files, right and wrong, whatever the words are.


def policy(*rows):
    return json.dumps(rows).encode()


MANY = [[1000 + number, 7, 16] for number in range(256)]
WRONG_DEVICES = {
    "a byte too short": DEVICE[:-1],
    "a byte too long": DEVICE + b"\0",
    "a byte of its system too short": DEVICE + SYSTEM[:-1],
    "a byte behind its system": DEVICE + SYSTEM + b"\0",
    "one key": DEVICE[:32],
    "empty": b"",
    "a folder": FOLDER,
}
RIGHT_POLICIES = {
    "no row": policy(),
    "256 rows": policy(*MANY),
    "the greatest numbers": policy([4294967295, 18446744073709551615, 4294967295]),
    "blanks": b" [ [1,2,3] ,\n [1,2,4]]\n",
    "no row and blanks": b" [ ]\n",
}
WRONG_POLICIES = {
    "257 rows": policy(*MANY, [1, 2, 3]),
    "two numbers": policy([1, 2]),
    "four numbers": policy([1, 2, 3, 4]),
    "a uid of 33 bits": policy([4294967296, 0, 0]),
    "a namespace of 65 bits": policy([0, 18446744073709551616, 0]),
    "bits of 33 bits": policy([0, 0, 4294967296]),
    "a sign": policy([-1, 0, 0]),
    "a fraction": policy([1.5, 0, 0]),
    "a text": policy(["1", 0, 0]),
    "a null for a row": policy(None),
    "an object for a row": policy({}),
    "an object": b"{}",
    "nothing": b"",
    "no end": b"[[1,2,3]",
    "a letter behind": b"[[1,2,3]]x",
    "a comma behind": b"[[1,2,3]],",
    "a comma behind a row": b"[[1,2,3],]",
    "a row alone": b"[1,2,3]",
    "a whole fraction": b"[[1,2,3.0]]",
    "a null for a number": b"[[1,2,null]]",
    "no UTF-8": b"\xff",
    "no UTF-8 in a list": b"[\xff]",
    "null": b"null",
    "a folder": FOLDER,
}
USAGE = ("", 2, "keystore2: usage")
SERVED = ('{"client":1,"code":0}\n', 0, "")


def files_and_words():
    """What the files of a folder are, what the words, and what comes of them."""
    for name, words, right in [("a run", RUN, SERVED), ("no words", [], USAGE), ("no form", ["run"] * 3, USAGE)]:
        yield f"{name} and no files", {}, words, right
        for what, rows in RIGHT_POLICIES.items():
            yield f"{name} and the policy {what}", {"device.key": DEVICE, "policy.json": rows}, words, right
        for what, device in WRONG_DEVICES.items():
            yield f"{name} and the device {what}", {"device.key": device, "policy.json": policy()}, words, NO_DEVICE
            both = {"device.key": device, "policy.json": WRONG_POLICIES["257 rows"]}
            yield f"{name} and the device {what} beside a wrong policy", both, words, NO_DEVICE
        for what, rows in WRONG_POLICIES.items():
            yield f"{name} and the wrong policy {what}", {"policy.json": rows}, words, NO_POLICY
            yield f"{name} and the wrong policy {what} beside a device", {
                "device.key": DEVICE,
                "policy.json": rows,
            }, words, NO_POLICY


@each(files_and_words())
class Files(Case):
    def show(self, files, words, wanted):
        check("the run", ended_run(self.program, files, words, [connect(1000)]), wanted)


# The longest files: a policy of 1 MiB with its blanks is read, one of a byte more is not; and files of holes, which
# take no disk.

MOST_POLICY, VAST = 1 << 20, 2 << 30
# What a refusal of a vast file may take: bytes of memory, of which most are the program's text and its stack, and
# seconds. A run that takes more of a processor than the last figure is ended.
MOST_MEMORY, MOST_SECONDS, END = 128 << 20, 5, 20


LONGEST = policy(*MANY)[:-1] + b" " * (MOST_POLICY - len(policy(*MANY))) + b"]"


@each(
    [
        ("the longest policy", LONGEST, SERVED),
        ("a blank before it", b" " + LONGEST, NO_POLICY),
        ("a blank behind it", LONGEST + b" ", NO_POLICY),
        ("a line feed behind it", LONGEST + b"\n", NO_POLICY),
    ]
)
class Longest(Case):
    def show(self, rows, wanted):
        check("the run", ended_run(self.program, {"policy.json": rows}, RUN, [connect(1000)]), wanted)


def vast_run(program, name, front):
    """What the program tells of a file of holes behind a front: its status, its text, and what of memory and time it
    took too much."""
    with scratch_folder() as folder:
        with open(pathlib.Path(folder) / name, "wb") as file:
            file.write(front)
            file.truncate(VAST)
        begun = time.monotonic()
        pipes = {"stdin": subprocess.DEVNULL, "stdout": subprocess.DEVNULL, "stderr": subprocess.PIPE}

        def limit():
            resource.setrlimit(resource.RLIMIT_CPU, (END, END))

        with subprocess.Popen([program, *RUN], **pipes, cwd=folder, preexec_fn=limit) as run:
            text = run.stderr.read().decode()
            _, status, used = os.wait4(run.pid, 0)
            run.returncode = os.waitstatus_to_exitcode(status)
        seconds, memory = time.monotonic() - begun, used.ru_maxrss << 10
    return (
        run.returncode,
        text.split("\n")[0],
        [f"{memory} bytes"] * (memory > MOST_MEMORY) + [f"{seconds:.1f} s"] * (seconds > MOST_SECONDS),
    )


@each(
    [
        ("a device of holes", "device.key", b"", NO_DEVICE),
        ("a device and holes behind it", "device.key", DEVICE, NO_DEVICE),
        ("a policy of holes", "policy.json", b"", NO_POLICY),
        ("a policy and holes behind it", "policy.json", policy(), NO_POLICY),
        ("blanks and holes behind them", "policy.json", b" " * MOST_POLICY, NO_POLICY),
    ]
)
class Vast(Case):
    def show(self, name, front, wanted):
        _, status, fault = wanted
        check(f"a vast {name}", vast_run(self.program, name, front), (status, fault, []))


# What a policy says is what holds: of two rows with one uid and one namespace the first.


class Rows(Case):
    def test_of_two_rows_with_one_uid_and_one_namespace_the_first_holds(self):
        rows = policy([10001, 5, 16], [10001, 5, 511], [10001, 6, 4], [1000, 5, 0])
        lines = [connect(10001), connect(1000)]
        refused = [
            (made(1, named("k", 2, 5)), broken(6, "K3")),
            (made(2, {"domain": BLOB, "nspace": 5}), broken(6, "K3")),
            (made(2, {"domain": BLOB, "nspace": 100}), broken(6, "K3")),
            (begin(1, sealed("", 5)), broken(6, "B5")),
            (begin(1, sealed("", 6)), broken(6, "B3")),
            (begin(2, sealed("", 5)), broken(6, "B3")),
            (call(1, "getNumberOfEntries", domain=2, nspace=5), broken(6, "A6")),
            (call(1, "getNumberOfEntries", domain=2, nspace=6), {"code": 0, "count": 0}),
            (call(2, "getNumberOfEntries", domain=2, nspace=6), broken(6, "A4")),
            (begin(2, sealed("", 100)), broken(6, "B3")),
        ]
        wanted = [{"client": 1, "code": 0}, {"client": 2, "code": 0}, *(reply for _, reply in refused)]
        wanted = "".join(text_of(reply, order=True) for reply in wanted)
        check(
            "rows",
            ended_run(self.program, {"policy.json": rows}, RUN, lines + [line for line, _ in refused]),
            (wanted, 0, ""),
        )


# Blobs both ways: what the program seals opens here, and what is sealed here opens there, for its device alone.

IDS = [(None, None), ("6162", None), (None, ""), ("", "00" * 1024)]
# How many bits the keys have that are imported, drawn and come wrapped, and their ORIGIN.
MADE = [(160, 2), (256, 0), (128, 4)]


def lines_that_make():
    yield connect(1000)
    yield made(1, named("wrap"), WRAPPING, WRAPPING_KEY)
    for app_id, app_data in IDS:
        ids = [["APPLICATION_ID", app_id]] * (app_id is not None) + [["APPLICATION_DATA", app_data]] * (
            app_data is not None
        )
        key = {"domain": BLOB, "nspace": 100}
        yield made(1, key, [*PARAMS, *ids])
        yield call(1, "generateKey", key=key, params=[*PARAMS, ["KEY_SIZE", 256], *ids])
        yield comes_wrapped(1, key, [*PARAMS, *ids], named("wrap"))


def check_made_blobs(program, device, files):
    output, status, fault = ended_run(program, files, RUN, lines_that_make())
    replies = [json.loads(line) for line in output.splitlines()]
    check("blobs", (len(replies), status, fault), (2 + len(MADE) * len(IDS), 0, ""))
    nonces, materials = set(), set()
    for number, reply in enumerate(replies[2:]):
        ids = [None if it is None else bytes.fromhex(it) for it in IDS[number // len(MADE)]]
        blob = bytes.fromhex(reply["blob"])
        parts = blobs.parts_of(blobs.unsealed(device, blob))
        size, origin = MADE[number % len(MADE)]
        kept = blobs.list_of([*PARAMS, ["KEY_SIZE", size], ["ORIGIN", origin], ["CREATION_DATETIME", 1000]])
        kept = blobs.with_versions(kept, *versions_of(device))
        found = (parts["root"], parts["app_id"], parts["app_data"], parts["encoded"])
        check("ids", found, (device[64:96], *ids, kept))
        check("its bytes", blobs.blob_of(kept, parts["material"], *ids, nonce=blob[4:16], device=device), blob)
        nonces.add(blob[4:16])
        materials.add(parts["material"])
    check("different nonces", len(nonces), len(MADE) * len(IDS))
    check("materials", sorted(map(len, materials)), [16, 20] + [32] * len(IDS))
    check("the imported ones", sorted(materials, key=len)[:2], [b"\x0b" * 16, b"\x0b" * 20])


def check_foreign_blobs(program, device, files):
    encoded, material = blobs.with_versions(blobs.list_of(PARAMS), *versions_of(device)), b"\x0b" * 20
    stranger = device[:32] + OTHER_DEVICE[32:]
    thief = OTHER_DEVICE[:32] + device[32:]
    cases = [
        (device, {"code": 0, "op": 1}),
        (thief, broken(-33, "B7")),
        (OTHER_DEVICE, broken(-33, "B7")),
        (stranger, broken(-33, "B8")),
    ]
    lines = [begin(1, sealed(blobs.blob_of(encoded, material, device=maker).hex())) for maker, _ in cases]
    wanted = "".join(text_of(reply, order=True) for reply in [{"client": 1, "code": 0}, *(reply for _, reply in cases)])
    check("blobs of devices", ended_run(program, files, RUN, [connect(1000), *lines]), (wanted, 0, ""))


def check_tokens(program, device, files):
    """Tokens of this device's authenticators, and of others: those with its key for blobs or its root in place of
    the key."""
    token = {"challenge": 1, "user": 7, "authenticator": 0, "kind": 1, "time": 1000}
    keys = [
        (device[:32], broken(-30, "A7")),
        (device[64:96], broken(-30, "A7")),
        (OTHER_DEVICE[32:64], broken(-30, "A7")),
        (device[32:64], OK),
    ]
    lines = [connect(1000), made(1, named("k"), [*MAC_LIST, ["USER_SECURE_ID", 7], ["AUTH_TIMEOUT", 10]])]
    replies = [{"client": 1, "code": 0}, {"code": 0, "key": 1}]
    for key, reply in keys:
        lines += [
            call(1, "addAuthToken", **token, mac=mac_of(key, token).hex()),
            {**begin(1, named("k"), ASKED), "t": [1000, 0]},
        ]
        replies += [reply, {"code": 0, "op": 1} if reply == OK else broken(-26, "B15")]
    wanted = "".join(text_of(reply, order=True) for reply in replies)
    check("tokens of devices", ended_run(program, files, RUN, lines), (wanted, 0, ""))


DEVICES = {
    "a device of its own": (DEVICE, {"device.key": DEVICE}),
    "a device of its own, and its system": (DEVICE + SYSTEM, {"device.key": DEVICE + SYSTEM}),
    "the demo device": (b"\1" * 32 + b"\2" * 32 + b"\3" * 32 + DEMO_SYSTEM, {}),
}


@each([(name, *row) for name, row in DEVICES.items()])
class Tokens(Case):
    def show(self, device, files):
        check_tokens(self.program, device, files)


@needs_ciphers
@each([(name, *row) for name, row in DEVICES.items()])
class MadeBlobs(Case):
    def show(self, device, files):
        check_made_blobs(self.program, device, files)


@needs_ciphers
@each([(name, *row) for name, row in DEVICES.items()])
class ForeignBlobs(Case):
    def show(self, device, files):
        check_foreign_blobs(self.program, device, files)
