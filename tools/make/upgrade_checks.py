"""Writes the scripts of checks/ on the versions of keys and upgradeKey, each with its expected replies beside it.

The blobs are made by tools/blobs.py for the demo device, and the replies stand here as the rules of docs/RULES.md
give them, each at its line. The keys of a script are of systems older and newer than the one of the device: it is
served by several runs over one store (`tools/checks/test_scripts.py`), whose systems stand in a file .systems."""
from keystore.blobs import blob_of, list_of, seal, text_of
from keystore.device import DEMO_DEVICE, DEMO_OS, DEMO_PATCH, SECRETS
from keystore.lines import (
    APP,
    ASKED,
    BLOB,
    GRANT,
    KEY_ID,
    OK,
    PARAMS,
    SELINUX,
    Rows,
    at,
    begin,
    broken,
    call,
    connect,
    folder_of,
    made,
    named,
    numbered,
    sealed,
    write,
)
from keystore.script_events import encoded_list
from make.blob_checks import HI_THERE, MATERIAL, SYSTEMS, TEXT, drawn_blob, of_system, own_list, turned_list, with_ids

OWN, OTHER, SYSTEM, FAR = range(1, 5)
UIDS = [10001, 10002, 1000, 110001]
NO_CLIENT, NOT_SO, NO_KEY, DENIED = broken(20, "A1"), broken(20, "A2"), broken(7, "A5"), broken(6, "A6")
UNREADABLE, STRANGE, TOO_NEW = broken(-33, "A12"), broken(-33, "A13"), broken(-38, "A14")
TOO_LONG = broken(-21, "A14")
OLDER, NEWER = broken(-62, "B23"), broken(-33, "B23")
# The bits of a grant.
GET_INFO, REBIND, USE = 4, 32, 256
# What an upgraded list and blob may have.
MOST_LIST, MOST_BLOB = 4140, 6327
OLD = of_system(DEMO_OS, DEMO_PATCH - 1)
IDS = with_ids([], "6162", "")


def upgrade(client, key, params=None, **fields):
    return call(client, "upgradeKey", key=key, **({} if params is None else {"params": params}), **fields)


def blob_with(params, material=MATERIAL, **ids):
    """The key of a blob that was made elsewhere."""
    return sealed(blob_of(params if isinstance(params, bytes) else list_of(params), material, **ids).hex())


# Each rule alone, and with one behind it. Keys: 1 is m of an app, 2 is x of the namespace 100, 3 has ids. Grants: 1
# lets another app use key 1, 2 lets the system upgrade it.


def of_callers():
    """A1 to A6."""
    old = blob_with([*PARAMS, *OLD])
    for key in [named("m"), old, named(None), {**old, "blob": ""}]:
        yield upgrade(9, key), NO_CLIENT
        yield upgrade(9, key, "00"), NO_CLIENT
    for key in [
        named(None),
        named(""),
        named("a" * 257),
        named("", SELINUX, 101),
        named("m", BLOB),
        named(None, BLOB, 101),
        named("m", 5),
        named("m", 4294967295),
    ]:
        yield upgrade(OWN, key), NOT_SO
        yield upgrade(OWN, key, "00"), NOT_SO
    for client, key in [
        (OWN, named("x", SELINUX, 100)),
        (OWN, named("none", SELINUX, 101)),
        (SYSTEM, named("x", SELINUX, 101)),
    ]:
        yield upgrade(client, key), broken(6, "A4")
        yield upgrade(client, key, "00"), broken(6, "A4")
    for client, key in [
        (OWN, named("none")),
        (OTHER, named("m")),
        (SYSTEM, named("none", SELINUX, 0)),
        (OWN, numbered(KEY_ID, 99)),
        (OWN, numbered(GRANT, 1)),
        (OTHER, numbered(GRANT, 9)),
    ]:
        yield upgrade(client, key), NO_KEY
        yield upgrade(client, key, "00"), NO_KEY
    for client, key in [
        (OTHER, numbered(GRANT, 1)),
        (OTHER, numbered(KEY_ID, 1)),
        (FAR, numbered(KEY_ID, 1)),
        (OWN, numbered(KEY_ID, 2)),
        (SYSTEM, {**old, "nspace": 0}),
        (SYSTEM, {**old, "nspace": 101}),
        (OWN, old),
        (OWN, {**old, "blob": ""}),
    ]:
        yield upgrade(client, key), DENIED
        yield upgrade(client, key, "00"), DENIED


def of_lists():
    """A11: the list of the call reads, whatever stands in the blob."""
    turned, late = [["ORIGIN", 0], ["ORIGIN", 2]], ["APPLICATION_ID", "61" * 1025]
    lists = [
        ("", -40),
        ("00", -40),
        ("000000", -40),
        ("0001f0000001", -40),
        (turned, -38),
        ([late], -21),
        ("0000" + "00" * 4095, -21),
    ]
    for key in [named("m"), numbered(KEY_ID, 1), sealed(""), blob_with([*PARAMS, *OLD]), blob_with(PARAMS, app_id=b"")]:
        for params, code in lists:
            yield upgrade(SYSTEM if key["domain"] == BLOB else OWN, key, params), broken(code, "A11")


def of_blobs():
    """A12 to A13, and what is upgraded though no operation begins with it."""
    own, text = blob_of(own_list(PARAMS), MATERIAL), text_of(DEMO_DEVICE[64:SECRETS], None, None, list_of(PARAMS), b"")
    stranger = DEMO_DEVICE[32:64] + DEMO_DEVICE[32:]
    for blob in [
        b"",
        own[:-1],
        own + b"\0",
        own[:-1] + bytes([own[-1] ^ 1]),
        blob_of(own_list(PARAMS), MATERIAL, device=stranger),
        blob_of(own_list(PARAMS), MATERIAL, b"ab", device=stranger),
        seal(DEMO_DEVICE, bytes(12), text[:-1]),
        seal(DEMO_DEVICE, bytes(12), text_of(DEMO_DEVICE[64:SECRETS], None, None, turned_list(), MATERIAL)),
    ]:
        yield upgrade(SYSTEM, sealed(blob.hex())), UNREADABLE
        yield upgrade(SYSTEM, sealed(blob.hex()), IDS), UNREADABLE
    for key, params in [
        (blob_with(own_list(PARAMS), root=b"\4" * 32), None),
        (blob_with(own_list(PARAMS), app_id=b"ab", app_data=b""), None),
        (blob_with(own_list(PARAMS), app_id=b"ab", app_data=b""), IDS[:1]),
        (blob_with(own_list(PARAMS), app_id=b"ab", app_data=b""), with_ids([], "6163", "")),
        (blob_with(own_list(PARAMS)), IDS),
        (blob_with(own_list(PARAMS)), with_ids([], "", None)),
        (blob_with([*PARAMS, *of_system(DEMO_OS + 1, DEMO_PATCH)]), IDS),
        (blob_with([*PARAMS, *OLD], root=b"\4" * 32), None),
    ]:
        yield upgrade(SYSTEM, key, params), STRANGE
    for key, params in [(named("i"), None), (named("i"), with_ids([], "6163", "")), (named("m"), IDS)]:
        yield upgrade(OWN, key, params), STRANGE


def of_versions():
    """A14: the versions, and then the lengths."""
    for system, fault in SYSTEMS:
        if fault == NEWER:
            yield upgrade(SYSTEM, blob_with([*PARAMS, *system])), TOO_NEW
            yield upgrade(SYSTEM, blob_with([*PARAMS, *system]), IDS), STRANGE
    for more in [1, 2, 100]:
        key = blob_with(long_list(MOST_LIST - 16 + more))
        yield upgrade(SYSTEM, key), TOO_LONG
        yield begin(SYSTEM, key), OLDER
    yield upgrade(SYSTEM, blob_with(long_list(MOST_LIST, of_system(DEMO_OS + 1, None)))), TOO_NEW
    ids = {"app_id": b"\1" * 1024, "app_data": b"\2" * 1024}
    asked = with_ids([], "01" * 1024, "02" * 1024)
    for material, fits in [(64, True), (65, False), (255, False)]:
        key, kept = long_list(MOST_LIST - 16), long_list(MOST_LIST, of_system(DEMO_OS, DEMO_PATCH))
        length = 2 * len(blob_of(kept, b"k" * material, **ids))
        given = {"code": 0, "blob": "4b534231" + "?" * (length - 8)}
        yield upgrade(SYSTEM, blob_with(key, b"k" * material, **ids), asked), given if fits else TOO_LONG


def long_list(length, system=()):
    """An encoded list of so many bytes, with a tag that no rule of an upgrade reads."""
    rest = [*PARAMS, *system]
    without = len(list_of([*rest, ["NONCE", ""]]))
    return list_of([*rest, ["NONCE", "00" * (length - without)]])


def rules():
    rows = Rows(UIDS)
    rows.key(OWN, "m", PARAMS)
    rows.keys += 1
    rows.put(made(SYSTEM, named("x", SELINUX, 100)), {"code": 0, "key": 2})
    rows.key(OWN, "i", [*PARAMS, *IDS])
    rows.put(call(OWN, "grant", key=named("m"), uid=10002, bits=USE + GET_INFO), {"code": 0, "grant": 1})
    rows.put(call(OWN, "grant", key=named("m"), uid=1000, bits=REBIND), {"code": 0, "grant": 2})
    for some in [of_callers(), of_lists(), of_blobs(), of_versions()]:
        rows.rows += some
    unchanged(rows)
    return rows.rows


def unchanged(rows):
    """Where a list has the device's versions nothing changes, and a blob is given back."""
    for client, key, params in [
        (OWN, named("m"), None),
        (OWN, named("m"), [["PURPOSE", 9], ["OS_VERSION", 7]]),
        (OWN, numbered(KEY_ID, 1), None),
        (SYSTEM, numbered(GRANT, 2), None),
        (SYSTEM, named("x", SELINUX, 100), None),
        (SYSTEM, {**named("x", SELINUX, 100), "blob": "00"}, None),
        (OWN, named("i"), IDS),
        (OWN, named("i"), [*ASKED, *IDS]),
    ]:
        rows.put(upgrade(client, key, params), OK)
    for key, params in [
        (blob_with(own_list(PARAMS)), None),
        ({**blob_with(own_list(PARAMS)), "alias": ""}, None),
        (blob_with(own_list(PARAMS), app_id=b"ab", app_data=b""), IDS),
        (blob_with(own_list([["PURPOSE", 9]]), b""), None),
    ]:
        rows.put(upgrade(SYSTEM, key, params), {"code": 0, "blob": key["blob"]})


# Blobs, which their holder has.


def blobs():
    """Each older blob is upgraded; the new one works, and upgrades to itself, and the old one still wants its own."""
    rows = Rows(UIDS)
    for system, fault in SYSTEMS:
        if fault == NEWER:
            continue
        old = blob_with([*PARAMS, *system], app_id=b"ab", app_data=b"")
        rows.put(begin(SYSTEM, old, [*ASKED, *IDS]), OLDER)
        rows.put(upgrade(SYSTEM, old, IDS), drawn_blob(b"ab", b"", PARAMS, 20))
        new = sealed(f"line {len(rows.rows)}")
        number = rows.begins(begin(SYSTEM, new, [*ASKED, *IDS]))
        rows.put(call(SYSTEM, "finish", op=number, input=TEXT), HI_THERE)
        rows.put(begin(SYSTEM, new, ASKED), broken(-33, "B8"))
        rows.put({**begin(SYSTEM, new, [*ASKED, *IDS]), "flip": 77}, broken(-33, "B7"))
        rows.put({**upgrade(SYSTEM, new, IDS), "flip": 77}, UNREADABLE)
        rows.put(upgrade(SYSTEM, new), STRANGE)
        rows.put(upgrade(SYSTEM, new, IDS), drawn_blob(b"ab", b"", PARAMS, 20))
        rows.put(begin(SYSTEM, old, [*ASKED, *IDS]), OLDER)
    for params, material in [([["PURPOSE", 9]], b""), ([], b""), ([], b"k" * 255), (PARAMS, bytes(7))]:
        rows.put(upgrade(SYSTEM, blob_with(params, material)), drawn_blob(None, None, params, len(material)))
        rows.put(begin(SYSTEM, sealed(f"line {len(rows.rows)}")), broken(-33, "B8"))
    rows.put({"t": [0, 1000], "do": "restart", "root": "04" * 32}, OK)
    rows.put(connect(1000), {"code": 0, "client": 5})
    rows.put(upgrade(5, blob_with(PARAMS)), STRANGE)
    rows.put(upgrade(5, blob_with(PARAMS, root=b"\4" * 32)), upgraded_blob(b"\4" * 32))
    return rows.rows


def upgraded_blob(root):
    text = text_of(root, None, None, own_list(PARAMS), MATERIAL)
    return {"code": 0, "blob": "4b534231" + "?" * (2 * (12 + len(text) + 16))}


# Stored keys, over runs on systems that rise and fall.


def kept_of(params, system):
    """What is kept of an imported key of these versions."""
    return list_of([*params, ["KEY_SIZE", 160], ["ORIGIN", 2], ["CREATION_DATETIME", 1000], *system]).hex()


class Keys(Rows):
    """The runs over one store: each with its system, and how many lines it has."""

    def __init__(self):
        super().__init__([])
        self.systems, self.begin, self.clients = [], 0, 0

    def run(self, os_version, patch):
        """A run on another system, with the same clients under their next numbers."""
        self.systems.append([os_version, patch])
        self.begun, self.begin = 0, len(self.rows)
        for number, uid in enumerate(UIDS, 1):
            self.put(connect(uid), {"code": 0, "client": number})

    def end(self):
        self.systems[-1].append(len(self.rows) - self.begin)

    def entry(self, client, key, number, alias, params, system, **more):
        """A look at a key."""
        domain, nspace = more.pop("owner", (APP, 10001))
        told = {"code": 0, "key": number, "domain": domain, "nspace": nspace, "alias": alias}
        self.put(call(client, "getKeyEntry", key=key), {**told, "list": kept_of(params, system), **more})

    def system(self):
        return of_system(*self.systems[-1][:2])

    def is_upgraded(self, client, key, params=(), **told):
        """A key that is refused, upgraded, and then works; so does its next upgrade, which changes nothing."""
        asked = [*ASKED, *params]
        self.put(begin(client, key, asked), OLDER)
        self.put(upgrade(client, key, list(params)), OK)
        self.works(begin(client, key, asked))
        self.put(upgrade(client, key, list(params)), OK)
        self.works(begin(client, key, asked))


LIMITED = [*PARAMS, ["USAGE_COUNT_LIMIT", 3]]


def makes(keys):
    """The keys of a first run: m, shared and ids of the app, one with three uses, and x of the namespace 100."""
    keys.key(OWN, "m", PARAMS)
    keys.key(OWN, "shared", PARAMS)
    keys.key(OWN, "ids", [*PARAMS, *IDS])
    keys.key(OWN, "thrice", LIMITED)
    keys.keys += 1
    keys.put(made(SYSTEM, named("x", SELINUX, 100)), {"code": 0, "key": keys.keys})
    keys.put(call(OWN, "grant", key=named("shared"), uid=10002, bits=USE + GET_INFO + REBIND), {"code": 0, "grant": 1})
    keys.put(call(OWN, "grant", key=named("shared"), uid=1000, bits=USE + GET_INFO), {"code": 0, "grant": 2})
    uses(keys, 2)


def uses(keys, left):
    """A use of the limited key; what is told of it then."""
    number = keys.begins(begin(OWN, named("thrice")))
    keys.put(call(OWN, "finish", op=number, input=TEXT), HI_THERE)
    if left:
        keys.entry(OWN, named("thrice"), 4, "thrice", LIMITED, keys.system(), uses=left)


def stored():
    keys = Keys()
    keys.run(DEMO_OS, DEMO_PATCH - 1)
    makes(keys)
    keys.end()
    keys.run(DEMO_OS, DEMO_PATCH)
    each_domain(keys)
    goes_on(keys)
    keys.end()
    keys.run(DEMO_OS + 1, DEMO_PATCH - 1)
    falls_in_one(keys)
    keys.end()
    keys.run(DEMO_OS + 1, DEMO_PATCH)
    rises(keys)
    keys.end()
    keys.run(DEMO_OS, DEMO_PATCH)
    falls(keys)
    keys.end()
    return keys


def each_domain(keys):
    """Each key through another domain: its owner's alias, a grant with REBIND, a number, a namespace."""
    before = of_system(DEMO_OS, DEMO_PATCH - 1)
    keys.entry(OWN, named("m"), 1, "m", PARAMS, before)
    keys.is_upgraded(OWN, named("m"))
    keys.entry(OWN, named("m"), 1, "m", PARAMS, keys.system())
    keys.put(begin(SYSTEM, numbered(GRANT, 2)), OLDER)
    keys.put(upgrade(SYSTEM, numbered(GRANT, 2)), DENIED)
    keys.put(upgrade(SYSTEM, numbered(KEY_ID, 2)), DENIED)
    keys.put(upgrade(OTHER, named("shared")), NO_KEY)
    keys.entry(OTHER, numbered(GRANT, 1), 2, "shared", PARAMS, before)
    keys.is_upgraded(OTHER, numbered(GRANT, 1))
    keys.entry(OWN, named("shared"), 2, "shared", PARAMS, keys.system())
    keys.works(begin(SYSTEM, numbered(GRANT, 2)))
    keys.put(upgrade(OWN, numbered(KEY_ID, 3)), STRANGE)
    keys.is_upgraded(OWN, numbered(KEY_ID, 3), IDS)
    keys.put(begin(OWN, named("ids")), broken(-33, "B8"))
    keys.entry(OWN, numbered(KEY_ID, 3), 3, "ids", PARAMS, keys.system())
    keys.is_upgraded(SYSTEM, named("x", SELINUX, 100))
    keys.entry(SYSTEM, named("x", SELINUX, 100), 5, "x", PARAMS, keys.system(), owner=(SELINUX, 100))
    keys.entry(OWN, named("thrice"), 4, "thrice", LIMITED, before, uses=2)
    keys.is_upgraded(OWN, named("thrice"))
    keys.entry(OWN, named("thrice"), 4, "thrice", LIMITED, keys.system(), uses=2)


def goes_on(keys):
    """Operations go on beside an upgrade, and a key that has ended is none."""
    uses(keys, 1)
    number = keys.begins(begin(OWN, named("m")))
    keys.put(call(OWN, "update", op=number, input=TEXT[:8]), {"code": 0, "out": ""})
    keys.put(upgrade(OWN, named("m")), OK)
    behind = keys.begins(begin(OWN, named("m")))
    keys.put(call(OWN, "finish", op=number, input=TEXT[8:]), HI_THERE)
    keys.put(call(OWN, "finish", op=behind, input=TEXT), HI_THERE)
    keys.put({"t": [0, 1000], "do": "restart"}, OK)
    for number, uid in enumerate(UIDS, 5):
        keys.put(connect(uid), {"code": 0, "client": number})
    keys.works(begin(5, named("m")))
    entries = [["ids", 3], ["m", 1], ["shared", 2], ["thrice", 4]]
    keys.put(call(5, "listEntriesBatched", domain=APP), {"code": 0, "entries": entries})


def falls_in_one(keys):
    """One version rose and the other fell: no key begins, and none can be upgraded."""
    for client, key, params in [(OWN, named("m"), []), (OTHER, numbered(GRANT, 1), []), (OWN, named("ids"), IDS)]:
        keys.put(begin(client, key, [*ASKED, *params]), NEWER)
        keys.put(upgrade(client, key, params), TOO_NEW)
    keys.entry(OWN, named("m"), 1, "m", PARAMS, of_system(DEMO_OS, DEMO_PATCH))


def rises(keys):
    """m and the limited key are upgraded again, and the last use of the latter ends it; shared is not upgraded."""
    keys.is_upgraded(OWN, named("m"))
    keys.is_upgraded(OWN, named("thrice"))
    keys.put(call(OWN, "grant", key=named("thrice"), uid=10002, bits=USE + REBIND), {"code": 0, "grant": 3})
    uses(keys, 0)
    for client, key in [
        (OWN, named("thrice")),
        (OWN, numbered(KEY_ID, 4)),
        (OTHER, numbered(GRANT, 3)),
    ]:
        keys.put(upgrade(client, key), NO_KEY)
    keys.put(call(SYSTEM, "deleteKey", key=named("x", SELINUX, 100)), OK)
    keys.put(upgrade(SYSTEM, named("x", SELINUX, 100)), NO_KEY)
    keys.put(begin(OTHER, numbered(GRANT, 1)), OLDER)


def falls(keys):
    """Rolled back: the upgraded key does not begin and stays so; the other one works as it did."""
    keys.put(begin(OWN, named("m")), NEWER)
    keys.put(upgrade(OWN, named("m")), TOO_NEW)
    keys.put(begin(OWN, named("m")), NEWER)
    keys.works(begin(OTHER, numbered(GRANT, 1)))
    keys.put(upgrade(OTHER, numbered(GRANT, 1)), OK)
    keys.works(begin(OWN, named("ids"), [*ASKED, *IDS]))
    keys.key(OWN, "m", PARAMS)
    keys.works(begin(OWN, named("m")))


def main():
    into, keys = folder_of(__doc__), stored()
    write(into, "upgrade-rules", rules())
    write(into, "upgraded-blobs", blobs())
    write(into, "upgraded-keys", keys.rows)
    systems = "".join(" ".join(map(str, system)) + "\n" for system in keys.systems)
    (into / "upgraded-keys.systems").write_text(systems, encoding="utf-8")
