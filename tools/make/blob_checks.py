"""Writes the scripts of checks/ on application ids and sealed blobs, each with its expected replies beside it.

The blobs are made by tools/blobs.py for the demo device, and the replies stand here as the rules of docs/RULES.md
give them, each at its line. A blob that is "line N" is filled in when the script is run (`tools/dialog.py`)."""
import itertools

from keystore.blobs import blob_of, list_of, seal, text_of
from keystore.device import DEMO_DEVICE, DEMO_OS, DEMO_PATCH
from keystore.lines import (
    APP,
    ASKED,
    BLOB,
    GRANT,
    MAC_LIST,
    OK,
    PARAMS,
    SELINUX,
    Rows,
    at,
    begin,
    broken,
    call,
    folder_of,
    made,
    named,
    numbered,
    sealed,
    write,
)
from keystore.script_events import encoded_list

SYSTEM, OWN = 1, 2
UNREADABLE, OTHER = broken(-33, "B7"), broken(-33, "B8")
MATERIAL = b"\x0b" * 20
ROOT = DEMO_DEVICE[64:96]
# The mac of "Hi There" under twenty bytes 0b: RFC 4231.
HI_THERE = {"code": 0, "out": "b0344c61d8db38535ca8afceaf0bf12b881dc200c9833da726e9376c2e32cff7"}
TEXT = "4869205468657265"
CIPHER_LIST = [
    ["PURPOSE", 0],
    ["PURPOSE", 1],
    ["ALGORITHM", 32],
    ["BLOCK_MODE", 1],
    ["BLOCK_MODE", 3],
    ["PADDING", 1],
    ["PADDING", 64],
    ["CALLER_NONCE", True],
    ["NO_AUTH_REQUIRED", True],
]


def of_system(os, patch):
    """The versions of a system, in a list; None for one that the list does not have."""
    return [[name, value] for name, value in [("OS_VERSION", os), ("OS_PATCHLEVEL", patch)] if value is not None]


def own_list(params):
    """A list of the demo device's own system."""
    return list_of([*params, *of_system(DEMO_OS, DEMO_PATCH)])


def with_ids(params, app_id, app_data):
    ids = [("APPLICATION_ID", app_id), ("APPLICATION_DATA", app_data)]
    return [*params, *([name, value] for name, value in ids if value is not None)]


# Ids: a key opens for the application id and the data that it was made with, absence included.

IDS = [None, "", "6162", "6163", "61", "616200"]
LONGEST = "61" * 1024


def ids_of_stored_keys():
    rows = Rows([1000, 10001, 10002])
    pairs = [(it, None) for it in IDS] + [(None, it) for it in IDS[1:]] + [("6162", "6163"), ("6163", "6162"), ("", "")]
    for own in pairs:
        rows.key(OWN, "k", with_ids(PARAMS, *own))
        for given in pairs:
            line = begin(OWN, named("k"), with_ids(ASKED, *given))
            rows.works(line) if given == own else rows.put(line, OTHER)
    rows.key(OWN, "k", with_ids(PARAMS, LONGEST, LONGEST))
    rows.works(begin(OWN, named("k"), with_ids(ASKED, LONGEST, LONGEST)))
    rows.put(begin(OWN, named("k"), with_ids(ASKED, LONGEST[:-2], LONGEST)), OTHER)
    rows.put(begin(OWN, named("k"), with_ids(ASKED, LONGEST, LONGEST[:-2] + "62")), OTHER)
    for name, rule in [("APPLICATION_ID", "6"), ("APPLICATION_DATA", "6")]:
        rows.put(made(OWN, named("k"), [*PARAMS, [name, LONGEST + "61"]]), broken(-21, "K4"))
        rows.put(begin(OWN, named("k"), [*ASKED, [name, LONGEST + "61"]]), broken(-21, "B" + rule))
    return rows.rows + ids_in_order(rows.keys, rows.begun)


def ids_in_order(keys, begun):
    """The rule of the ids between those before and behind it, and what is kept of a key that has some."""
    rows = Rows([])
    rows.keys, rows.begun = keys, begun
    rows.key(OWN, "late", with_ids([*MAC_LIST, ["NO_AUTH_REQUIRED", True], ["ACTIVE_DATETIME", 1001]], "6162", None))
    wrong, right = with_ids([], "6163", None), with_ids([], "6162", None)
    for params, fault in [
        ([*ASKED, *wrong], OTHER),
        ([["PURPOSE", 0], *wrong], OTHER),
        ([*wrong], OTHER),
        (ASKED, OTHER),
        ([*ASKED, *wrong, ["ORIGIN", 0], ["ORIGIN", 2]], broken(-38, "B6")),
        ([["PURPOSE", 0], *right], broken(-2, "B9")),
        ([*ASKED, *right], broken(-24, "B10")),
    ]:
        rows.put(begin(OWN, named("late"), params), fault)
    rows.works(at(0, 1001, begin(OWN, named("late"), [*ASKED, *right])))
    rows.put(begin(OWN, named("late"), [*ASKED, *wrong], forced=True), broken(6, "B5"))
    rows.put(begin(3, named("late"), [*ASKED, *wrong]), broken(7, "B4"))
    rows.key(OWN, "shared", with_ids(PARAMS, "6162", "6163"))
    rows.put(call(OWN, "grant", key=named("shared"), uid=10002, bits=260), {"code": 0, "grant": 1})
    rows.put(begin(3, numbered(GRANT, 1)), OTHER)
    rows.works(begin(3, numbered(GRANT, 1), with_ids(ASKED, "6162", "6163")))
    kept = own_list([*PARAMS, ["KEY_SIZE", 160], ["CREATION_DATETIME", 1000], ["ORIGIN", 2]])
    entry = {"code": 0, "key": rows.keys, "domain": 0, "nspace": 10001, "alias": "shared", "list": kept.hex()}
    rows.put(call(3, "getKeyEntry", key=numbered(GRANT, 1)), entry)
    rows.put(
        made(OWN, named("u"), with_ids([*PARAMS, ["USAGE_COUNT_LIMIT", 1]], "6162", None)),
        {"code": 0, "key": rows.keys + 1},
    )
    return rows.rows


# Domain BLOB: creation and begins. Client 1 may manage the blobs of namespace 100; no app may manage any.


def drawn_blob(app_id, app_data, kept, length):
    """The reply to a creation, of whose blob the start and the length are known."""
    text = text_of(ROOT, app_id, app_data, own_list(kept), bytes(length))
    return {"code": 0, "blob": "4b534231" + "?" * (2 * (12 + len(text) + 16))}


def refused_creations():
    nowhere = [(OWN, 100), (OWN, 0), (SYSTEM, 0), (SYSTEM, 101), (SYSTEM, 2**64 - 1)]
    for client, nspace in nowhere:
        key = {"domain": BLOB, "nspace": nspace}
        yield made(client, key), broken(6, "K3")
        yield made(client, key, "00"), broken(6, "K3")
        yield made(client, {**key, "blob": ""}), broken(20, "K2")
        yield made(9, key), broken(20, "K1")
    key = {"domain": BLOB, "nspace": 100}
    for name, value in [("USAGE_COUNT_LIMIT", 1), ("MAX_USES_PER_BOOT", 1), ("MAX_USES_PER_BOOT", 0)]:
        yield made(SYSTEM, key, [*PARAMS, [name, value]]), broken(-39, "K14")
        yield call(SYSTEM, "generateKey", key=key, params=[*PARAMS, ["KEY_SIZE", 160], [name, value]]), broken(
            -39, "K14"
        )
        yield made(SYSTEM, key, [*PARAMS, [name, value], ["EARLY_BOOT_ONLY", True]]), broken(-39, "K14")
        yield made(SYSTEM, key, [*PARAMS, [name, value], ["USER_SECURE_ID", 7]]), broken(-38, "K13")
    yield made(SYSTEM, key, [*PARAMS, ["USAGE_COUNT_LIMIT", 0]]), broken(-38, "K14")
    yield made(SYSTEM, key, [*PARAMS, ["USAGE_COUNT_LIMIT", 0], ["MAX_USES_PER_BOOT", 1]]), broken(-38, "K14")
    yield made(SYSTEM, key, "00"), broken(-40, "K4")
    yield made(SYSTEM, {**key, "blob": "4b534231"}, "00"), broken(20, "K2")
    yield made(SYSTEM, named("k", SELINUX, 100), [*PARAMS, ["USAGE_COUNT_LIMIT", 0]]), broken(-38, "K14")


def made_blobs(rows):
    """Keys that are made in domain BLOB, whatever alias is given, and the lines of their replies."""
    kept = [*PARAMS, ["KEY_SIZE", 160], ["CREATION_DATETIME", 1000], ["ORIGIN", 2]]
    lines = []
    for alias, app_id, app_data in [
        (None, None, None),
        ("", "6162", None),
        ("a" * 300, "", "61"),
        ("k", None, LONGEST),
    ]:
        ids = [None if it is None else bytes.fromhex(it) for it in (app_id, app_data)]
        rows.put(made(SYSTEM, named(alias, BLOB, 100), with_ids(PARAMS, app_id, app_data)), drawn_blob(*ids, kept, 20))
        lines.append((len(rows.rows), app_id, app_data))
    drawn = [*kept[:-1], ["ORIGIN", 0]]
    line = call(SYSTEM, "generateKey", key=named(None, BLOB, 100), params=[*PARAMS, ["KEY_SIZE", 160]])
    rows.put(line, drawn_blob(None, None, drawn, 20))
    line = call(
        SYSTEM, "generateKey", key=named(None, BLOB, 100), params=[*PARAMS, ["KEY_SIZE", 512], ["CREATION_DATETIME", 1]]
    )
    rows.put(line, drawn_blob(None, None, [*drawn[:-3], ["KEY_SIZE", 512], *drawn[-2:]], 64))
    rows.key(SYSTEM, "first", PARAMS)
    return lines


def begins_on_made(rows, lines):
    for line, app_id, app_data in lines:
        key = sealed(f"line {line}")
        number = rows.begins(begin(SYSTEM, key, with_ids(ASKED, app_id, app_data)))
        rows.put(call(SYSTEM, "finish", op=number, input=TEXT), HI_THERE)
        for flip in [0, 31, 32, 127, 128, 1000, -1, -8, -128]:
            rows.put({**begin(SYSTEM, key, with_ids(ASKED, app_id, app_data)), "flip": flip}, UNREADABLE)
        rows.put(begin(SYSTEM, key, with_ids(ASKED, "63", app_data)), OTHER)
        rows.put(begin(SYSTEM, key, with_ids(ASKED, app_id, "63")), OTHER)
    for number in [1, 2]:
        rows.works(begin(SYSTEM, sealed(f"line {lines[-1][0] + number}")))


def domain():
    rows = Rows([1000, 10001])
    rows.rows += refused_creations()
    lines = made_blobs(rows)
    begins_on_made(rows, lines)
    own = blob_of(own_list(PARAMS), MATERIAL).hex()
    for client, nspace in [(OWN, 100), (OWN, 0), (SYSTEM, 0), (SYSTEM, 101)]:
        for key in [sealed(own, nspace), sealed("", nspace), sealed("00", nspace)]:
            rows.put(begin(client, key), broken(6, "B3"))
            rows.put(begin(client, key, "00", forced=True), broken(6, "B3"))
    for key in [named(None, BLOB, 100), named("k", BLOB, 101)]:
        rows.put(begin(SYSTEM, key), broken(20, "B2"))
        rows.put(begin(9, key), broken(20, "B1"))
    for blob in [own, "", "00"]:
        rows.put(begin(SYSTEM, sealed(blob), "00"), broken(-40, "B6"))
    rows.put(begin(SYSTEM, sealed(blob_of(list_of(PARAMS), MATERIAL).hex())), broken(-62, "B23"))
    for key in [sealed(own), {**sealed(own), "alias": ""}, {**sealed(own.upper()), "alias": "first"}]:
        rows.works(begin(SYSTEM, key))
        rows.works(begin(SYSTEM, key, forced=True))
    for name, more in [
        ("getKeyEntry", {}),
        ("deleteKey", {}),
        ("grant", {"uid": 1000, "bits": 256}),
        ("ungrant", {"uid": 1000}),
    ]:
        rows.put(call(SYSTEM, name, key=sealed(own), **more), broken(20, "A2"))
    for name in ["getNumberOfEntries", "listEntriesBatched"]:
        rows.put(call(SYSTEM, name, domain=BLOB, nspace=100), broken(20, "A2"))
    rows.put(call(SYSTEM, "getNumberOfEntries", domain=SELINUX, nspace=100), {"code": 0, "count": 0})
    rows.put(call(SYSTEM, "getNumberOfEntries", domain=APP), {"code": 0, "count": 1})
    return rows.rows


# Blobs that were made elsewhere: each fault alone and with others, behind a right tag or a wrong one.

LIST = own_list(PARAMS)
OWN_BLOB = blob_of(LIST, MATERIAL, b"ab", b"")
OWN_TEXT = text_of(ROOT, b"ab", b"", LIST, MATERIAL)
OWN_ASKED = with_ids(ASKED, "6162", "")


def changed_blobs():
    """A blob with one byte changed, with fewer bytes and with more."""
    for place in range(len(OWN_BLOB)):
        for change in [0x01, 0x80]:
            yield OWN_BLOB[:place] + bytes([OWN_BLOB[place] ^ change]) + OWN_BLOB[place + 1 :]
    for end in range(len(OWN_BLOB)):
        yield OWN_BLOB[:end]
    yield OWN_BLOB + b"\0"
    yield b"\0" + OWN_BLOB
    yield OWN_BLOB[:4] + OWN_BLOB


def other_devices():
    """The same text under another key, another start or other additional data."""
    for key in [b"\2" * 32, b"\3" * 32, b"\0" * 32]:
        yield seal(key + DEMO_DEVICE[32:], bytes(12), OWN_TEXT)
    yield b"KSB2" + OWN_BLOB[4:]
    yield seal(DEMO_DEVICE, b"\1" * 12, OWN_TEXT)[:4] + bytes(12) + OWN_BLOB[16:-1] + b"\0"


def turned_list():
    return encoded_list(list(reversed(PARAMS)))


def broken_texts():
    """Texts that are none, under a right tag: cut after each length, too long, with a wrong mark, length or list."""
    for end in range(len(OWN_TEXT)):
        yield OWN_TEXT[:end]
    yield OWN_TEXT + b"\0"
    for place in [32, 37]:
        for mark in [2, 255]:
            yield OWN_TEXT[:place] + bytes([mark]) + OWN_TEXT[place + 1 :]
    lengths = [
        (33, b"\xff\xff"),
        (34, b"\x03"),
        (34, b"\x01"),
        (38, b"\x00\x01"),
        (40, b"\xff"),
        (43, b"\x00"),
        (-21, b"\x15"),
        (-21, b"\x13"),
    ]
    for place, change in lengths:
        end = len(OWN_TEXT) + place if place < 0 else place
        yield OWN_TEXT[:end] + change + OWN_TEXT[end + len(change) :]
    for encoded in [turned_list(), LIST + b"\0", LIST[:-1], b"", b"\0", b"\0\1", encoded_list([*PARAMS[:1], *PARAMS])]:
        yield text_of(ROOT, b"ab", b"", encoded, MATERIAL)
    for params in [[["ORIGIN", 0], ["ORIGIN", 2]], [["PURPOSE", 3], ["PURPOSE", 2]]]:
        yield text_of(ROOT, b"ab", b"", encoded_list(params), MATERIAL)
    for encoded in ["00017000099901", "0001700001f700", "0001300001f700000001"]:
        yield text_of(ROOT, b"ab", b"", bytes.fromhex(encoded), MATERIAL)


def unusable_keys():
    """Lists and materials that no import takes."""
    mac, aes = dict(map(tuple, MAC_LIST[2:])), CIPHER_LIST
    for change in [
        {"ALGORITHM": None},
        {"ALGORITHM": 1},
        {"DIGEST": None},
        {"DIGEST": 2},
        {"MIN_MAC_LENGTH": None},
        {"MIN_MAC_LENGTH": 56},
        {"MIN_MAC_LENGTH": 65},
        {"MIN_MAC_LENGTH": 264},
        {"KEY_SIZE": 128},
        {"KEY_SIZE": 0},
    ]:
        kept = {**mac, **change}
        yield [["PURPOSE", 2], *([name, value] for name, value in kept.items() if value is not None)], MATERIAL
    yield [*PARAMS, ["PURPOSE", 0]], MATERIAL
    yield [*PARAMS, ["DIGEST", 5]], MATERIAL
    for size in [0, 7, 65, 255]:
        yield PARAMS, bytes(size)
    for size in [0, 15, 17, 20, 33, 64]:
        yield aes, bytes(size)
    for pair in [["PURPOSE", 2], ["BLOCK_MODE", 4], ["PADDING", 2], ["BLOCK_MODE", 32], ["KEY_SIZE", 192]]:
        yield [*aes, pair], bytes(16)


def faults():
    rows = Rows([1000])
    number = rows.begins(begin(SYSTEM, sealed(OWN_BLOB.hex()), OWN_ASKED))
    rows.put(call(SYSTEM, "finish", op=number, input=TEXT), HI_THERE)
    for blob in itertools.chain(
        changed_blobs(), other_devices(), (seal(DEMO_DEVICE, bytes(12), text) for text in broken_texts())
    ):
        rows.put(begin(SYSTEM, sealed(blob.hex()), OWN_ASKED), UNREADABLE)
    for place in [0, 31]:
        root = bytearray(ROOT)
        root[place] ^= 1
        rows.put(begin(SYSTEM, sealed(blob_of(LIST, MATERIAL, b"ab", b"", bytes(root)).hex()), OWN_ASKED), OTHER)
    for app_id, app_data in [
        (b"ac", b""),
        (None, b""),
        (b"ab", None),
        (b"a", b""),
        (b"ab", b"\0"),
        (b"", b"ab"),
        (b"abc", b""),
    ]:
        rows.put(begin(SYSTEM, sealed(blob_of(LIST, MATERIAL, app_id, app_data).hex()), OWN_ASKED), OTHER)
    for params, material in unusable_keys():
        rows.put(begin(SYSTEM, sealed(blob_of(own_list(params), material, b"ab", b"").hex()), OWN_ASKED), OTHER)
    for system, fault in SYSTEMS:
        blob = blob_of(list_of([*PARAMS, *system]), MATERIAL, b"ab", b"").hex()
        rows.put(begin(SYSTEM, sealed(blob), OWN_ASKED), fault)
    return rows.rows + several_faults(rows.begun)


# Systems of which a list says that its key is: one that has a greater version cannot be used, and else one that has a
# lower one wants an upgrade.
NEWER, OLDER = broken(-33, "B23"), broken(-62, "B23")
SYSTEMS = [
    (of_system(None, None), OLDER),
    (of_system(DEMO_OS, None), OLDER),
    (of_system(None, DEMO_PATCH), OLDER),
    (of_system(DEMO_OS - 1, DEMO_PATCH), OLDER),
    (of_system(DEMO_OS, DEMO_PATCH - 1), OLDER),
    (of_system(DEMO_OS + 1, DEMO_PATCH), NEWER),
    (of_system(DEMO_OS, DEMO_PATCH + 1), NEWER),
    (of_system(DEMO_OS + 1, DEMO_PATCH - 1), NEWER),
    (of_system(DEMO_OS - 1, DEMO_PATCH + 1), NEWER),
    (of_system(DEMO_OS + 1, None), NEWER),
    (of_system(None, 4294967295), NEWER),
]


def several_faults(begun):
    """Of several faults the first rule's: B6, a wrong blob, a wrong root, id or key, and then what is asked for."""
    rows = Rows([])
    rows.begun = begun
    late = own_list([*PARAMS, ["ACTIVE_DATETIME", 1001]])
    wrong_root = blob_of(late, MATERIAL, b"ab", b"", b"\4" * 32)
    wrong_text = seal(DEMO_DEVICE, bytes(12), text_of(b"\4" * 32, b"x", None, turned_list(), b""))
    for blob, params, fault in [
        (OWN_BLOB[:-1], "00", broken(-40, "B6")),
        (wrong_root, "00", broken(-40, "B6")),
        (wrong_root[:-1], OWN_ASKED, UNREADABLE),
        (wrong_text, ASKED, UNREADABLE),
        (b"", [], UNREADABLE),
        (wrong_root, [], OTHER),
        (wrong_root, ASKED, OTHER),
        (blob_of(late, b"", b"ab", b""), OWN_ASKED, OTHER),
        (blob_of(late, MATERIAL, b"ab", b""), ASKED, OTHER),
        (blob_of(list_of([*PARAMS, ["ACTIVE_DATETIME", 1001]]), MATERIAL, b"ab", b""), ASKED, OTHER),
        (blob_of(list_of([*PARAMS, ["ACTIVE_DATETIME", 1001]]), MATERIAL, b"ab", b""), OWN_ASKED[1:], OLDER),
        (blob_of(late, MATERIAL, b"ab", b""), OWN_ASKED[1:], broken(-2, "B9")),
        (blob_of(late, MATERIAL, b"ab", b""), OWN_ASKED, broken(-24, "B10")),
        (OWN_BLOB, OWN_ASKED[:1] + OWN_ASKED[2:], broken(-53, "B20")),
    ]:
        rows.put(begin(SYSTEM, sealed(blob.hex()), params), fault)
    rows.works(at(0, 1001, begin(SYSTEM, sealed(blob_of(late, MATERIAL, b"ab", b"").hex()), OWN_ASKED)))
    return rows.rows


# Lists of blobs that no creation gives: limits, which nothing counts here, tokens beside no authentication, and ids in
# the list.


def foreign_lists():
    rows = Rows([1000, 10001])
    for most, fits in [(0, False), (1, True), (2, True)]:
        blob = blob_of(own_list([*PARAMS, ["MAX_USES_PER_BOOT", most]]), MATERIAL).hex()
        for _ in range(3):
            line = begin(SYSTEM, sealed(blob))
            rows.works(line) if fits else rows.put(line, broken(-56, "B16"))
    rows.put(begin(SYSTEM, sealed(blob_of(list_of(PARAMS), MATERIAL).hex())), broken(-62, "B23"))
    for limit in [0, 1, 4294967295]:
        limited(rows, limit)
    token_and_none = blob_of(own_list([*PARAMS, ["USER_SECURE_ID", 7]]), MATERIAL).hex()
    number = rows.begins(begin(SYSTEM, sealed(token_and_none)), challenge="?")
    rows.put(call(SYSTEM, "update", op=number, input="00"), broken(-26, "S5"))
    token = {"challenge": f"op {number}", "user": 7, "authenticator": 0, "kind": 1, "time": 0}
    rows.put(call(SYSTEM, "addAuthToken", **token), OK)
    rows.put(call(SYSTEM, "finish", op=number, input=TEXT), HI_THERE)
    for more in [["APPLICATION_ID", "6162"], ["NONCE", ""], ["ORIGIN", 4]]:
        rows.works(begin(SYSTEM, sealed(blob_of(own_list([*PARAMS, more]), MATERIAL).hex())))
    rows.works(begin(SYSTEM, sealed(blob_of(own_list([*PARAMS, ["USER_ID", 0]]), MATERIAL).hex())))
    rows.put(begin(SYSTEM, sealed(blob_of(own_list([*PARAMS, ["USER_ID", 1]]), MATERIAL).hex())), broken(-15, "B12"))
    rows.put(
        begin(SYSTEM, sealed(blob_of(own_list([*PARAMS, ["UNLOCKED_DEVICE_REQUIRED", True]]), MATERIAL).hex())),
        broken(-72, "B14"),
    )
    return rows.rows + ends_of_keys(rows.begun)


def limited(rows, limit):
    """A blob with a use limit gives all output at its finish, and opens any number of times."""
    blob = blob_of(own_list([*CIPHER_LIST, ["USAGE_COUNT_LIMIT", limit]]), bytes(16)).hex()
    for mode, padding, nonce, ends in [(3, 1, "00" * 16, 17), (1, 1, None, 32), (1, 64, None, 16)]:
        asked = [["PURPOSE", 0], ["BLOCK_MODE", mode], ["PADDING", padding], *([["NONCE", nonce]] if nonce else [])]
        number = rows.begins(begin(SYSTEM, sealed(blob), asked))
        for piece in [16, ends - 16]:
            rows.put(call(SYSTEM, "update", op=number, input="00" * piece), {"code": 0, "out": ""})
        rows.put(call(SYSTEM, "finish", op=number), {"code": 0, "out": LIMITED[mode, padding]})


# AES-128 of zeros under the key of zeros: the first and second counter block, a block of zeros, and one of sixteen
# bytes 10.
LIMITED = {
    (3, 1): "66e94bd4ef8a2c3b884cfa59ca342b2e" + "58",
    (1, 1): "66e94bd4ef8a2c3b884cfa59ca342b2e" * 2,
    (1, 64): "66e94bd4ef8a2c3b884cfa59ca342b2e" + "0143db63ee66b0cdff9f69917680151e",
}


def ends_of_keys(begun):
    """An operation on a blob goes on whatever ends, and a client's end ends it."""
    rows = Rows([])
    rows.begun = begun
    rows.key(SYSTEM, "k", PARAMS)
    number = rows.begins(begin(SYSTEM, sealed(blob_of(LIST, MATERIAL).hex())))
    for line in [
        call(SYSTEM, "deleteKey", key=named("k")),
        call(SYSTEM, "clearNamespace", domain=SELINUX, nspace=100),
        call(SYSTEM, "clearNamespace", domain=APP, nspace=1000),
        call(SYSTEM, "userRemoved", user=0),
    ]:
        rows.put(line, OK)
    rows.put(call(OWN, "update", op=number, input="00"), broken(-28, "S1"))
    rows.put(call(SYSTEM, "finish", op=number, input=TEXT), HI_THERE)
    return rows.rows


def main():
    into = folder_of(__doc__)
    write(into, "application-ids", ids_of_stored_keys())
    write(into, "blob-domain", domain())
    write(into, "blob-faults", faults())
    write(into, "foreign-blobs", foreign_lists())
