"""Writes the scripts of checks/ on domains, grants and listings, each with its expected replies beside it.

The replies stand here as the rules of docs/RULES.md give them, each at its line. A script's words beside `run
--fresh` stand in a file .words."""
from keystore.lines import (
    APP,
    BLOB,
    GRANT,
    KEY_ID,
    OK,
    SELINUX,
    begin,
    broken,
    call,
    clients,
    connect,
    folder_of,
    made,
    named,
    numbered,
    write,
)

# What is kept of PARAMS: a count, and each tag with its value, by the tags' numbers.
KEPT = "000b" + "2000000100000002" + "2000000100000003" + "1000000200000080" + "30000003000000a0" + "2000000500000004"
KEPT += "3000000800000040" + "700001f701" + "600002bd00000000000003e8" + "100002be00000002"
KEPT += "300002c1000222e0" + "300002c2000316a6"


def entry(number, domain, nspace, alias):
    return {"code": 0, "key": number, "domain": domain, "nspace": nspace, "alias": alias, "list": KEPT}


# Rules: client 9 is not connected, 1 and 2 are apps, 3 is the system, and 4 is an app of user 1. Key 1 is m of client
# 1, key 2 is x of namespace 100. Grant 1 lets client 2 use key 1 and read its entry, grant 2 lets client 3 use it.


def stored(name, permission_rule, **more):
    """The refusals of a call on a stored key that are common to all of them."""
    for key, fault in [(named("m"), broken(20, "A1")), (named(None, BLOB), broken(20, "A1"))]:
        yield call(9, name, key=key, **more), fault
    for key in [named("m", BLOB), named("m", 5), named("m", 4294967295), {**named(None, BLOB), "blob": "4b534231"}]:
        yield call(1, name, key=key, **more), broken(20, "A2")
    for key in [named("x", SELINUX, 100), named("none", SELINUX, 101), named("x", SELINUX)]:
        yield call(1, name, key=key, **more), broken(6, "A4")
    yield call(3, name, key=named("x", SELINUX, 101), **more), broken(6, "A4")
    yield call(1, name, key=named("none"), **more), broken(7, "A5")
    yield call(2, name, key=named("m"), **more), broken(7, "A5")
    yield call(3, name, key=named("none", SELINUX, 0), **more), broken(7, "A5")
    yield call(1, name, key=numbered(KEY_ID, 99), **more), broken(7, "A5")
    yield call(1, name, key=numbered(KEY_ID, 0), **more), broken(7, "A5")
    yield call(4, name, key=numbered(KEY_ID, 1), **more), broken(6, permission_rule)
    yield call(1, name, key=numbered(KEY_ID, 2), **more), broken(6, permission_rule)


def by_form(name):
    """The refusals of a call that takes a descriptor whole."""
    yield from stored(name, "A6")
    for key in [
        named(None),
        named(""),
        named("a" * 257),
        named("\u00e9" * 129),
        named("", SELINUX, 101),
        named(None, SELINUX, 100),
    ]:
        yield call(1, name, key=key), broken(20, "A2")
    for client, number in [(1, 1), (2, 9), (2, 2), (2, 0)]:
        yield call(client, name, key=numbered(GRANT, number)), broken(7, "A5")


def by_domain(name, **more):
    """The refusals of a call that shares a key: the alias is no part of its form."""
    yield from stored(name, "A6", uid=10002, **more)
    for key in [named(None), named(""), named("a" * 257)]:
        yield call(1, name, key=key, uid=10002, **more), broken(7, "A5")
    for key in [numbered(GRANT, 1), numbered(GRANT, 9)]:
        yield call(2, name, key=key, uid=10002, **more), broken(20, "A2")


def creation_rules():
    for client, nspace in [(1, 100), (3, 101), (3, 0)]:
        yield made(client, named("k", SELINUX, nspace)), broken(6, "K3")
        yield made(client, named("k", SELINUX, nspace), "00"), broken(6, "K3")
        yield made(client, named("", SELINUX, nspace)), broken(20, "K2")
    yield made(3, {**named("k", SELINUX, 100), "blob": ""}), broken(20, "K2")
    yield made(3, named("k", SELINUX, 100), "00"), broken(-40, "K4")


def begin_rules():
    yield begin(9, named("x", SELINUX, 100)), broken(20, "B1")
    for key in [
        named(None, SELINUX, 100),
        named("", SELINUX, 101),
        named("a" * 257, SELINUX, 101),
        named("m", BLOB),
        named("m", 5),
    ]:
        yield begin(1, key), broken(20, "B2")
    yield begin(1, named("x", SELINUX, 100)), broken(6, "B3")
    yield begin(3, named("none", SELINUX, 101)), broken(6, "B3")
    for client, key in [
        (2, named("m")),
        (3, named("x", SELINUX, 0)),
        (1, numbered(GRANT, 1)),
        (2, numbered(GRANT, 9)),
        (1, numbered(KEY_ID, 99)),
    ]:
        yield begin(client, key, forced=True), broken(7, "B4")
        yield begin(client, key, "00"), broken(7, "B4")
    yield begin(4, numbered(KEY_ID, 1)), broken(6, "B5")
    yield begin(4, numbered(KEY_ID, 1), "00"), broken(6, "B5")
    yield begin(1, named("m"), forced=True), broken(6, "B5")
    yield begin(2, numbered(GRANT, 1), forced=True), broken(6, "B5")
    yield begin(3, numbered(GRANT, 2), forced=True), broken(6, "B5")
    yield begin(3, numbered(GRANT, 2), "00"), broken(-40, "B6")


def owner_rules():
    for name in ["getNumberOfEntries", "listEntriesBatched"]:
        yield call(9, name, domain=APP), broken(20, "A1")
        yield call(9, name, domain=GRANT), broken(20, "A1")
        for domain in [GRANT, BLOB, KEY_ID, 5, 4294967295]:
            yield call(1, name, domain=domain, nspace=101), broken(20, "A2")
        yield call(1, name, domain=SELINUX, nspace=100), broken(6, "A4")
        yield call(3, name, domain=SELINUX, nspace=101), broken(6, "A4")
        yield call(3, name, domain=SELINUX), broken(6, "A6")


def system_rules():
    yield call(9, "clearNamespace", domain=APP, nspace=10001), broken(20, "A1")
    yield call(9, "clearNamespace", domain=GRANT, nspace=10001), broken(20, "A1")
    for domain, nspace in [(GRANT, 1), (BLOB, 1), (KEY_ID, 1), (5, 1), (APP, 4294967296)]:
        yield call(3, "clearNamespace", domain=domain, nspace=nspace), broken(20, "A2")
        yield call(1, "clearNamespace", domain=domain, nspace=nspace), broken(20, "A2")
    yield call(1, "clearNamespace", domain=APP, nspace=10001), broken(6, "A3")
    yield call(2, "clearNamespace", domain=SELINUX, nspace=100), broken(6, "A3")
    yield call(9, "userRemoved", user=0), broken(20, "A1")
    yield call(9, "userRemoved", user=42950), broken(20, "A1")
    for user in [42950, 4294967295]:
        yield call(3, "userRemoved", user=user), broken(20, "A2")
        yield call(1, "userRemoved", user=user), broken(20, "A2")
    yield call(1, "userRemoved", user=0), broken(6, "A3")


def rules():
    yield from clients([10001, 10002, 1000, 110001])
    yield made(1, named("m")), {"code": 0, "key": 1}
    yield made(3, named("x", SELINUX, 100)), {"code": 0, "key": 2}
    yield call(1, "grant", key=named("m"), uid=10002, bits=260), {"code": 0, "grant": 1}
    yield call(1, "grant", key=named("m"), uid=1000, bits=256), {"code": 0, "grant": 2}
    yield from by_form("getKeyEntry")
    yield call(3, "getKeyEntry", key=numbered(GRANT, 2)), broken(6, "A6")
    yield from by_form("deleteKey")
    yield call(2, "deleteKey", key=numbered(GRANT, 1)), broken(6, "A6")
    yield call(2, "deleteKey", key=numbered(KEY_ID, 1)), broken(6, "A6")
    yield from by_domain("grant", bits=256)
    yield call(2, "grant", key=numbered(KEY_ID, 1), uid=10001, bits=264), broken(6, "A6")
    for bits in [8, 264, 429, 64, 16, 2, 512, 4294967295]:
        yield call(1, "grant", key=named("m"), uid=10002, bits=bits), broken(6, "A8")
    yield from by_domain("ungrant")
    yield call(1, "ungrant", key=named("m"), uid=10001), broken(7, "A9")
    yield call(2, "ungrant", key=numbered(KEY_ID, 1), uid=10001), broken(6, "A6")
    yield from creation_rules()
    yield from begin_rules()
    yield from owner_rules()
    yield from system_rules()
    yield call(1, "getKeyEntry", key=named("m")), entry(1, APP, 10001, "m")
    yield call(2, "getKeyEntry", key=numbered(GRANT, 1)), entry(1, APP, 10001, "m")
    yield call(2, "getKeyEntry", key=numbered(KEY_ID, 1)), entry(1, APP, 10001, "m")
    yield call(3, "getKeyEntry", key=numbered(KEY_ID, 2)), entry(2, SELINUX, 100, "x")
    yield call(3, "getKeyEntry", key={**named("x", SELINUX, 100), "blob": "00"}), entry(2, SELINUX, 100, "x")


# Grants, and the ends of keys.


def grants():
    """A grant, its refusals, its end; then grants that change, that end with their keys, and operations behind such
    an end."""
    yield from clients([10001, 10002, 1000])
    yield made(1, named("m")), {"code": 0, "key": 1}
    yield call(1, "grant", key=named("m"), uid=10002, bits=256), {"code": 0, "grant": 1}
    yield begin(2, numbered(GRANT, 1)), {"code": 0, "op": 1}
    yield call(2, "getKeyEntry", key=numbered(GRANT, 1)), broken(6, "A6")
    yield call(1, "grant", key=named("m"), uid=10002, bits=264), broken(6, "A8")
    yield call(1, "ungrant", key=named("m"), uid=10002), OK
    yield begin(2, numbered(GRANT, 1)), broken(7, "B4")
    yield call(2, "update", op=1, input="00"), {"code": 0, "out": ""}
    yield call(1, "grant", key=numbered(KEY_ID, 1), uid=10002, bits=0), {"code": 0, "grant": 2}
    yield begin(2, numbered(GRANT, 2)), broken(6, "B5")
    yield call(1, "grant", key=named("m"), uid=10002, bits=256), {"code": 0, "grant": 2}
    yield begin(2, numbered(GRANT, 2)), {"code": 0, "op": 2}
    yield begin(2, numbered(KEY_ID, 1)), {"code": 0, "op": 3}
    yield call(1, "grant", key=named("m"), uid=1000, bits=1), {"code": 0, "grant": 3}
    yield made(1, named("m")), {"code": 0, "key": 2}
    yield begin(2, numbered(GRANT, 2)), broken(7, "B4")
    yield begin(2, numbered(KEY_ID, 1)), broken(7, "B4")
    yield begin(2, numbered(KEY_ID, 2)), broken(6, "B5")
    yield call(3, "deleteKey", key=numbered(GRANT, 3)), broken(7, "A5")
    yield call(2, "update", op=2, input="00"), broken(-33, "S4")
    yield call(2, "update", op=2, input="00"), broken(-28, "S1")
    yield call(1, "ungrant", key=named("m"), uid=10002), broken(7, "A9")
    yield call(1, "grant", key=named("m"), uid=1000, bits=1), {"code": 0, "grant": 4}
    yield call(3, "deleteKey", key=numbered(GRANT, 4)), OK
    yield call(3, "deleteKey", key=numbered(GRANT, 4)), broken(7, "A5")
    yield begin(1, named("m")), broken(7, "B4")
    yield made(1, named("m")), {"code": 0, "key": 3}
    yield call(1, "grant", key=named("m"), uid=10002, bits=256), {"code": 0, "grant": 5}
    yield call(1, "deleteKey", key=named("m")), OK
    yield begin(2, numbered(GRANT, 5)), broken(7, "B4")


def counted(client, count, **owner):
    return call(client, "getNumberOfEntries", **owner), {"code": 0, "count": count}


def owners():
    """Namespaces, apps and users whose keys end, and their neighbours whose keys stay."""
    yield from clients([1000, 10001, 99999, 100000, 110001])
    yield made(1, named("x", SELINUX, 100)), {"code": 0, "key": 1}
    yield counted(1, 1, domain=SELINUX, nspace=100)
    yield call(1, "getNumberOfEntries", domain=SELINUX, nspace=101), broken(6, "A4")
    yield call(1, "clearNamespace", domain=SELINUX, nspace=100), OK
    yield counted(1, 0, domain=SELINUX, nspace=100)
    yield made(1, named("x", SELINUX, 100)), {"code": 0, "key": 2}
    for client in range(1, 6):
        yield made(client, named("n")), {"code": 0, "key": client + 2}
    yield call(1, "clearNamespace", domain=SELINUX, nspace=101), OK
    yield call(1, "clearNamespace", domain=SELINUX, nspace=10001), OK
    yield call(1, "clearNamespace", domain=APP, nspace=100), OK
    yield counted(2, 1, domain=APP, nspace=7)
    yield call(1, "userRemoved", user=1), OK
    for client, count in [(1, 1), (2, 1), (3, 1), (4, 0), (5, 0)]:
        yield counted(client, count, domain=APP)
    yield call(1, "clearNamespace", domain=APP, nspace=10001), OK
    for client, count in [(1, 1), (2, 0), (3, 1)]:
        yield counted(client, count, domain=APP)
    yield call(1, "userRemoved", user=0), OK
    for client in [1, 3]:
        yield counted(client, 0, domain=APP)
    yield counted(1, 1, domain=SELINUX, nspace=100)
    yield call(1, "userRemoved", user=42949), OK
    yield call(1, "clearNamespace", domain=APP, nspace=4294967295), OK
    params = [["PURPOSE", 0], ["PURPOSE", 1], ["ALGORITHM", 32], ["KEY_SIZE", 256], ["BLOCK_MODE", 32], ["PADDING", 1]]
    params += [["MIN_MAC_LENGTH", 128], ["NO_AUTH_REQUIRED", True]]
    yield call(2, "generateKey", key=named("k"), params=params), {"code": 0, "key": 8}
    yield call(2, "listEntriesBatched", domain=APP), {"code": 0, "entries": [["k", 8]]}
    yield call(3, "listEntriesBatched", domain=APP), {"code": 0, "entries": []}
    yield call(2, "deleteKey", key=named("k")), OK
    yield call(2, "listEntriesBatched", domain=APP), {"code": 0, "entries": []}
    yield counted(2, 0, domain=APP)


def forced():
    """One slot: the system's begin may be forced, an app's may not."""
    yield from clients([10001])
    yield made(1, named("m")), {"code": 0, "key": 1}
    yield begin(1, named("m")), {"code": 0, "op": 1}
    yield connect(1000), {"code": 0, "client": 2}
    yield made(2, named("n")), {"code": 0, "key": 2}
    yield begin(2, named("n"), forced=True), {"code": 0, "op": 2, "pruned": 1}
    yield begin(1, named("m"), forced=True), broken(6, "B5")
    yield call(2, "update", op=2, input="00", hold=True), {"code": 0, "ticket": 1}
    yield begin(2, named("n"), forced=True), broken(18, "B22")
    yield {"t": [0, 1000], "do": "leave", "ticket": 1}, {"code": 0, "out": ""}
    yield begin(2, named("n")), broken(18, "B22")
    yield begin(2, named("n"), forced=True), {"code": 0, "op": 3, "pruned": 2}


def aliases():
    """Six hundred aliases: fronts of one another, and such as differ in a byte above 7f."""
    for number in range(600):
        yield [
            "a" * (number // 3 + 1),
            "a" * (number // 3) + "\u00e9",
            "\u20ac" * (number // 30 + 1) + chr(0x100 + number),
        ][number % 3]


def listing():
    """The pages of a listing, with a neighbour's keys under the same aliases between them."""
    yield from clients([10001, 10002])
    keys = []
    for number, alias in enumerate(aliases(), 1):
        yield made(1, named(alias)), {"code": 0, "key": number}
        keys.append([alias, number])
    yield made(2, named("a")), {"code": 0, "key": 601}
    keys.sort(key=lambda key: key[0].encode())
    yield counted(1, 600, domain=APP)
    yield call(1, "listEntriesBatched", domain=APP), {"code": 0, "entries": keys[:256]}
    for end in [256, 512, 600]:
        page = keys[end : end + 256]
        yield call(1, "listEntriesBatched", domain=APP, nspace=9, past=keys[end - 1][0]), {"code": 0, "entries": page}
    yield call(1, "listEntriesBatched", domain=APP, past=""), {"code": 0, "entries": keys[:256]}
    behind = [key for key in keys if key[0].encode() > b"a\x7f"]
    yield call(1, "listEntriesBatched", domain=APP, past="a\x7f"), {"code": 0, "entries": behind[:256]}
    yield call(2, "listEntriesBatched", domain=APP), {"code": 0, "entries": [["a", 601]]}


def main():
    into = folder_of(__doc__)
    write(into, "domain-rules", rules())
    write(into, "grants", grants())
    write(into, "owners", owners())
    write(into, "listing", listing())
    write(into, "forced", forced(), "--slots 1")
