"""Writes the scripts of checks/ on dates, users, locks, early boot and begins per boot, each with its expected replies
beside it.

The replies stand here as the rules of docs/RULES.md give them, each at its line."""
import itertools

from keystore.lines import (
    ASKED,
    GRANT,
    KEY_ID,
    MAC_LIST,
    OK,
    PARAMS,
    SELINUX,
    Rows,
    at,
    begin,
    broken,
    call,
    folder_of,
    made,
    named,
    numbered,
    write,
)
from keystore.lists import read_list, write_list
from keystore.script_events import encoded_list

MAC, AES = "mac", "aes"
AES_LIST = [
    ["PURPOSE", 0],
    ["PURPOSE", 1],
    ["ALGORITHM", 32],
    ["BLOCK_MODE", 1],
    ["BLOCK_MODE", 3],
    ["BLOCK_MODE", 32],
    ["PADDING", 1],
    ["PADDING", 64],
    ["MIN_MAC_LENGTH", 96],
]
LISTS = {MAC: (MAC_LIST, "0b" * 20), AES: (AES_LIST, "00" * 16)}
FREE = ["NO_AUTH_REQUIRED", True]
# What begins with each purpose, and on a key of what algorithm.
BEGINS = [
    (AES, [["PURPOSE", 0], ["BLOCK_MODE", 1], ["PADDING", 1]]),
    (AES, [["PURPOSE", 1], ["BLOCK_MODE", 1], ["PADDING", 1]]),
    (MAC, [["PURPOSE", 2], ["MAC_LENGTH", 256]]),
    (MAC, [["PURPOSE", 3]]),
]
LAST = 2**64 - 1
TOO_EARLY, TOO_LATE = broken(-24, "B10"), broken(-25, "B11")


def key_of(rows, client, alias, algorithm, *restrictions):
    """A key that needs no token where no restriction says so."""
    params, material = LISTS[algorithm]
    free = [] if any(name == "USER_SECURE_ID" for name, _ in restrictions) else [FREE]
    rows.key(client, alias, [*params, *free, *restrictions], material=material)


# Dates: for each purpose the reading before, at and behind each date, with keys that have all three or one.


def is_in_time(dates, purpose, wall):
    """The reply to a begin in which the dates alone may be broken, or None."""
    end = "ORIGINATION_EXPIRE_DATETIME" if purpose in (0, 2) else "USAGE_EXPIRE_DATETIME"
    if wall < dates.get("ACTIVE_DATETIME", 0):
        return TOO_EARLY
    return TOO_LATE if wall > dates.get(end, LAST) else None


def dates():
    rows = Rows([10001])
    every = {"ACTIVE_DATETIME": 1000, "ORIGINATION_EXPIRE_DATETIME": 2000, "USAGE_EXPIRE_DATETIME": 3000}
    turned = {"ACTIVE_DATETIME": 2500, "ORIGINATION_EXPIRE_DATETIME": 2000, "USAGE_EXPIRE_DATETIME": 1000}
    ends = {"ORIGINATION_EXPIRE_DATETIME": 0, "USAGE_EXPIRE_DATETIME": LAST}
    starts = {"ACTIVE_DATETIME": LAST, "USAGE_EXPIRE_DATETIME": LAST}
    for kept in [every, *({name: value} for name, value in every.items()), turned, ends, starts]:
        walls = sorted({wall + step for wall in kept.values() for step in (-1, 0, 1) if 0 <= wall + step <= LAST})
        for algorithm, params in BEGINS:
            key_of(rows, 1, "k", algorithm, *kept.items())
            for wall in [*walls, walls[0]]:
                line = at(0, wall, begin(1, named("k"), params))
                fault = is_in_time(kept, params[0][1], wall)
                rows.works(line) if fault is None else rows.put(line, fault)
    key_of(rows, 1, "k", MAC, *every.items())
    rows.put(at(1500, 999, begin(1, named("k"))), TOO_EARLY)
    rows.put(at(LAST, 2001, begin(1, named("k"))), TOO_LATE)
    number = rows.begins(at(LAST, 2000, begin(1, named("k"))))
    rows.put(at(0, LAST, call(1, "finish", op=number, input="4869205468657265")), HI_THERE)
    for name in every:
        rows.put(at(0, LAST, made(1, named("d"), [*PARAMS, [name, 0]])), {"code": 0, "key": rows.keys + 1})
        rows.keys += 1
    return rows.rows


# The mac of "Hi There" under twenty bytes 0b: RFC 4231.
HI_THERE = {"code": 0, "out": "b0344c61d8db38535ca8afceaf0bf12b881dc200c9833da726e9376c2e32cff7"}

# Order: at wall time 1000, once early boot has ended, for an app of user 0 whose device is locked and who has no token,
# each of these restrictions of a key breaks its rule.

RESTRICTIONS = [
    (broken(-24, "B10"), [["ACTIVE_DATETIME", 1001]]),
    (broken(-25, "B11"), [["ORIGINATION_EXPIRE_DATETIME", 999]]),
    (broken(-15, "B12"), [["USER_ID", 1]]),
    (broken(-73, "B13"), [["EARLY_BOOT_ONLY", True]]),
    (broken(-72, "B14"), [["UNLOCKED_DEVICE_REQUIRED", True]]),
    (broken(-26, "B15"), [["USER_SECURE_ID", 7], ["AUTH_TIMEOUT", 10]]),
    (broken(-56, "B16"), [["MAX_USES_PER_BOOT", 0]]),
]
LATER = [
    (AES, [["PURPOSE", 0], ["PADDING", 1]], broken(-7, "B17")),
    (AES, [["PURPOSE", 0], ["BLOCK_MODE", 2], ["PADDING", 1]], broken(-8, "B17")),
    (AES, [["PURPOSE", 0], ["BLOCK_MODE", 1], ["PADDING", 2]], broken(-10, "B18")),
    (AES, [["PURPOSE", 0], ["BLOCK_MODE", 3], ["PADDING", 64]], broken(-11, "B18")),
    (AES, [["PURPOSE", 0], ["BLOCK_MODE", 32], ["PADDING", 1]], broken(-53, "B20")),
    (AES, [["PURPOSE", 0], ["BLOCK_MODE", 3], ["PADDING", 1], ["NONCE", ""]], broken(-55, "B21")),
    (MAC, [["PURPOSE", 2], ["MAC_LENGTH", 256], ["DIGEST", 9]], broken(-12, "B19")),
    (MAC, [["PURPOSE", 2], ["MAC_LENGTH", 256], ["DIGEST", 5]], broken(-13, "B19")),
    (MAC, [["PURPOSE", 2], ["MAC_LENGTH", 56]], broken(-57, "B20")),
]
EARLIER = [
    (AES, "00", broken(-40, "B6")),
    (AES, [["PURPOSE", 2], ["MAC_LENGTH", 256]], broken(-2, "B9")),
    (MAC, [["PURPOSE", 2], ["PURPOSE", 3], ["MAC_LENGTH", 256]], broken(-2, "B9")),
]


def order():
    rows = Rows([10001, 1000, 10002])
    chosen = [[place] for place in range(len(RESTRICTIONS))] + list(
        map(list, itertools.combinations(range(len(RESTRICTIONS)), 2))
    )
    chosen += [[], list(range(len(RESTRICTIONS)))]
    for number, places in enumerate(chosen):
        for algorithm in LISTS:
            key_of(
                rows,
                1,
                f"{algorithm}{number}",
                algorithm,
                *itertools.chain.from_iterable(RESTRICTIONS[it][1] for it in places),
            )
    rows.put(call(2, "earlyBootEnded"), OK)
    for number, places in enumerate(chosen):
        first = [RESTRICTIONS[place][0] for place in places[:1]]
        for algorithm, params, fault in EARLIER:
            rows.put(begin(1, named(f"{algorithm}{number}"), params), fault)
        for algorithm, params in [BEGINS[0], BEGINS[2]]:
            line = begin(1, named(f"{algorithm}{number}"), params)
            rows.put(line, first[0]) if first else rows.works(line)
        for algorithm, params, fault in LATER:
            rows.put(begin(1, named(f"{algorithm}{number}"), params), (first or [fault])[0])
        number_of_key = 2 * number + 1
        rows.put(begin(3, numbered(KEY_ID, number_of_key)), broken(6, "B5"))
        rows.put(begin(1, named(f"mac{number}"), forced=True), broken(6, "B5"))
    yield from rows.rows
    yield from new_keys_behind_early_boot(rows.keys)


def new_keys_behind_early_boot(keys):
    """K15 alone, behind the rules before it, and before the tags that are not built yet."""
    early, ended = ["EARLY_BOOT_ONLY", True], broken(-73, "K15")
    yield made(1, named("e"), [*PARAMS, early]), ended
    yield call(1, "generateKey", key=named("e"), params=[*PARAMS, early, ["KEY_SIZE", 160]]), ended
    yield made(2, named("e", SELINUX, 100), [*PARAMS, early]), ended
    yield made(1, named("e"), [*PARAMS, early, ["USER_SECURE_ID", 7]]), broken(-38, "K13")
    yield made(1, named("e"), [*PARAMS, early, ["USAGE_COUNT_LIMIT", 0]]), broken(-38, "K14")
    yield made(1, named("e"), [*PARAMS, early], material="0b" * 7), broken(-6, "K7")
    yield made(1, named("e"), [*PARAMS, early, ["USAGE_COUNT_LIMIT", 1]]), ended
    yield made(1, named("e")), {"code": 0, "key": keys + 1}


# The device: clients of the users 0, 1 and 42949, each at its first and its last uid; client 9 is not connected.

LOCKED, EARLY = broken(-72, "B14"), broken(-73, "B13")
UIDS = [1000, 10001, 99999, 100000, 199999, 4294900000, 4294967295]
USER_OF = {1: 0, 2: 0, 3: 0, 4: 1, 5: 1, 6: 42949, 7: 42949}
WITH_UNLOCKED = [FREE, ["UNLOCKED_DEVICE_REQUIRED", True]]


def calls_of_the_system():
    for name in ["deviceLocked", "deviceUnlocked"]:
        for user in [0, 42949, 42950]:
            yield call(9, name, user=user), broken(20, "A1")
        for client, user in [(1, 42950), (1, 4294967295), (2, 42950), (7, 42950)]:
            yield call(client, name, user=user), broken(20, "A2")
        for client, user in [(2, 0), (4, 1), (7, 42949)]:
            yield call(client, name, user=user), broken(6, "A3")
    yield call(9, "earlyBootEnded"), broken(20, "A1")
    for client in [2, 4, 7]:
        yield call(client, "earlyBootEnded"), broken(6, "A3")


def begins_of_all(rows, unlocked):
    """A begin of each client on its key and on a shared one: the caller's user is asked for."""
    for client, user in USER_OF.items():
        for key in [named("u"), numbered(GRANT, client)]:
            line = begin(client, key)
            rows.works(line) if user in unlocked else rows.put(line, LOCKED)


def locks():
    rows = Rows(UIDS)
    rows.rows += calls_of_the_system()
    for client in USER_OF:
        rows.key(client, "u", [*MAC_LIST, *WITH_UNLOCKED])
    rows.key(2, "shared", [*MAC_LIST, *WITH_UNLOCKED])
    for client, uid in enumerate(UIDS, 1):
        rows.put(call(2, "grant", key=named("shared"), uid=uid, bits=256), {"code": 0, "grant": client})
    begins_of_all(rows, [])
    unlocked = set()
    for name, user in [
        ("deviceUnlocked", 1),
        ("deviceLocked", 0),
        ("deviceUnlocked", 42949),
        ("deviceLocked", 1),
        ("deviceLocked", 1),
        ("deviceUnlocked", 0),
        ("deviceUnlocked", 2),
        ("deviceUnlocked", 42948),
        ("deviceLocked", 42949),
        ("deviceUnlocked", 0),
    ]:
        rows.put(call(1, name, user=user), OK)
        unlocked = unlocked | {user} if name == "deviceUnlocked" else unlocked - {user}
        begins_of_all(rows, unlocked)
    number = rows.begins(begin(2, named("u")))
    rows.put(call(1, "deviceLocked", user=0), OK)
    rows.put(call(2, "update", op=number, input="4869"), {"code": 0, "out": ""})
    rows.put(call(2, "finish", op=number, input="205468657265"), HI_THERE)
    rows.put(call(1, "deviceUnlocked", user=1), OK)
    rows.put(call(1, "userRemoved", user=1), OK)
    rows.key(4, "u", [*MAC_LIST, *WITH_UNLOCKED])
    rows.works(begin(4, named("u")))
    rows.put(call(4, "disconnect"), OK)
    rows.works(begin(5, numbered(GRANT, 5)))
    return rows.rows


def users():
    """USER_ID is the user of the caller, and not of the key's owner."""
    rows = Rows(UIDS)
    for user in [0, 1, 42949, 42950, 4294967295]:
        rows.key(2, "k", [*PARAMS, ["USER_ID", user]])
        for client, uid in enumerate(UIDS, 1):
            rows.put(
                call(2, "grant", key=named("k"), uid=uid, bits=256),
                {"code": 0, "grant": len(UIDS) * (rows.keys - 1) + client},
            )
        for client, own in USER_OF.items():
            line = begin(client, numbered(KEY_ID, rows.keys))
            rows.works(line) if own == user else rows.put(line, broken(-15, "B12"))
    return rows.rows


def early_boot():
    rows = Rows([1000, 10001])
    rows.key(2, "e", [*PARAMS, ["EARLY_BOOT_ONLY", True]])
    rows.key(2, "m", PARAMS)
    number = rows.begins(begin(2, named("e")))
    rows.put(call(2, "earlyBootEnded"), broken(6, "A3"))
    rows.works(begin(2, named("e")))
    for _ in range(2):
        rows.put(call(1, "earlyBootEnded"), OK)
        rows.put(begin(2, named("e")), EARLY)
        rows.put(begin(2, numbered(KEY_ID, 1)), EARLY)
        rows.works(begin(2, named("m")))
    rows.put(call(2, "finish", op=number, input="4869205468657265"), HI_THERE)
    rows.put(made(2, named("m"), [*PARAMS, ["EARLY_BOOT_ONLY", True]]), broken(-73, "K15"))
    rows.works(begin(2, named("m")))
    return rows.rows


# Begins since the restart: which count, and of which key.

TOO_OFTEN = broken(-56, "B16")
DOMAINS_OF_SHARED = [(1, named("k")), (1, numbered(KEY_ID, 5)), (2, numbered(GRANT, 1)), (2, numbered(KEY_ID, 5))]


def begins_per_boot():
    rows = Rows([10001, 10002])
    for most in [0, 1, 2]:
        rows.key(1, "k", [*PARAMS, ["MAX_USES_PER_BOOT", most]])
        for _ in range(most):
            rows.works(begin(1, named("k")))
        for _ in range(2):
            rows.put(begin(1, named("k")), TOO_OFTEN)
    rows.key(1, "k", [*PARAMS, ["MAX_USES_PER_BOOT", 4294967295]])
    rows.works(begin(1, named("k")))
    rows.key(1, "k", [*PARAMS, ["MAX_USES_PER_BOOT", 4]])
    rows.put(call(1, "grant", key=named("k"), uid=10002, bits=256), {"code": 0, "grant": 1})
    rows.key(1, "other", [*PARAMS, ["MAX_USES_PER_BOOT", 1]])
    for params, fault in [
        ([["PURPOSE", 2]], broken(-53, "B20")),
        ([["PURPOSE", 0]], broken(-2, "B9")),
        ("00", broken(-40, "B6")),
    ]:
        rows.put(begin(1, named("k"), params), fault)
    rows.put(begin(1, named("k"), forced=True), broken(6, "B5"))
    rows.put(begin(2, named("k")), broken(7, "B4"))
    for client, key in DOMAINS_OF_SHARED:
        rows.begins(begin(client, key))
    for client, key in DOMAINS_OF_SHARED:
        rows.put(begin(client, key), TOO_OFTEN)
        rows.put(begin(client, key, [["PURPOSE", 2]]), TOO_OFTEN)
    for number in range(rows.begun - 3, rows.begun + 1):
        rows.put(call(2 if number > rows.begun - 2 else 1, "finish", op=number, input="4869205468657265"), HI_THERE)
    rows.put(begin(1, named("k")), TOO_OFTEN)
    rows.works(begin(1, named("other")))
    rows.put(begin(1, named("other")), TOO_OFTEN)
    rows.key(1, "other", [*PARAMS, ["MAX_USES_PER_BOOT", 1]])
    rows.works(begin(1, named("other")))
    rows.put(begin(1, named("other")), TOO_OFTEN)
    return rows.rows


def one_slot():
    """A begin that finds no place does not count, and one that is pruned does."""
    rows = Rows([10001, 1000])
    rows.key(1, "free", PARAMS)
    rows.key(2, "k", [*PARAMS, ["MAX_USES_PER_BOOT", 2]])
    busy = rows.begins(begin(1, named("free")))
    rows.put(call(1, "update", op=busy, input="00", hold=True), {"code": 0, "ticket": 1})
    for forced in [False, True, True]:
        rows.put(begin(2, named("k"), forced=forced), broken(18, "B22"))
    rows.put({"t": [0, 1000], "do": "leave", "ticket": 1}, {"code": 0, "out": ""})
    rows.begins(begin(2, named("k"), forced=True), pruned=busy)
    rows.begins(begin(2, named("k"), forced=True), pruned=busy + 1)
    rows.put(begin(2, named("k"), forced=True), TOO_OFTEN)
    rows.put(begin(2, named("k"), ASKED[:1], forced=True), TOO_OFTEN)
    rows.put(call(2, "update", op=busy + 1, input="00"), broken(-28, "S1"))
    rows.put(call(2, "finish", op=busy + 2, input="4869205468657265"), HI_THERE)
    return rows.rows


# What is kept of each restriction: the list of the key's entry has it in its place.

KEPT_LISTS = [
    [["EARLY_BOOT_ONLY", True]],
    [["ACTIVE_DATETIME", 0]],
    [["ORIGINATION_EXPIRE_DATETIME", LAST]],
    [["USAGE_EXPIRE_DATETIME", 1]],
    [["MAX_USES_PER_BOOT", 0]],
    [["USER_ID", 4294967295]],
    [["USER_SECURE_ID", 7]],
    [["USER_AUTH_TYPE", 3]],
    [["AUTH_TIMEOUT", 0]],
    [["UNLOCKED_DEVICE_REQUIRED", True]],
    [["CREATION_DATETIME", 5]],
    [
        ["USER_SECURE_ID", LAST],
        ["USER_SECURE_ID", 0],
        ["USER_SECURE_ID", 7],
        ["USER_SECURE_ID", 7],
        ["USER_SECURE_ID", 256],
    ],
    [
        ["AUTH_TIMEOUT", 10],
        ["USER_AUTH_TYPE", 2],
        ["USER_SECURE_ID", 9],
        ["MAX_USES_PER_BOOT", 3],
        ["ACTIVE_DATETIME", 1],
    ],
]


# What is set in a new key's list, and what is dropped: whether the key is drawn, its parameters, the wall reading, and
# the list.
GCM_KEY = [
    ["PURPOSE", 0],
    ["PURPOSE", 1],
    ["ALGORITHM", 32],
    ["KEY_SIZE", 256],
    ["BLOCK_MODE", 32],
    ["PADDING", 1],
    ["MIN_MAC_LENGTH", 128],
    FREE,
]
SET_GCM = (
    "000c2000000100000000200000010000000110000002000000203000000300000100200000040000002020000006000000013000"
    "000800000080700001f701600002bd00000000000003e8100002be00000000300002c1000222e0300002c2000316a6"
)
SET_MAC = (
    "000b20000001000000022000000100000003100000020000008030000003000000a0200000050000000430000008000000407000"
    "01f701600002bd00000000000003e8100002be00000002300002c1000222e0300002c2000316a6"
)
SET_DATED_MAC = (
    "000b20000001000000022000000100000003100000020000008030000003000000a0200000050000000430000008000000407000"
    "01f701600002bd0000000000000005100002be00000002300002c1000222e0300002c2000316a6"
)
SET_LAST_GCM = (
    "000c2000000100000000200000010000000110000002000000203000000300000100200000040000002020000006000000013000"
    "000800000080700001f701600002bdffffffffffffffff100002be00000000300002c1000222e0300002c2000316a6"
)
DROPPED = [["KEY_SIZE", 160], ["ORIGIN", 4], ["NONCE", "000000"], ["MAC_LENGTH", 64], ["CREATION_DATETIME", 5]]
SET_LISTS = [
    (True, GCM_KEY, 1000, SET_GCM),
    (False, PARAMS, 1000, SET_MAC),
    (False, [*PARAMS, ["OS_VERSION", 1], ["OS_PATCHLEVEL", 2]], 1000, SET_MAC),
    (False, [*PARAMS, *DROPPED], 1000, SET_DATED_MAC),
    (True, [*GCM_KEY, ["ORIGIN", 2]], LAST, SET_LAST_GCM),
]


def entry(rows, encoded):
    """The entry of the newest key."""
    return {"code": 0, "key": rows.keys, "domain": 0, "nspace": 10001, "alias": "k", "list": encoded}


def kept_lists():
    rows = Rows([10001])
    for restrictions in KEPT_LISTS:
        free = [] if any(name == "USER_SECURE_ID" for name, _ in restrictions) else [FREE]
        rows.key(1, "k", [*restrictions, *free, *reversed(MAC_LIST)])
        kept = [*MAC_LIST, *free, *restrictions, ["KEY_SIZE", 160], ["ORIGIN", 2]]
        kept += [["OS_VERSION", 140000], ["OS_PATCHLEVEL", 202406]]
        kept += [] if any(name == "CREATION_DATETIME" for name, _ in restrictions) else [["CREATION_DATETIME", 1000]]
        rows.put(call(1, "getKeyEntry", key=named("k")), entry(rows, write_list(read_list(encoded_list(kept))).hex()))
    for drawn, params, wall, encoded in SET_LISTS:
        rows.keys += 1
        making = call(1, "generateKey", key=named("k"), params=params) if drawn else made(1, named("k"), params)
        rows.put(at(0, wall, making), {"code": 0, "key": rows.keys})
        rows.put(at(0, wall, call(1, "getKeyEntry", key=named("k"))), entry(rows, encoded))
    return rows.rows


def main():
    into = folder_of(__doc__)
    write(into, "kept-lists", kept_lists())
    write(into, "dates", dates())
    write(into, "restriction-order", order())
    write(into, "device-locks", locks())
    write(into, "user-ids", users())
    write(into, "early-boot", early_boot())
    write(into, "begins-per-boot", begins_per_boot())
    write(into, "begins-in-one-slot", one_slot(), "--slots 1")
