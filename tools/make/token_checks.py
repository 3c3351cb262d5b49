"""Writes the scripts of checks/ on tokens, each with its expected replies beside it.

The replies stand here as the rules of docs/RULES.md give them, each at its line. A token whose challenge is "op N"
is filled in when the script is run (`tools/dialog.py`)."""
from keystore.lines import (
    GRANT,
    MAC_LIST,
    OK,
    PARAMS,
    SELINUX,
    Rows,
    at,
    begin,
    broken,
    call,
    folder_of,
    made,
    named,
    numbered,
    write,
)
from keystore.tokens import DEMO_KEY, mac_of

SYSTEM, APP = 1, 2
NO_TOKEN, NOT_SHOWN, WRONG_MAC = broken(-26, "B15"), broken(-26, "S5"), broken(-30, "A7")
LAST = 2**64 - 1
MOST_TIMEOUT = 2**32 - 1
# The mac of "Hi There" under twenty bytes 0b: RFC 4231.
HI_THERE = {"code": 0, "out": "b0344c61d8db38535ca8afceaf0bf12b881dc200c9833da726e9376c2e32cff7"}
NO_OUTPUT = {"code": 0, "out": ""}
TEXT = "4869205468657265"


def token(client=SYSTEM, key=DEMO_KEY, **numbers):
    """A token of user 7, where nothing else is said, with its mac under a device's key."""
    fields = {"challenge": 0, "user": 7, "authenticator": 0, "kind": 1, "time": 5000, **numbers}
    return call(client, "addAuthToken", **fields, mac=mac_of(key, fields).hex())


def shown(number, client=SYSTEM, **numbers):
    """A token of user 7 with the challenge of an operation."""
    fields = {"challenge": f"op {number}", "user": 7, "authenticator": 0, "kind": 1, "time": 5000, **numbers}
    return call(client, "addAuthToken", **fields)


def with_ids(*ids, kinds=None, timeout=None):
    params = [*MAC_LIST, *(["USER_SECURE_ID", it] for it in ids)]
    params += [] if kinds is None else [["USER_AUTH_TYPE", kinds]]
    return params if timeout is None else [*params, ["AUTH_TIMEOUT", timeout]]


# Tokens as they come: who may bring them, and what their macs are over. Client 9 is not connected.


def changed(line):
    """A token with the mac of another one: each number changed by one, two numbers in each other's place, each bit
    turned."""
    for name in ["challenge", "user", "authenticator", "kind", "time"]:
        yield {**line, name: line[name] ^ 1}
    for first, second in [
        ("challenge", "user"),
        ("user", "authenticator"),
        ("challenge", "authenticator"),
        ("time", "challenge"),
    ]:
        yield {**line, first: line[second], second: line[first]}
    mac = bytes.fromhex(line["mac"])
    for bit in range(8 * len(mac)):
        yield {**line, "mac": "".join(f"{byte ^ (bit // 8 == place) << bit % 8:02x}" for place, byte in enumerate(mac))}


def is_timely(rows, client, key, boot, fits=True):
    """A begin at a boot reading, for which the key has a token or not."""
    line = at(boot, 1000, begin(client, key))
    rows.works(line) if fits else rows.put(line, NO_TOKEN)


def macs():
    rows = Rows([1000, 10001])
    own = token(challenge=1, user=7, authenticator=3, kind=2, time=9)
    for line in [own, {**own, "mac": "00" * 32}]:
        rows.put({**line, "c": 9}, broken(20, "A1"))
        rows.put({**line, "c": APP}, broken(6, "A3"))
    rows.key(APP, "k", with_ids(7, timeout=10))
    for line in changed(own):
        rows.put(line, WRONG_MAC)
    for key in [b"\1" * 32, b"\3" * 32, b"\0" * 32]:
        rows.put(token(key=key), WRONG_MAC)
    is_timely(rows, APP, named("k"), 9, False)
    rows.put({**own, "mac": own["mac"].upper()}, OK)
    is_timely(rows, APP, named("k"), 9)
    numbers = {"challenge": LAST, "user": LAST, "authenticator": LAST, "kind": 2**32 - 1, "time": LAST}
    for name, most in numbers.items():
        rows.put(token(**{name: most}), OK)
    rows.put(token(**numbers), OK)
    rows.put(token(challenge=0, user=0, authenticator=0, kind=0, time=0), OK)
    return rows.rows


def malformed():
    """Lines of these acts that spell no event, each beside what it is made of."""
    rows = Rows([1000])
    own, fault = token(), broken(20, "L1")
    for name in ["challenge", "user", "authenticator", "kind", "time", "mac", "c", "t"]:
        rows.put({member: value for member, value in own.items() if member != name}, fault)
        rows.put({**own, name: None}, fault)
    for name, most in [
        ("challenge", LAST),
        ("user", LAST),
        ("authenticator", LAST),
        ("kind", 2**32 - 1),
        ("time", LAST),
    ]:
        for value in [most + 1, -1, "1", True, 1.5]:
            rows.put({**own, name: value}, fault)
    for mac in [own["mac"][:-2], own["mac"] + "00", own["mac"][:-1], "", "zz" * 32, 0, []]:
        rows.put({**own, "mac": mac}, fault)
    for name in ["deviceLocked", "deviceUnlocked"]:
        for fields in [{}, {"user": None}, {"user": 2**32}, {"user": "0"}, {"user": -1}]:
            rows.put(call(SYSTEM, name, **fields), fault)
    rows.put({"t": [0, 1000], "do": "earlyBootEnded"}, fault)
    rows.put({**own, "hold": 1, "flip": [], "params": 3}, OK)
    rows.put(call(SYSTEM, "earlyBootEnded", user=[]), OK)
    return rows.rows


# Timeouts: a key with AUTH_TIMEOUT begins with the last token of some triple that fits it.


def one_token():
    """The token of the time 5000 with a timeout of ten seconds, and with none at all."""
    rows = Rows([1000, 10001])
    rows.key(APP, "k", with_ids(7, kinds=1, timeout=10))
    rows.key(APP, "now", with_ids(7, kinds=1, timeout=0))
    is_timely(rows, APP, named("k"), 5000, False)
    rows.put(token(), OK)
    for alias, boot, fits in [
        ("k", 5000, True),
        ("k", 15000, True),
        ("k", 15001, False),
        ("k", 4999, False),
        ("k", 0, False),
        ("k", LAST, False),
        ("k", 14999, True),
        ("now", 5000, True),
        ("now", 5001, False),
        ("now", 4999, False),
    ]:
        is_timely(rows, APP, named(alias), boot, fits)
    number = rows.begins(at(15000, 0, begin(APP, named("k"))))
    rows.put(at(LAST, 0, call(APP, "update", op=number, input=TEXT)), NO_OUTPUT)
    rows.put(at(0, 0, call(APP, "finish", op=number)), HI_THERE)
    rows.put(at(15000, 0, begin(APP, named("k"), [["PURPOSE", 2]])), broken(-53, "B20"))
    rows.put(at(15001, 0, begin(APP, named("k"), [["PURPOSE", 2]])), NO_TOKEN)
    return rows


def long_times(rows):
    """Times and timeouts whose sums pass 64 bits."""
    rows.key(APP, "long", with_ids(8, timeout=MOST_TIMEOUT))
    rows.put(token(user=8, time=LAST), OK)
    for boot, fits in [(LAST, True), (LAST - 1, False), (0, False)]:
        is_timely(rows, APP, named("long"), boot, fits)
    rows.put(token(user=8, time=0), OK)
    for boot, fits in [(0, True), (1000 * MOST_TIMEOUT, True), (1000 * MOST_TIMEOUT + 1, False), (LAST, False)]:
        is_timely(rows, APP, named("long"), boot, fits)
    rows.put(token(user=8, time=LAST - 1000), OK)
    rows.key(APP, "short", with_ids(8, timeout=1))
    for boot, fits in [(LAST, True), (LAST - 1000, True), (LAST - 1001, False)]:
        is_timely(rows, APP, named("short"), boot, fits)
    rows.put(token(user=8, time=LAST - 1001), OK)
    for boot, fits in [(LAST, False), (LAST - 1, True)]:
        is_timely(rows, APP, named("short"), boot, fits)


def last_ones(rows):
    """The last token of a triple counts, also where its time is earlier; those of other triples stay."""
    rows.key(APP, "m", with_ids(9, timeout=10))
    rows.put(token(user=9, time=5000), OK)
    rows.put(token(user=9, time=1000), OK)
    for boot, fits in [(15000, False), (11001, False), (11000, True), (999, False)]:
        is_timely(rows, APP, named("m"), boot, fits)
    rows.put({**token(user=9, time=8000), "mac": "00" * 32}, WRONG_MAC)
    rows.put(token(client=APP, user=9, time=8000), broken(6, "A3"))
    is_timely(rows, APP, named("m"), 11001, False)
    rows.put(token(user=9, kind=2, time=8000), OK)
    rows.put(token(user=9, authenticator=1, time=30000), OK)
    for boot, fits in [
        (11000, True),
        (11001, True),
        (18000, True),
        (18001, False),
        (29999, False),
        (30000, True),
        (40000, True),
    ]:
        is_timely(rows, APP, named("m"), boot, fits)
    rows.put(token(user=9, kind=2, challenge=4, time=1), OK)
    is_timely(rows, APP, named("m"), 18000, False)
    rows.put(token(user=10, time=18000), OK)
    is_timely(rows, APP, named("m"), 18000, False)


def timeouts():
    rows = one_token()
    long_times(rows)
    last_ones(rows)
    rows.key(APP, "ids", [*MAC_LIST, ["AUTH_TIMEOUT", 0], ["USER_AUTH_TYPE", 1]])
    rows.key(APP, "free", [*PARAMS, ["AUTH_TIMEOUT", 0], ["USER_AUTH_TYPE", 1]])
    for alias in ["ids", "free"]:
        is_timely(rows, APP, named(alias), 77)
    rows.put(made(APP, named("both"), [*with_ids(7, timeout=1), ["NO_AUTH_REQUIRED", True]]), broken(-38, "K13"))
    return rows.rows


# Fit: whose tokens a key takes, and of which kinds.

FITTING = [
    ([7], None, {"user": 7}, True),
    ([7], None, {"user": 8}, False),
    ([7], None, {"user": 8, "authenticator": 7}, True),
    ([7], None, {"user": 7, "authenticator": 7}, True),
    ([7, 8], None, {"user": 8}, True),
    ([7, 8], None, {"user": 9}, False),
    ([8, 7], None, {"user": 9, "authenticator": 8}, True),
    ([0], None, {"user": 0, "authenticator": 9}, True),
    ([0], None, {"user": 9, "authenticator": 0}, True),
    ([0], None, {"user": 9, "authenticator": 8}, False),
    ([LAST], None, {"user": LAST}, True),
    ([LAST], None, {"user": LAST - 1}, False),
    ([7], None, {"kind": 0}, False),
    ([7], None, {"kind": 2}, True),
    ([7], None, {"kind": 2**31}, True),
    ([7], 1, {"kind": 1}, True),
    ([7], 1, {"kind": 2}, False),
    ([7], 1, {"kind": 3}, True),
    ([7], 2, {"kind": 1}, False),
    ([7], 2, {"kind": 2}, True),
    ([7], 3, {"kind": 1}, True),
    ([7], 3, {"kind": 4}, False),
    ([7], 0, {"kind": 2**32 - 1}, False),
    ([7], 2**31, {"kind": 2**31}, True),
    ([7], 2**32 - 1, {"kind": 0}, False),
    ([7], 2**32 - 1, {"kind": 4}, True),
    ([7], 1, {"user": 8, "kind": 1}, False),
]


def fitting():
    """Each case has a time of its own, so that the tokens of the others are too old or too new."""
    rows = Rows([1000, 10001])
    for number, (ids, kinds, numbers, fits) in enumerate(FITTING):
        time = 10000 * number + 10000
        rows.key(APP, "k", with_ids(*ids, kinds=kinds, timeout=1))
        is_timely(rows, APP, named("k"), time, False)
        rows.put(token(time=time, **numbers), OK)
        is_timely(rows, APP, named("k"), time, fits)
    return rows.rows


# The room for tokens: 256 triples, and one more.


def room():
    rows = Rows([1000, 10001])
    full = {"code": 1004}
    for user in range(1, 257):
        rows.put(token(user=user, time=1), OK)
    rows.key(APP, "k", with_ids(257, timeout=1))
    rows.key(APP, "each", with_ids(257, 1))
    number = rows.begins(begin(APP, named("each")), challenge="?")
    rows.put(token(user=257, time=1), full)
    is_timely(rows, APP, named("k"), 1, False)
    rows.put(token(user=257, time=1, client=APP), broken(6, "A3"))
    rows.put({**token(user=257, time=1), "mac": "00" * 32}, WRONG_MAC)
    rows.put(token(user=1, authenticator=1, time=1), full)
    rows.put(token(user=1, kind=2, time=1), full)
    rows.put(shown(number, user=257), full)
    rows.put(call(APP, "update", op=number, input=TEXT), NOT_SHOWN)
    rows.put(token(user=1, time=2), OK)
    rows.put(token(user=256, challenge=LAST, time=LAST), OK)
    rows.put(token(user=258, time=1), full)
    rows.put(shown(number, user=1, time=3), OK)
    rows.put(call(APP, "finish", op=number, input=TEXT), HI_THERE)
    rows.key(APP, "k", with_ids(1, timeout=1))
    for boot, fits in [(2, False), (3, True)]:
        is_timely(rows, APP, named("k"), boot, fits)
    return rows.rows


# Shown: a key without AUTH_TIMEOUT wants a token for each operation.


def steps_of(client, number):
    for name in ["updateAad", "update", "finish"]:
        for more in [{}, {"input": "00"}, {"hold": True}]:
            yield call(client, name, op=number, **more)


def waits(rows, client, number):
    for line in steps_of(client, number):
        rows.put(line, NOT_SHOWN)


def goes_on(rows, client, number):
    """An operation that was shown its token takes any number of steps."""
    for piece in ["4869", "2054", ""]:
        rows.put(call(client, "update", op=number, input=piece), NO_OUTPUT)
    rows.put(call(client, "finish", op=number, input="68657265"), HI_THERE)
    rows.put(call(client, "update", op=number, input="00"), broken(-28, "S1"))


def one_operation(rows):
    rows.put(token(), OK)
    number = rows.begins(begin(APP, named("k")), challenge="?")
    waits(rows, APP, number)
    for line, reply in [
        (token(challenge=0), OK),
        (shown(number, flip=0), WRONG_MAC),
        (shown(number, flip=255), WRONG_MAC),
        (shown(number, client=APP), broken(6, "A3")),
        (shown(number, client=9), broken(20, "A1")),
        (shown(number, user=8), OK),
        (shown(number, user=8, authenticator=9), OK),
        (shown(number, kind=2), OK),
        (shown(number, kind=0), OK),
    ]:
        rows.put(line, reply)
        rows.put(call(APP, "update", op=number, input="00"), NOT_SHOWN)
    rows.put(shown(number), OK)
    goes_on(rows, APP, number)
    rows.put(shown(number), OK)


def two_operations(rows, ticket):
    """Each takes the token with its own challenge alone, whoever has begun it, also once the other one is busy."""
    first = rows.begins(begin(APP, named("k")), challenge="?")
    second = rows.begins(begin(3, numbered(GRANT, 1)), challenge="?")
    third = rows.begins(begin(APP, named("k")), challenge="?")
    rows.put(shown(second, user=8, authenticator=7, kind=3), OK)
    for client, number in [(APP, first), (APP, third)]:
        waits(rows, client, number)
    rows.put(call(3, "update", op=second, input="00", hold=True), {"code": 0, "ticket": ticket})
    rows.put(shown(first), OK)
    waits(rows, APP, third)
    rows.put(call(APP, "update", op=first, input=TEXT, hold=True), {"code": 0, "ticket": ticket + 1})
    rows.put(shown(first), OK)
    rows.put(shown(second, user=8), OK)
    rows.put(call(3, "update", op=second, input="00"), broken(19, "S2"))
    rows.put({"t": [0, 0], "do": "leave", "ticket": ticket + 1}, NO_OUTPUT)
    rows.put({"t": [0, 0], "do": "leave", "ticket": ticket}, NO_OUTPUT)
    rows.put(call(APP, "finish", op=first), HI_THERE)
    rows.put(call(3, "abort", op=second), OK)
    rows.put(shown(second), OK)
    waits(rows, APP, third)
    rows.put(call(APP, "abort", op=third), OK)
    rows.put(shown(third), OK)


def other_rules(rows):
    """The rules before and behind it, each broken beside it: those behind it, which would end the operation, are not
    asked."""
    number = rows.begins(begin(APP, named("k")), challenge="?")
    rows.put(call(3, "update", op=number, input="00"), broken(-28, "S1"))
    rows.put(call(APP, "update", op=number, input="00" * 32769), broken(21, "S3"))
    rows.put(call(APP, "finish", op=number, signature="00" * 32769), broken(21, "S3"))
    waits(rows, APP, number)
    rows.key(
        APP,
        "aes",
        [["PURPOSE", 0], ["ALGORITHM", 32], ["BLOCK_MODE", 1], ["PADDING", 1], ["USER_SECURE_ID", 7]],
        material="00" * 16,
    )
    block = rows.begins(begin(APP, named("aes"), [["PURPOSE", 0], ["BLOCK_MODE", 1], ["PADDING", 1]]), challenge="?")
    waits(rows, APP, block)
    rows.put(shown(block), OK)
    rows.put(call(APP, "update", op=block, input="00"), NO_OUTPUT)
    rows.put(call(APP, "finish", op=block), broken(-21, "S8"))
    rows.put(shown(number), OK)
    rows.put(call(APP, "updateAad", op=number), broken(-40, "S6"))
    waiting = rows.begins(begin(APP, named("k")), challenge="?")
    rows.put(call(APP, "deleteKey", key=named("k")), OK)
    rows.put(call(APP, "update", op=waiting, input="00"), broken(-33, "S4"))
    rows.put(call(APP, "update", op=waiting, input="00"), broken(-28, "S1"))


def drawn_nonces(rows):
    """A nonce and a challenge are both told; a key with a timeout, and one without an id, has no challenge."""
    params = [
        ["PURPOSE", 0],
        ["ALGORITHM", 32],
        ["BLOCK_MODE", 32],
        ["PADDING", 1],
        ["MIN_MAC_LENGTH", 96],
        ["MAX_USES_PER_BOOT", 2],
    ]
    rows.key(
        APP,
        "sealing",
        [*params, ["USER_SECURE_ID", 7], ["USER_SECURE_ID", 8], ["USER_AUTH_TYPE", 2]],
        material="00" * 16,
    )
    asked = [["PURPOSE", 0], ["BLOCK_MODE", 32], ["PADDING", 1], ["MAC_LENGTH", 96]]
    numbers = [rows.begins(begin(APP, named("sealing"), asked), challenge="?", nonce="?" * 24) for _ in range(2)]
    rows.put(begin(APP, named("sealing"), asked), broken(-56, "B16"))
    waits(rows, APP, numbers[0])
    rows.put(shown(numbers[0], user=8, kind=2), OK)
    rows.put(call(APP, "updateAad", op=numbers[0], input="00"), OK)
    rows.put(call(APP, "finish", op=numbers[0]), {"code": 0, "out": "?" * 24})
    rows.put(call(APP, "abort", op=numbers[1]), OK)
    rows.key(SYSTEM, "timed", with_ids(7, timeout=1))
    is_timely(rows, SYSTEM, named("timed"), 5000)


def shown_operations():
    rows = Rows([1000, 10001, 10002])
    rows.key(APP, "k", with_ids(7, kinds=1))
    rows.put(call(APP, "grant", key=named("k"), uid=10002, bits=256), {"code": 0, "grant": 1})
    one_operation(rows)
    two_operations(rows, ticket=5)
    other_rules(rows)
    drawn_nonces(rows)
    rows.put(made(SYSTEM, named("n", SELINUX, 100), with_ids(7)), {"code": 0, "key": rows.keys + 1})
    number = rows.begins(begin(SYSTEM, named("n", SELINUX, 100)), challenge="?")
    waits(rows, SYSTEM, number)
    rows.put(shown(number), OK)
    goes_on(rows, SYSTEM, number)
    return rows.rows


def main():
    into = folder_of(__doc__)
    write(into, "token-macs", macs())
    write(into, "malformed-tokens", malformed())
    write(into, "token-timeouts", timeouts())
    write(into, "fitting-tokens", fitting())
    write(into, "token-room", room())
    write(into, "shown-operations", shown_operations())
