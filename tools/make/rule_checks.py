"""Writes the scripts of checks/ on the rights of each domain, on a key with all restrictions, and on the steps of each
plan, with replies.

Beside each line stands here the rule that it breaks by docs/RULES.md, or none; the rest of its reply is that of the
second model, which must break that rule and no other. It needs the Python package `cryptography`."""
import json

from keystore.lines import (
    BLOB,
    GRANT,
    KEY_ID,
    MAC_LIST,
    PARAMS,
    SELINUX,
    at,
    begin,
    call,
    connect,
    folder_of,
    made,
    named,
    numbered,
    sealed,
    text_of,
    write,
)
from keystore.tokens import DEMO_KEY, mac_of
from model.second_model import Service, reply_line


class Answers:
    """Lines with the second model's replies, each of which breaks the rule that is said."""

    def __init__(self, uids):
        self.service = Service()
        self.rows = []
        for uid in uids:
            self.put(connect(uid))

    def put(self, line, rule=None):
        reply = json.loads(reply_line(self.service, text_of(line).removesuffix("\n").encode()))
        if reply.get("rule") != rule or rule is None and reply["code"]:
            raise ValueError(f"{line} is answered {reply}, and is said to break {rule}")
        # a challenge is drawn
        self.rows.append((line, {**reply, "challenge": "?"} if "challenge" in reply else reply))
        return reply

    def ends(self, client, reply):
        """The end of an operation that is open still, and a line that says so of one that is not."""
        is_open = reply["op"] in self.service.operations
        self.put(call(client, "abort", op=reply["op"]), None if is_open else "S1")


# Domains: client 1 is the system, whose uid has a row of the policy in the namespaces 100 and 0; 2 is an app, and 3 has
# grants of it.

USE, ALL_BUT_USE = 256, 165


def rights():
    """The form of each domain and the rights of it, of a begin and of a new key."""
    told = Answers([1000, 10001, 10002])
    told.put(made(2, named("a")))
    told.put(made(2, named("b")))
    told.put(made(1, named("s", SELINUX, 100)))
    told.put(made(1, named("own")))
    told.put(call(2, "grant", key=named("a"), uid=10002, bits=USE))
    told.put(call(2, "grant", key=named("b"), uid=10002, bits=ALL_BUT_USE))
    row = numbered(KEY_ID, 1)
    for client, key, forced, rule in [
        (2, named("a"), False, None),
        (2, named(None), False, "B2"),
        (1, named("own"), True, None),
        (2, named("a"), True, "B5"),
        (3, numbered(GRANT, 1), False, None),
        (3, numbered(GRANT, 2), False, "B5"),
        (3, row, False, None),
        (3, row, True, "B5"),
        (3, numbered(KEY_ID, 2), False, "B5"),
        (1, row, False, "B5"),
        (1, row, True, "B5"),
        (1, named("s", SELINUX, 100), True, None),
        (2, named("s", SELINUX, 100), False, "B3"),
        (1, named("s", SELINUX, 101), False, "B3"),
        (1, named("s", SELINUX, 0), False, "B4"),
        (1, named(None, SELINUX, 100), False, "B2"),
        (1, named("s", BLOB, 100), False, "B2"),
        (2, named("s", BLOB, 100), False, "B2"),
        (1, named(None, BLOB, 100), False, "B2"),
        (2, sealed("00"), False, "B3"),
        (1, sealed("00", 0), False, "B3"),
        (1, sealed("00"), False, "B7"),
        (1, named("a", 5), False, "B2"),
    ]:
        reply = told.put(begin(client, key, forced=forced), rule)
        if rule is None:
            told.ends(client, reply)
    once, used, never = (["MAX_USES_PER_BOOT", 1], ["USAGE_COUNT_LIMIT", 1], ["USAGE_COUNT_LIMIT", 0])
    for client, key, more, rule in [
        (2, named("k"), [], None),
        (2, {**named("k"), "blob": ""}, [], "K2"),
        (2, named(None), [], "K2"),
        (2, named("k"), [once], None),
        (2, named("k"), [used], None),
        (2, named("k"), [never], "K14"),
        (1, named("k", SELINUX, 100), [], None),
        (1, {**named("k", SELINUX, 100), "blob": ""}, [], "K2"),
        (1, named("k", SELINUX, 0), [], "K3"),
        (1, named("k", SELINUX, 101), [], "K3"),
        (2, named("k", SELINUX, 100), [], "K3"),
        (1, sealed(""), [], "K2"),
        (1, numbered(BLOB, 0), [], "K3"),
        (2, numbered(BLOB, 100), [], "K3"),
        (1, numbered(BLOB, 100), [once], "K14"),
        (1, numbered(BLOB, 100), [used], "K14"),
        (1, numbered(BLOB, 100), [never], "K14"),
        (1, named("k", GRANT, 100), [], "K2"),
        (1, named("k", KEY_ID, 100), [], "K2"),
        (1, named("k", 5, 100), [], "K2"),
    ]:
        told.put(made(client, key, [*PARAMS, *more]), rule)
    return told.rows


# Restrictions: keys of client 2, of user 1, that work for its user alone, in early boot, while its device is unlocked,
# with a token of the last ten seconds, and once a boot. Client 3 is of user 0, and 4 of user 2. Where nothing else is
# said, a line breaks none of these.

BOUND = [
    ["PURPOSE", 2],
    ["ALGORITHM", 128],
    ["DIGEST", 4],
    ["MIN_MAC_LENGTH", 64],
    ["EARLY_BOOT_ONLY", True],
    ["MAX_USES_PER_BOOT", 1],
    ["USER_ID", 1],
    ["USER_SECURE_ID", 7],
    ["AUTH_TIMEOUT", 10],
    ["UNLOCKED_DEVICE_REQUIRED", True],
]


def bound():
    """Each restriction of a key broken alone, and together with those behind it."""
    told = Answers([1000, 110001, 10001, 210001])
    token = {"challenge": 0, "user": 7, "authenticator": 0, "kind": 1, "time": 5000}
    timely, late = 15000, 15001

    def tried(alias, rule, client=2, boot=timely):
        key = named(alias) if client == 2 else numbered(GRANT, {"used": 0, "fresh": 2}[alias] + client - 2)
        reply = told.put(at(boot, 1000, begin(client, key)), rule)
        if rule is None:
            told.ends(client, reply)

    for alias in ["used", "fresh"]:
        told.put(made(2, named(alias), BOUND))
        for uid in [10001, 210001]:
            told.put(call(2, "grant", key=named(alias), uid=uid, bits=USE))
    told.put(made(2, named("each"), [*MAC_LIST, ["USER_SECURE_ID", 7]]))
    told.put(made(2, named("nobody"), [*MAC_LIST, ["AUTH_TIMEOUT", 10]]))
    told.put(made(2, named("free")))
    told.put(call(1, "addAuthToken", **token, mac=mac_of(DEMO_KEY, token).hex()))
    tried("used", "B14")
    for user in [0, 1]:
        told.put(call(1, "deviceUnlocked", user=user))
    tried("used", "B12", client=3)
    tried("used", "B15", boot=late)
    tried("used", None)
    tried("used", "B16")
    tried("used", "B15", boot=late)
    told.put(call(1, "deviceLocked", user=1))
    tried("used", "B14", boot=late)
    tried("fresh", "B14")
    told.put(call(1, "deviceUnlocked", user=1))
    told.put(call(1, "earlyBootEnded"))
    tried("fresh", "B13")
    told.put(call(1, "deviceLocked", user=1))
    tried("used", "B13", boot=late)
    tried("used", "B12", client=4, boot=late)
    tried("fresh", "B12", client=4, boot=late)
    for alias in ["each", "nobody", "free"]:
        tried(alias, None, boot=late)
    return told.rows


# Steps. A key of each plan, and what begins it: the nonces are given, so that nothing is drawn.

ALL_AES = [
    ["PURPOSE", 0],
    ["PURPOSE", 1],
    ["ALGORITHM", 32],
    ["BLOCK_MODE", 1],
    ["BLOCK_MODE", 2],
    ["BLOCK_MODE", 3],
    ["BLOCK_MODE", 32],
    ["PADDING", 1],
    ["PADDING", 64],
    ["MIN_MAC_LENGTH", 96],
    ["CALLER_NONCE", True],
]
FREE, EACH = ["NO_AUTH_REQUIRED", True], ["USER_SECURE_ID", 7]
ECB, CBC, CTR, GCM = 1, 2, 3, 32
NONCE = {CBC: [["NONCE", "00" * 16]], CTR: [["NONCE", "00" * 16]], GCM: [["NONCE", "00" * 12]], ECB: []}


def cipher(purpose, mode, padding=1, tag=None):
    """The list of a key, its material, and the list that begins an operation."""
    params = [["PURPOSE", purpose], ["BLOCK_MODE", mode], ["PADDING", padding], *NONCE[mode]]
    return ALL_AES, "00" * 16, params if tag is None else [*params, ["MAC_LENGTH", tag]]


PLANS = {
    "sealing": cipher(0, GCM, tag=128),
    "opening": cipher(1, GCM, tag=104),
    "sealing blocks": cipher(0, ECB),
    "plain": cipher(1, ECB),
    "chained": cipher(0, CBC),
    "padding": cipher(0, CBC, 64),
    "unpadding": cipher(1, ECB, 64),
    "counted": cipher(0, CTR),
    "mac": (MAC_LIST, "0b" * 20, [["PURPOSE", 2], ["MAC_LENGTH", 256]]),
    "verify": (MAC_LIST, "0b" * 20, [["PURPOSE", 3]]),
}
IDLE, OTHERS, OUT, KEYLESS, OUT_KEYLESS, OTHERS_OUT = "idle", "others", "out", "keyless", "out, keyless", "others, out"
# The call; the operation's state and plan; the lengths of the text that was admitted and of the input; and the rule
# that is broken.
STEPS = [
    ("update", IDLE, "sealing", 0, 16, None),
    ("updateAad", IDLE, "sealing", 0, 16, None),
    ("abort", IDLE, "sealing", 0, 0, None),
    ("update", OTHERS, "sealing", 0, 16, "S1"),
    ("abort", OTHERS, "sealing", 0, 0, "S1"),
    ("abort", KEYLESS, "sealing", 0, 0, None),
    ("update", OUT, "sealing", 0, 16, "S2"),
    ("update", OUT_KEYLESS, "sealing", 0, 16, "S2"),
    ("update", OTHERS_OUT, "sealing", 0, 16, "S1"),
    ("abort", OUT, "sealing", 0, 0, "S2"),
    ("update", KEYLESS, "sealing", 0, 16, "S4"),
    ("updateAad", KEYLESS, "mac", 0, 16, "S4"),
    ("updateAad", IDLE, "mac", 0, 16, "S6"),
    ("updateAad", IDLE, "counted", 0, 16, "S6"),
    ("updateAad", IDLE, "sealing", 1, 16, "S6"),
    ("updateAad", IDLE, "sealing", 1, 0, "S6"),
    ("update", IDLE, "mac", 0, 16, None),
    ("finish", IDLE, "plain", 0, 0, None),
    ("finish", IDLE, "plain", 16, 15, "S8"),
    ("finish", IDLE, "plain", 17, 15, None),
    ("finish", IDLE, "sealing blocks", 570, 7, "S8"),
    ("finish", IDLE, "sealing blocks", 570, 6, None),
    ("finish", IDLE, "chained", 0, 0, None),
    ("finish", IDLE, "chained", 16, 0, None),
    ("finish", IDLE, "chained", 1, 0, "S8"),
    ("update", IDLE, "chained", 1, 0, None),
    ("finish", IDLE, "padding", 0, 0, None),
    ("finish", IDLE, "padding", 1, 4, None),
    ("finish", IDLE, "unpadding", 0, 0, "S8"),
    ("finish", IDLE, "unpadding", 0, 16, None),
    ("finish", IDLE, "unpadding", 16, 8, "S8"),
    ("finish", IDLE, "unpadding", 24, 8, None),
    ("finish", IDLE, "opening", 12, 0, "S8"),
    ("finish", IDLE, "opening", 0, 13, None),
    ("finish", IDLE, "opening", 1, 17, None),
    ("finish", IDLE, "sealing", 0, 0, None),
    ("finish", IDLE, "counted", 3, 4, None),
    ("finish", IDLE, "mac", 0, 5, None),
    ("finish", IDLE, "verify", 0, 5, None),
]


class Steps(Answers):
    """Steps of client 1, beside a client 2; what is admitted is held, so that its reply tells that alone."""

    def work(self, client, name, op, length, rule=None):
        """A step that is held, and the ticket under which its work goes out, where it is admitted."""
        fields = {} if name == "abort" else {"input": "00" * length, "hold": True}
        return self.put(call(client, name, op=op, **fields), rule).get("ticket")

    def back(self, ticket):
        """A work is put back; its output may be refused, by no rule."""
        line = {"t": [0, 1000], "do": "leave", "ticket": ticket}
        reply = json.loads(reply_line(self.service, text_of(line).removesuffix("\n").encode()))
        self.rows.append((line, reply))

    def step(self, row, restriction):
        name, state, plan, text, length, rule = row
        params, material, begins = PLANS[plan]
        self.put(made(1, named("k"), [*params, restriction], material=material))
        reply = self.put(begin(1, named("k"), begins))
        waits = restriction == EACH
        if text and not waits:
            self.back(self.work(1, "update", reply["op"], text))
        out = self.work(1, "update", reply["op"], 16) if "out" in state else None
        if "keyless" in state:
            self.put(call(1, "deleteKey", key=named("k")))
        if waits and name != "abort" and rule not in ("S1", "S2", "S4"):
            rule = "S5"
        ticket = self.work(2 if "others" in state else 1, name, reply["op"], length, rule)
        for it in [out, ticket]:
            if it is not None:
                self.back(it)
        self.ends(1, reply)


def steps():
    """Each rule of a step alone and before a later one; then where the operation waits for its token, which comes
    before the last."""
    told = Steps([10001, 10002])
    for row in STEPS:
        told.step(row, FREE)
    for row in STEPS:
        # no work of an operation that waits for its token is out
        if "out" not in row[1]:
            told.step(row, EACH)
    return told.rows


def main():
    into = folder_of(__doc__)
    write(into, "domain-rights", rights())
    write(into, "bound-keys", bound())
    write(into, "step-rules", steps())
