"""Makes the scripts of random_scripts.py, line by line, each with an eye on what the model's service holds by then."""
import copy
import json
import re
from dataclasses import replace

from cryptography.hazmat.primitives.keywrap import aes_key_wrap

from keystore.blobs import list_of, seal, text_of as sealed_text
from keystore.device import DEMO_DEVICE
from dialog import OPEN, Told
from keystore.tokens import DEMO_KEY, mac_of
from model.blobs import opened_blob
from model.outputs import gcm_sealed, raw_output, whole_output
from model.values import (
    APP,
    BLOB,
    DEMO_ROOT,
    DEMO_SEAL_KEY,
    DEMO_VERSIONS,
    DIGEST_BITS,
    GCM,
    GRANT,
    KEY_ID,
    MOST_OPERATION_BYTES,
    MOST_SLOTS,
    MOST_STEP_BYTES,
    SELINUX,
    WRAP_KEY,
    WRAPPED_SIZES,
    Denied,
)
from keystore.lists import read_list
from keystore.script_events import Malformed, encoded_list, event_of
from make.script_lists import (
    AES_LIST,
    HMAC_LIST,
    KINDS,
    SECURE_IDS,
    TIMEOUTS,
    TWICE_LIST,
    WAITING_LIST,
    WRAP_LIST,
    ListMaker,
)
from model.second_model import Service, reply_line

# How many lines are tried for a script.
LINES_TRIED = 150

# The readings of the wall clock, among which stand the dates of keys, and those of the boot clock.
WALLS = [0, 1000, 1000, 1000, 1001]
BOOTS = [0, 5, 5000, 18446744073709551615]
INPUT_SIZES = [0, 1, 7, 15, 16, 17, 32, 33, 48, 64]
MOST_REMEMBERED = 6

# Two apps and the system of user 0, whose last uid is 99999; an app and the first uid of user 1; and the last uid of
# all.
UIDS = [10001, 10002, 1000, 110001, 99999, 100000, 4294967295]
USERS = [0, 0, 1, 2, 42949, 42950]
# Aliases that are fronts of one another, and such as are ordered by their bytes.
ALIASES = ["a", "b", "c", "aa", "a\u00e9", "\ufb01", "\U0001f511"]
# What may be granted: single bits, what an app has but GRANT, what it lacks, and GRANT.
GRANTED_BITS = [256, 4, 1, 260, 421, 0, 0, 320, 64, 16, 8, 264, 429, 2, 4294967295]

# Lines that spell no event, and connects with a member more, some of them beyond what JSON or its reader takes.
ODD_LINES = [
    b"",
    b"{}",
    b"[1]",
    b"\xff",
    b'{"t":[0,1],"do":"connect"}',
    b'{"t":[0,1],"do":"restart","root":"00"}',
    b'{"t":[0,1],"c":1,"do":"leave"}',
    b'{"t":[0,1000],"c":1,"do":"createOperation","key":{"domain":0,"alias":"a"},"forced":true}',
]
MORE_MEMBERS = [
    b'"uid":"10001"',
    b'"uid":10002',
    b'"x":' + b"[" * 126 + b"]" * 126,
    b'"x":' + b"[" * 127 + b"]" * 127,
    b'"x":1e400',
    b'"x":1e-400',
    b'"x":' + b"9" * 400,
    b'"x":NaN',
    b'"x":01',
    b'"x":"\\ud800"',
    b'"x":"\\ud83d\\ude00"',
    b'"x":"\t"',
]
ODD_LINES += [b'{"t":[0,1],"do":"connect","uid":10001,' + member + b"}" for member in MORE_MEMBERS]


def text_of(members):
    return json.dumps(members, separators=(",", ":")).encode()


def shows_drawn_bytes(service, line):
    """Whether the reply to a line would tell drawn bytes, or the line would make a key of them that can be used."""
    try:
        event = event_of(line)
    except Malformed:
        return False
    if event["act"] not in ("generateKey", "createOperation"):
        return False
    reply = copy.deepcopy(service).reply(event)
    return (
        "nonce" in reply
        or event["act"] == "generateKey"
        and reply["code"] == 0
        and "PURPOSE" in read_list(event["params"])
    )


def without_drawn(reply):
    """A reply in which a drawn challenge is a question mark, and so is each digit of a blob behind its start."""
    reply = re.sub(rb'"challenge":[0-9]+', b'"challenge":?', reply)
    return re.sub(rb'("blob":"4b534231)([0-9a-f]*)', lambda found: found[1] + b"?" * len(found[2]), reply)


def opened_or_none(blob):
    """What a blob opens to on the demo device, whoever asks."""
    try:
        return opened_blob(DEMO_SEAL_KEY, blob)
    except Denied:
        return None


class Maker(ListMaker):
    """Makes one script and its number of slots, line by line, each with an eye on what the model's service holds by
    then."""

    def __init__(self, seed, store=None, versions=DEMO_VERSIONS):
        super().__init__(seed)
        self.slots = self.random.choice([1, 2, 3, 5, 16, 16, self.random.randint(17, MOST_SLOTS)])
        self.service = Service(slots=self.slots, store=store, versions=versions)
        self.outputs = []
        self.told = Told()
        self.lines = []
        self.replies = []

    def put(self, line):
        """Puts a line into the script, unless drawn bytes could be seen."""
        spoken = self.told.filled(line)
        if shows_drawn_bytes(self.service, spoken):
            return
        reply = reply_line(self.service, spoken)
        self.told.note(reply)
        self.lines.append(line)
        self.replies.append(without_drawn(reply))
        output = json.loads(reply).get("out", "")
        if 0 < len(output) <= 2 * max(INPUT_SIZES):
            self.outputs = [*self.outputs, output][-MOST_REMEMBERED:]

    def script(self):
        """Puts all lines: clients, a key of AES, three of HMAC, one of which wants tokens and one has two uses, one
        that wraps for each app, and then anything."""
        self.connect_clients()
        keys = (
            (1, "a", AES_LIST, "00" * 16),
            (2, "a", HMAC_LIST, "0b" * 20),
            (2, "b", WAITING_LIST, "0b" * 20),
            (1, "c", TWICE_LIST, "0b" * 20),
            *((client, "w", WRAP_LIST, "07" * 16) for client in (1, 2, 4)),
        )
        for client, alias, params, material in keys:
            members = {"t": [0, 0], "c": client, "do": "importKey", "key": {"domain": 0, "alias": alias}}
            self.put(text_of({**members, "params": params, "format": 3, "material": material}))
        for _ in range(LINES_TRIED):
            self.put(self.line())
            if self.service.operations and self.chance(0.0005):
                self.fill(self.random.choice(list(self.service.operations)))
            if self.chance(0.001):
                self.fill_tokens()
            if self.chance(0.004):
                self.restart()

    def connect_clients(self):
        for uid in (10001, 10002, 10001, 1000, *self.random.sample(UIDS, self.random.randrange(4))):
            self.put(text_of({"t": [0, 0], "do": "connect", "uid": uid}))

    def restart(self):
        """Restarts, seldom under another root of trust, a few lines before clients are there again."""
        members = {"t": [self.boot(), self.random.choice(WALLS)], "do": "restart"}
        if self.chance(0.3):
            members["root"] = self.random.choice([DEMO_ROOT, DEMO_ROOT, bytes(32)]).hex()
        self.put(text_of(members))
        for _ in range(self.random.randrange(3)):
            self.put(self.line())
        self.connect_clients()

    def descriptor(self):
        """A descriptor, mostly of an app's own key, and of a namespace, a grant or a number else."""
        key = {"domain": APP, "alias": self.random.choice("abc" if self.chance(0.8) else ALIASES)}
        kind = self.random.random()
        if kind < 0.1:
            key["domain"] = SELINUX
            key["nspace"] = self.random.choice([100, 100, 100, 100, 101, 0])
        elif kind < 0.2:
            key = {"domain": GRANT, "nspace": self.random.choice(list(self.service.store.grants) or [1])}
        elif kind < 0.3:
            key = {"domain": KEY_ID, "nspace": self.random.randrange(len(self.service.store.made) + 2)}
        elif kind < 0.33:
            key["domain"] = self.random.choice([GRANT, BLOB, KEY_ID, 5, 9])
        elif kind < 0.36:
            key["nspace"] = self.random.choice([0, 1, 100])
        if self.chance(0.02):
            key.pop("alias", None)
        if self.chance(0.02):
            key["alias"] = self.random.choice(["", "a" * 256, "a" * 257, "\u00e9" * 128, "\u00e9" * 129])
        if self.chance(0.02):
            key["blob"] = self.random.choice(["", "00"])
        return key

    def found(self, client, descriptor):
        """The key that a client's descriptor finds, or None."""
        alias = descriptor.get("alias")
        read = {"nspace": 0, **descriptor, "alias": None if alias is None else alias.encode()}
        return self.service.store.access(self.service.uid_of(client), read)[0]

    def client(self):
        """The number of a client that is connected, rarely of one that may not be."""
        uids = self.service.uids
        if self.chance(0.05):
            return self.random.randrange(len(uids) + 2)
        connected = [number for number, uid in enumerate(uids, 1) if uid is not None]
        return self.random.choice(connected or [1])

    def new_name(self, members):
        """A descriptor for a new key, mostly one that can be made."""
        if self.chance(0.15):
            self.as_system(members)
            return self.place_of_blobs()
        key = self.descriptor()
        return key if key["domain"] in (APP, SELINUX) or self.chance(0.2) else {"domain": APP, "alias": "a"}

    def new_key(self, members):
        """Imports a key, or generates one that has no purpose."""
        is_aes = self.chance(0.6)
        params, size = self.new_list(is_aes), self.size(is_aes)
        members["key"] = self.new_name(members)
        if self.chance(0.85):
            members["do"] = "importKey"
            members["params"] = self.spelled(params)
            members["format"] = 3 if self.chance(0.97) else 1
            members["material"] = self.random.choice(["00", "07"]) * size
        else:
            members["do"] = "generateKey"
            params = [pair for pair in params if pair[0] != "PURPOSE"] + [["KEY_SIZE", 8 * size]]
            members["params"] = self.spelled(params)

    def place_of_blobs(self):
        """A descriptor of domain BLOB, mostly in the namespace whose blobs the system may manage."""
        key = {"domain": BLOB, "nspace": self.random.choice([100] * 9 + [0, 101])}
        return {**key, "alias": "a"} if self.chance(0.1) else key

    def versions(self):
        """The versions in a list that was made elsewhere: mostly the device's, else one above or below, or none."""
        pairs = [["OS_VERSION", self.service.versions[0]], ["OS_PATCHLEVEL", self.service.versions[1]]]
        if self.chance(0.7):
            return pairs
        pairs = [[name, max(0, value + self.random.choice([-1, 0, 1]))] for name, value in pairs]
        return [pair for pair in pairs if self.chance(0.8)]

    def foreign_blob(self):
        """A blob that was made elsewhere, often with a fault."""
        is_aes = self.chance(0.6)
        params = self.new_list(is_aes) + ([["USAGE_COUNT_LIMIT", self.random.randrange(3)]] if self.chance(0.2) else [])
        ids = dict(self.ids())
        app_id, app_data = (
            bytes.fromhex(ids[name]) if name in ids else None for name in ("APPLICATION_ID", "APPLICATION_DATA")
        )
        root = self.one_bit_off(DEMO_ROOT) if self.chance(0.05) else DEMO_ROOT
        params += self.versions()
        encoded = encoded_list(params) if self.chance(0.03) else list_of(params)
        material = bytes([self.random.choice([0, 7])]) * self.size(is_aes)
        text = sealed_text(root, app_id, app_data, encoded, material)
        if self.chance(0.05):
            text = self.random.choice([text[: self.random.randrange(len(text))], text + b"\0", self.one_bit_off(text)])
        blob = seal(DEMO_DEVICE if self.chance(0.97) else DEMO_DEVICE[32:] + DEMO_ROOT, self.random.randbytes(12), text)
        return self.one_bit_off(blob) if self.chance(0.05) else blob

    def use_blob(self, members):
        """Names a blob that the service made, or one that was made elsewhere; what it opens to, where it does."""
        self.as_system(members)
        key = members["key"] = self.place_of_blobs()
        lines = list(self.told.blobs)
        if lines and self.chance(0.6):
            line = self.random.choice(lines)
            key["blob"], blob = f"line {line}", self.told.blobs[line]
            if self.chance(0.1):
                members["flip"] = self.random.randrange(8 * len(blob))
        else:
            blob = self.foreign_blob()
            key["blob"] = blob.hex()
        return opened_or_none(blob)

    def own_name(self, client, is_wanted=lambda key: True):
        """The name of a key of the client's app that is wanted so, where it has one."""
        keys = self.service.store.keys_of((APP, self.service.uid_of(client)))
        aliases = [key.alias for key in keys if is_wanted(key)]
        return {"domain": APP, "alias": self.random.choice(aliases).decode() if aliases else "a"}

    def use_stored(self, members):
        """Names a stored key; what its blob opens to, where it is there."""
        members["key"] = self.descriptor()
        key = self.found(members["c"], members["key"])
        if key is None and self.chance(0.8):
            members["key"] = self.own_name(members["c"])
            key = self.found(members["c"], members["key"])
        return None if key is None else opened_or_none(key.blob)

    def begin(self, members):
        """Begins an operation, mostly under a key that is there."""
        members["do"] = "createOperation"
        opened = self.use_blob(members) if self.chance(0.15) else self.use_stored(members)
        members["params"] = self.spelled(self.edited(self.asked_list(opened), 0.2))
        if self.chance(0.12):
            members["forced"] = self.chance(0.9)

    def upgrade(self, members):
        """Upgrades a key, mostly one that is there and with the ids for which its blob was made."""
        members["do"] = "upgradeKey"
        opened = self.use_blob(members) if self.chance(0.3) else self.use_stored(members)
        named = () if opened is None else (("APPLICATION_ID", opened.app_id), ("APPLICATION_DATA", opened.app_data))
        ids = [[name, value.hex()] for name, value in named if value is not None]
        members["params"] = self.spelled(self.edited(ids, 0.1))

    def wrapped_key(self, members):
        """Imports a key that comes wrapped, mostly under one that wraps and so that it opens."""
        is_aes = self.chance(0.6)
        members["key"] = self.new_name(members)
        members["do"] = "importWrappedKey"
        members["params"] = self.spelled(self.new_list(is_aes))
        opened = self.use_wrapping(members)
        text = bytes([self.random.choice([0, 7])]) * self.text_size(is_aes)
        members["wrapped"] = self.wrapped(opened, text).hex()
        ids = self.spelled(self.edited(self.ids_of(opened), 0.1))
        if ids or self.chance(0.5):
            members["unwrapping"] = ids

    def use_wrapping(self, members):
        """Names the key under which another one comes; what its blob opens to, where it is there."""
        members["wrapping"] = self.descriptor()
        if self.chance(0.9):
            members["wrapping"] = self.own_name(
                members["c"], lambda key: WRAP_KEY in key.params.get("PURPOSE", []) or self.chance(0.01)
            )
        key = self.found(members["c"], members["wrapping"])
        if key is not None and self.chance(0.2):
            members["wrapping"] = {"domain": KEY_ID, "nspace": key.number}
        return None if key is None else opened_or_none(key.blob)

    def wrapped(self, opened, text):
        """A text wrapped under an opened key, where it may be; seldom with a wrong bit, and else bytes that open to
        nothing."""
        can_wrap = opened is not None and len(opened.material) in (16, 24, 32) and len(text) + 8 in WRAPPED_SIZES
        if not can_wrap or self.chance(0.05):
            return bytes(len(text) + 8)
        wrapped = aes_key_wrap(opened.material, text)
        return self.one_bit_off(wrapped) if self.chance(0.05) else wrapped

    def some_uid(self):
        """Mostly the uid of a client, so that a grant can be used."""
        uids = [uid for uid in self.service.uids if uid is not None]
        return self.random.choice(uids if uids and self.chance(0.8) else UIDS)

    def call_on_key(self, members):
        """Asks for a key, ends it, or shares it."""
        members["do"] = self.random.choices(["getKeyEntry", "deleteKey", "grant", "ungrant"], [8, 3, 12, 4])[0]
        members["key"] = self.descriptor()
        if self.found(members["c"], members["key"]) is None and self.chance(0.5):
            members["key"] = {"domain": APP, "alias": "a"}
        if members["do"] == "getKeyEntry" and self.chance(0.5):
            members["key"] = self.own_name(members["c"], lambda key: key.uses is not None)
        if members["do"] in ("grant", "ungrant"):
            members["uid"] = self.some_uid()
        if members["do"] == "grant":
            members["bits"] = self.random.choice(GRANTED_BITS)

    def call_on_owner(self, members):
        """Counts or lists the keys of an owner."""
        members["do"] = self.random.choice(["getNumberOfEntries", "listEntriesBatched"])
        members["domain"] = self.random.choice([APP, APP, APP, SELINUX, SELINUX, SELINUX, GRANT, KEY_ID, 9])
        if members["domain"] == SELINUX or self.chance(0.1):
            members["nspace"] = self.random.choice([100, 100, 100, 101, 0, 10001])
        if members["do"] == "listEntriesBatched" and self.chance(0.5):
            members["past"] = self.random.choice([*ALIASES, "", "\u007f", "a\u00ea", "b\u0000"])

    def as_system(self, members):
        """Mostly the client that a call of the system wants."""
        system = [number for number, uid in enumerate(self.service.uids, 1) if uid == 1000]
        if system and self.chance(0.85):
            members["c"] = self.random.choice(system)

    def boot(self):
        """A reading of the boot clock, often at the edge of what a token is good for."""
        tokens = list(self.service.tokens.last.values())
        if not tokens or self.chance(0.5):
            return self.random.choice(BOOTS)
        edge = (
            self.random.choice(tokens)["time"] + 1000 * self.random.choice(TIMEOUTS) + self.random.choice([-1, 0, 0, 1])
        )
        return min(max(edge, 0), BOOTS[-1])

    def token(self, members):
        """Brings a token, mostly a right one, and often with the challenge of an operation that waits for it."""
        self.as_system(members)
        members.update(do="addAuthToken", challenge=self.random.choice([0, 1, 7]), time=self.boot())
        members["user"] = self.random.choice([*SECURE_IDS, 9])
        members["authenticator"] = self.random.choice([0, 1, 1, 7, 8])
        members["kind"] = self.random.choice(KINDS)
        known = [number for number in self.told.challenges if number in self.service.operations or self.chance(0.1)]
        if known and self.chance(0.7):
            members["challenge"] = f"op {self.random.choice(known)}"
            if self.chance(0.1):
                members["flip"] = self.random.randrange(256)
            return
        mac = mac_of(DEMO_KEY, members)
        members["mac"] = (self.one_bit_off(mac) if self.chance(0.1) else mac).hex()

    def fill_tokens(self):
        """Brings as many tokens as are kept, and some more, of users of their own."""
        for user in range(100, 360):
            members = {
                "t": [0, 0],
                "c": 4,
                "do": "addAuthToken",
                "challenge": 0,
                "user": user,
                "authenticator": 0,
                "kind": 1,
                "time": 0,
            }
            self.put(text_of({**members, "mac": mac_of(DEMO_KEY, members).hex()}))

    def call_of_device(self, members):
        """Locks or unlocks a user's device, or seldom ends early boot."""
        self.as_system(members)
        members["do"] = self.random.choices(["deviceUnlocked", "deviceLocked", "earlyBootEnded"], [12, 5, 2])[0]
        if members["do"] != "earlyBootEnded":
            members["user"] = self.random.choice(USERS)

    def call_of_system(self, members):
        """Ends the keys of an owner or of a user, mostly as the system; seldom, so that keys live for a while."""
        self.as_system(members)
        if self.chance(0.5):
            members["do"] = "userRemoved"
            members["user"] = self.random.choice([1, 1, *USERS])
            return
        members["do"] = "clearNamespace"
        members["domain"] = self.random.choice([APP, APP, SELINUX, SELINUX, GRANT, BLOB])
        members["nspace"] = self.random.choice([100, 101, *UIDS, 4294967295, 4294967296])

    def input(self):
        """Hex text: often what an operation gave, rarely as much as one step may have or a byte more."""
        if self.outputs and self.chance(0.32):
            return self.random.choice(self.outputs)
        if self.chance(0.004):
            return "00" * (MOST_STEP_BYTES + self.random.randrange(2))
        size = self.random.choice(INPUT_SIZES)
        return "00" * size if self.chance(0.45) else self.random.randbytes(size).hex()

    def step(self, members):
        """Takes a step of an operation, mostly of one that is open and the client's own."""
        number = self.random.randrange(self.service.begun + 2)
        if self.service.operations and self.chance(0.9):
            number = self.random.choice(list(self.service.operations))
        operation = self.service.operations.get(number)
        if operation is not None and self.chance(0.93):
            members["c"] = operation.client
        members["do"] = self.random.choices(["updateAad", "update", "finish", "abort"], [10, 25, 25, 5])[0]
        members["op"] = number
        if members["do"] in ("updateAad", "update"):
            members["input"] = self.input()
        if members["do"] == "finish":
            members.update(self.end(operation))
        if members["do"] != "abort" and self.chance(0.25):
            members["hold"] = self.chance(0.9)

    def leave(self, members):
        """Brings back a work that is out, or rarely one that may not be."""
        del members["c"]
        members["do"] = "leave"
        members["ticket"] = self.random.randrange(self.service.tickets + 2)
        if self.service.out and self.chance(0.9):
            members["ticket"] = self.random.choice(list(self.service.out))

    def end(self, operation):
        """What a finish is given: for half of the openings and verifications what ends them well, or nearly so."""
        if operation is not None and not operation.plan.is_forward and self.chance(0.5):
            members = self.suiting_end(operation)
            if members and self.chance(0.2):
                name, value = members.popitem()
                members[name] = self.one_bit_off(value)
            return {name: value.hex() for name, value in members.items()}
        members = {}
        if self.chance(0.7):
            members["input"] = self.input()
        if self.chance(0.3):
            members["signature"] = self.input()
        return members

    def suiting_end(self, operation):
        """What ends an opening or a verification well, as bytes; nothing where that cannot be told."""
        plan = operation.plan
        text = self.random.randbytes(self.random.choice(INPUT_SIZES))
        if plan.mode is None:
            size = self.random.randint(plan.least_mac_bytes, DIGEST_BITS[plan.digest] // 8)
            signing = replace(operation, plan=replace(plan, is_forward=True, mac_bytes=size))
            return {"input": text, "signature": whole_output(signing, operation.text + text, None)}
        if plan.mode == GCM:
            opened = raw_output(operation, operation.text + text)
            return {"input": text + gcm_sealed(operation, opened)[1][: plan.mac_bytes]}
        if plan.is_padded and len(operation.text) % 16 == 0:
            block_before = operation.text[-16:] or operation.nonce
            sealing = replace(operation, plan=replace(plan, is_forward=True), nonce=block_before)
            return {"input": whole_output(sealing, text, None)}
        return {}

    def fill(self, number):
        """Gives an operation as much input as one may have, or ends it by more; additional data where it takes any."""
        operation = self.service.operations[number]
        if operation.work is not None:
            return
        act = "updateAad" if operation.plan.mode == GCM and not operation.text else "update"
        members = {"t": [0, 0], "c": operation.client, "do": act, "op": number, "input": "00" * MOST_STEP_BYTES}
        for _ in range(MOST_OPERATION_BYTES // MOST_STEP_BYTES):
            if number in self.service.operations:
                self.put(text_of(members))

    def spoiled(self, members):
        """The text of a line with a member that is missing or of another kind, or with another byte."""
        kind = self.random.random()
        if kind < 0.5:
            name = self.random.choice(list(members))
            members[name] = self.random.choice([None, True, 0, -1, 1.5, 1 << 32, 1 << 64, "", "0", [], {}])
            if kind < 0.2:
                del members[name]
            return text_of(members)
        line = bytearray(text_of(members))
        line[self.random.randrange(len(line))] = self.random.choice(b'\0\t "0129:,[]{}\\\x7f\xc3\xff-.eEnt')
        return bytes(line)

    def line(self):
        """One line, of any act that is built."""
        kind = self.random.random()
        if kind < 0.01:
            return self.random.choice(ODD_LINES)
        members = {"t": [self.boot(), self.random.choice(WALLS)], "c": self.client()}
        if kind < 0.04:
            members["do"] = "connect"
            members["uid"] = self.random.choice([10001, 10002, *UIDS])
        elif kind < 0.045:
            members["do"] = "disconnect"
        elif kind < 0.13:
            self.new_key(members)
        elif kind < 0.14:
            self.upgrade(members)
        elif kind < 0.16:
            self.wrapped_key(members)
        elif kind < 0.23:
            self.call_on_key(members)
        elif kind < 0.255:
            self.call_on_owner(members)
        elif kind < 0.26:
            self.call_of_system(members)
        elif kind < 0.27:
            self.call_of_device(members)
        elif kind < 0.33:
            self.token(members)
        elif kind < 0.49 or len(self.service.operations) < min(4, self.slots) and self.chance(0.7):
            self.begin(members)
        elif kind < 0.56 or self.service.out and self.chance(0.2):
            self.leave(members)
        else:
            self.step(members)
        line = text_of(members)
        return self.spoiled(members) if self.chance(0.02) and OPEN.search(line) is None else line
