"""Services in folders with a device and a policy of their own, and without, have what their process was handed: the
device, the policy, both clocks of the machine, and its random device.

Of each service: rows of its policy, and of no other; a key that has expired by the wall clock, one that has not, and
one that is not active yet; a token that opens a key, ages by the boot clock and opens it no more, one of a later
time, and one of another device. A service of the same device that is started again on a store of its own draws other
bytes. Good frames that come in a later piece, behind a bad one, are not answered. Where the Python package
`cryptography` is there, a blob of each device begins on its own device alone."""
import json
import time

from keystore.cases import HAS_CIPHERS, Case, each, needs_ciphers
from keystore.device import versions_of
from keystore.harness import check
from keystore.runs import PATIENCE, make_store, once_it_listens, service
from keystore.session import BAD_FRAMES, CLIENT, CONNECT, SESSION, replies_to
from keystore.tokens import DEMO_KEY, mac_of
from keystore_client import Client, Key, ServiceError, parameters

if HAS_CIPHERS:
    from keystore import blobs

OWN_DEVICE = bytes(range(96))
DEMO_DEVICE = b"\1" * 32 + b"\2" * 32 + b"\3" * 32 + bytes.fromhex("000222e0000316a6")
OTHER_DEVICE = bytes(range(1, 97))
# USE, GET_INFO, DELETE and MANAGE_BLOB, and what else a row may have.
EVERY_BIT = 511
SYSTEM, DEMO_NAMESPACE, OWN_NAMESPACE = 1000, 100, 7
POLICY = json.dumps([[SYSTEM, OWN_NAMESPACE, EVERY_BIT]]).encode()
KEY = b"\x0b" * 20
MAC = {"PURPOSE": [2, 3], "ALGORITHM": 128, "DIGEST": [4], "MIN_MAC_LENGTH": 64}
FREE = {**MAC, "NO_AUTH_REQUIRED": True}
SIGNING = parameters(PURPOSE=[2], MAC_LENGTH=256)
SEALING = parameters(PURPOSE=[0], BLOCK_MODE=[32], PADDING=[1], MAC_LENGTH=128)
DRAWN = {
    "PURPOSE": [0, 1],
    "ALGORITHM": 32,
    "KEY_SIZE": 256,
    "BLOCK_MODE": [32],
    "PADDING": [1],
    "MIN_MAC_LENGTH": 128,
    "NO_AUTH_REQUIRED": True,
}
USER = 7
# How long a token opens a key, in seconds, and how long one waits for its end: no begin comes within the rest.
OPEN, LATER = 2, 3.0
HOUR = 3_600_000


def wall():
    """Milliseconds since 1970."""
    return time.time_ns() // 1_000_000


def boot():
    """Milliseconds of the clock that a token's time is read by."""
    return time.clock_gettime_ns(time.CLOCK_MONOTONIC) // 1_000_000


def answer(call, *words):
    """The fields of an admitted call, or the code and the rule of a refused one."""
    try:
        return call(*words).fields
    except ServiceError as error:
        return error.code, error.rule


def is_admitted(told):
    return isinstance(told, dict)


def connected(port, uid):
    return Client.connect(uid, port=port, timeout=PATIENCE, patience=PATIENCE)


def check_policy(client, own, other):
    """Its rows are those of its process."""

    def key(namespace):
        return Key(domain=3, nspace=namespace)

    check("a namespace of the policy", is_admitted(answer(client.importKey, key(own), parameters(**FREE), KEY)), True)
    check("a namespace of no row", answer(client.importKey, key(other), parameters(**FREE), KEY), (6, "K3"))


def check_wall(client):
    """Dates are read by the machine's wall clock."""
    cases = [
        ("expired", {"ORIGINATION_EXPIRE_DATETIME": wall() - HOUR}, (-25, "B11")),
        ("lasting", {"ORIGINATION_EXPIRE_DATETIME": wall() + HOUR}, None),
        ("early", {"ACTIVE_DATETIME": wall() + HOUR}, (-24, "B10")),
        ("active", {"ACTIVE_DATETIME": wall() - HOUR}, None),
    ]
    for alias, dates, refusal in cases:
        client.importKey(Key(alias=alias), parameters(**FREE, **dates), KEY)
        told = answer(client.createOperation, Key(alias=alias), SIGNING)
        check(alias, is_admitted(told) or told, refusal or True)


def add_token(client, secret, moment):
    token = {"challenge": 0, "user": USER, "authenticator": 0, "kind": 1, "time": moment}
    return answer(client.addAuthToken, *token.values(), mac_of(secret, token))


def check_boot(client, secret, others):
    """Tokens are those of the device's authenticators, and age by the machine's boot clock."""
    client.importKey(
        Key(alias="opened"), parameters(**MAC, USER_SECURE_ID=[USER], USER_AUTH_TYPE=1, AUTH_TIMEOUT=OPEN), KEY
    )

    def begin():
        return answer(client.createOperation, Key(alias="opened"), SIGNING)

    check("without a token", begin(), (-26, "B15"))
    for other in others:
        check("a token of another device", (add_token(client, other, boot()), begin()), ((-30, "A7"), (-26, "B15")))
    check("a token of a later time", (add_token(client, secret, boot() + HOUR), begin()), ({}, (-26, "B15")))
    check("a token of this time", (add_token(client, secret, boot()), is_admitted(begin())), ({}, True))
    time.sleep(LATER)
    check("a token that has aged", begin(), (-26, "B15"))


def check_blobs(client, device, namespace):
    """A blob begins on its own device alone."""
    for maker, refusal in [(device, None), (OTHER_DEVICE, (-33, "B7")), (device[:32] + OTHER_DEVICE[32:], (-33, "B8"))]:
        encoded = blobs.with_versions(parameters(**FREE), *versions_of(device))
        key = Key(domain=3, nspace=namespace, blob=blobs.blob_of(encoded, KEY, device=maker))
        told = answer(client.createOperation, key, SIGNING)
        check("a blob", is_admitted(told) or told, refusal or True)


def drawn_by(client, namespace):
    """Bytes that a service drew: a nonce, and two keys that are sealed."""
    client.generateKey(Key(alias="drawn"), parameters(**DRAWN))
    nonce = client.createOperation(Key(alias="drawn"), SEALING).nonce
    made = [client.generateKey(Key(domain=3, nspace=namespace), parameters(**DRAWN)).blob for _ in range(2)]
    check("what is drawn twice", made[0] == made[1], False)
    return [nonce, *made]


class Served(Case):
    def service(self, files, connections=1):
        """A service on an empty store in a folder with these files; gives its port."""
        for name, content in files.items():
            (self.folder / name).write_bytes(content)
        make_store(self.program, self.folder)
        return service(self.program, self.folder, connections)


# A device, the files that a process is handed, a namespace of its policy, and one of another.
DEVICES = {
    "a device of its own": (
        OWN_DEVICE,
        {"device.key": OWN_DEVICE, "policy.json": POLICY},
        OWN_NAMESPACE,
        DEMO_NAMESPACE,
    ),
    "the demo device": (DEMO_DEVICE, {}, DEMO_NAMESPACE, OWN_NAMESPACE),
}


@each([(name, *row) for name, row in DEVICES.items()])
class Policy(Served):
    def show(self, _device, files, own, other):
        with self.service(files) as port, connected(port, SYSTEM) as client:
            check_policy(client, own, other)


@each([(name, *row) for name, row in DEVICES.items()])
class Clocks(Served):
    def show(self, device, files, _own, _other):
        with self.service(files) as port, connected(port, SYSTEM) as client:
            check_wall(client)
            check_boot(
                client,
                device[32:64],
                [it for it in (OTHER_DEVICE[32:64], device[:32], DEMO_KEY) if it != device[32:64]],
            )


@needs_ciphers
@each([(name, *row) for name, row in DEVICES.items()])
class Blobs(Served):
    def show(self, device, files, own, _other):
        with self.service(files) as port, connected(port, SYSTEM) as client:
            check_blobs(client, device, own)


@each([(name, *row) for name, row in DEVICES.items()])
class Drawn(Served):
    """A service that is started again on a store of its own draws other bytes."""

    def show(self, _device, files, own, _other):
        drawn = []
        for _ in range(2):
            with self.service(files) as port, connected(port, SYSTEM) as client:
                drawn += drawn_by(client, own)
        check("bytes that come again", len(set(drawn)), len(drawn))


@each(BAD_FRAMES.items())
class BehindABadFrame(Served):
    """Nothing is answered there, also where it comes in a later piece."""

    def show(self, bad):
        good = b"".join(request for request, _ in SESSION[1:])
        with self.service({}, 2) as port:
            check("good frames behind it", once_it_listens(replies_to, port, CONNECT + bad, good), CLIENT)
            check("a session behind it", replies_to(port, CONNECT + bad, CONNECT + good), CLIENT)
