"""The words of second_model.py: the numbers of the rules, and the keys, grants and operations that a service holds."""
from __future__ import annotations

from dataclasses import dataclass
from typing import Any

from keystore.lists import Params

# What a key that is kept in a blob alone cannot have.
TAGS_OF_STORED_KEYS = ["USAGE_COUNT_LIMIT", "MAX_USES_PER_BOOT"]
# What a key that wraps others cannot have.
TAGS_OF_NO_WRAPPING_KEY = [
    "EARLY_BOOT_ONLY",
    "ACTIVE_DATETIME",
    "ORIGINATION_EXPIRE_DATETIME",
    "USAGE_EXPIRE_DATETIME",
    "MAX_USES_PER_BOOT",
    "USAGE_COUNT_LIMIT",
    "USER_ID",
    "USER_SECURE_ID",
    "USER_AUTH_TYPE",
    "AUTH_TIMEOUT",
    "UNLOCKED_DEVICE_REQUIRED",
]

AES, HMAC = 32, 128
ENCRYPT, DECRYPT, SIGN, VERIFY = range(4)
WRAP_KEY = 5
ECB, CBC, CTR, GCM = 1, 2, 3, 32
NO_PADDING, PKCS7 = 1, 64
RAW = 3
# The purposes that a key may have, and those of an operation.
KEY_PURPOSES = {AES: (ENCRYPT, DECRYPT, WRAP_KEY), HMAC: (SIGN, VERIFY)}
PURPOSES = {AES: (ENCRYPT, DECRYPT), HMAC: (SIGN, VERIFY)}
DIGEST_NAMES = {3: "sha224", 4: "sha256", 5: "sha384", 6: "sha512"}
DIGEST_BITS = {3: 224, 4: 256, 5: 384, 6: 512}
NONCE_BYTES = {CBC: 16, CTR: 16, GCM: 12}

MOST_LIST_BYTES = 4096
MOST_ID_BYTES = 1024
# The most bytes of a list that a key keeps, and of a blob.
MOST_KEPT_BYTES, MOST_BLOB_BYTES = 4140, 6327
# The lengths of a wrapped key: those of two to eight parts of a text, and of the one before them.
WRAPPED_SIZES = range(24, 73, 8)
MOST_STEP_BYTES = 32768
MOST_OPERATION_BYTES = 1048576

APP, GRANT, SELINUX, BLOB, KEY_ID = range(5)
DELETE, GET_INFO, MAY_GRANT, MANAGE_BLOB, REBIND, REQ_FORCED_OP, UPDATE, USE = 1, 4, 8, 16, 32, 64, 128, 256
APP_BITS = DELETE | GET_INFO | MAY_GRANT | REBIND | UPDATE | USE
SYSTEM_UID = 1000
UIDS_OF_A_USER = 100000
MOST_UID = 4294967295
MOST_USER = MOST_UID // UIDS_OF_A_USER
MOST_KEYS = MOST_GRANTS = 65536
MOST_LISTED = 256
MOST_SLOTS = 1024
# The last tokens that are kept, of as many triples of a user, an authenticator and a kind; and the bytes of a
# challenge.
MOST_TRIPLES = 256
CHALLENGE_BYTES = 8
# The demo device: the key of its blobs, the one that its authenticators share with the service, and its root of trust.
DEMO_SEAL_KEY, DEMO_TOKEN_KEY, DEMO_ROOT = b"\1" * 32, b"\2" * 32, b"\3" * 32
# Its system: the version of the operating system, and that of its patches.
DEMO_VERSIONS = (140000, 202406)
# The policy of the program: the bits of a uid in a namespace.
DEMO_POLICY = {(1000, 100): 509, (1000, 0): REQ_FORCED_OP}


class Denied(Exception):
    """A call is answered with a code: that of the rule which it breaks, or one that belongs to no rule."""

    def __init__(self, code: int, rule: str | None = None) -> None:
        super().__init__(code, rule)
        self.code = code
        self.rule = rule


def one(params: Params, name: str) -> Any:
    """The value of a tag that stands exactly once, or None."""
    values = params.get(name, [])
    return values[0] if len(values) == 1 else None


@dataclass
class Key:
    """A key that was made: whose it is, the list that is kept with it, the blob that seals its material, and how
    many uses it has left where its list has a limit."""

    number: int
    domain: int
    nspace: int
    alias: bytes
    params: Params
    blob: bytes
    uses: int | None
    is_live: bool = True


@dataclass
class Grant:
    """What a key's owner lets a uid do with it."""

    number: int
    key: Key
    uid: int
    bits: int


@dataclass
class Plan:
    """How an operation works: the mode of AES or None for a mac, and what belongs to the mode."""

    mode: int | None
    is_forward: bool
    is_padded: bool
    digest: int | None
    mac_bytes: int
    least_mac_bytes: int
    is_limited: bool


@dataclass
class BeginFacts:
    """What B23 and B9 to B21 read beside the operation's list: the key's list, the versions of the device's system, the
    wall clock, the caller's user and the device."""

    kept: Params
    versions: tuple[int, int]
    wall: int
    user: int
    is_early_over: bool
    is_unlocked: bool
    is_timely: bool
    begins: int


@dataclass
class Operation:
    """An open operation; `work` is the event that entered it while that is out, and `touched` the step that last did.

    `kept` and `material` are the key's as the begin read them in its blob; a blob that was handed in is of no key.
    The challenge is there where each operation is authenticated by itself."""

    number: int
    client: int
    uid: int
    key: Key | None
    kept: Params
    material: bytes
    plan: Plan
    nonce: bytes | None
    challenge: int | None
    touched: int
    is_shown: bool = False
    additional: bytes = b""
    text: bytes = b""
    work: dict[str, Any] | None = None
