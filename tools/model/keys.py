"""The keys and grants of second_model.py: which key a descriptor finds, what a caller may do with it, and what ends
it."""
from __future__ import annotations

from collections.abc import Iterable
from typing import Any

from keystore.lists import Params
from model.values import (
    APP,
    APP_BITS,
    BLOB,
    DEMO_POLICY,
    GRANT,
    KEY_ID,
    MOST_GRANTS,
    MOST_KEYS,
    MOST_LISTED,
    REQ_FORCED_OP,
    SELINUX,
    UIDS_OF_A_USER,
    Denied,
    Grant,
    Key,
    one,
)

# A domain and a uid or a namespace of it, and a descriptor by its members.
Owner = tuple[int, int]
Descriptor = dict[str, Any]
# What a caller says of these is not kept.
NOT_KEPT = ["APPLICATION_ID", "APPLICATION_DATA", "NONCE", "MAC_LENGTH", "ORIGIN", "OS_VERSION", "OS_PATCHLEVEL"]
GENERATED, IMPORTED, SECURELY_IMPORTED = 0, 2, 4


def is_text(data: bytes) -> bool:
    """Whether bytes are UTF-8, as those of a frame may not be."""
    try:
        data.decode()
    except UnicodeDecodeError:
        return False
    return True


def has_alias(descriptor: Descriptor) -> bool:
    """Whether a descriptor names a key in APP or SELINUX by its alias."""
    alias = descriptor["alias"]
    return descriptor["domain"] in (APP, SELINUX) and alias is not None and 1 <= len(alias) <= 256 and is_text(alias)


def is_stored(descriptor: Descriptor) -> bool:
    """Whether a descriptor names a stored key, by its alias or by a number."""
    return has_alias(descriptor) or descriptor["domain"] in (GRANT, KEY_ID)


def is_blob(descriptor: Descriptor) -> bool:
    """Whether a descriptor has the key itself, sealed."""
    return descriptor["domain"] == BLOB and descriptor["blob"] is not None


def is_shared(descriptor: Descriptor) -> bool:
    """Whether a descriptor may name a key that is to be granted."""
    return descriptor["domain"] in (APP, SELINUX, KEY_ID)


def with_versions(kept: Params, versions: tuple[int, int]) -> Params:
    """A list with the versions of the device's system."""
    os, patch = versions
    return kept | {"OS_VERSION": [os], "OS_PATCHLEVEL": [patch]}


def kept_list(params: Params, material: bytes | None, origin: int, wall: int, versions: tuple[int, int]) -> Params:
    """The list that is kept with a new key; the material is None for one that is generated."""
    kept = {name: values for name, values in params.items() if name not in NOT_KEPT}
    kept["ORIGIN"] = [origin]
    if material is not None:
        kept.setdefault("KEY_SIZE", [8 * len(material)])
    kept.setdefault("CREATION_DATETIME", [wall])
    return with_versions(kept, versions)


def owner_of(uid: int, domain: int, nspace: int) -> Owner:
    """Whose the keys are that a uid makes and lists in a domain: its own, or the namespace's."""
    return (SELINUX, nspace) if domain == SELINUX else (APP, uid)


class KeyStore:
    """The keys that have not ended and the grants of them, under a policy."""

    def __init__(self, policy: dict[tuple[int, int], int] = DEMO_POLICY) -> None:
        self.policy = policy
        self.made: list[Key] = []
        self.live: dict[tuple[int, int, bytes], Key] = {}
        self.grants: dict[int, Grant] = {}
        self.granted = 0

    def row(self, uid: int, nspace: int) -> int | None:
        """The policy's bits of a uid in a namespace, or None."""
        return self.policy.get((uid, nspace))

    def app_bits(self, uid: int) -> int:
        return APP_BITS | (self.row(uid, 0) or 0) & REQ_FORCED_OP

    def numbered(self, number: int) -> Key | None:
        """The live key of a number, or None."""
        if 1 <= number <= len(self.made) and self.made[number - 1].is_live:
            return self.made[number - 1]
        return None

    def grant_to(self, key: Key, uid: int) -> Grant | None:
        """The grant of a key to a uid, or None."""
        for grant in self.grants.values():
            if grant.key is key and grant.uid == uid:
                return grant
        return None

    def bits_by_number(self, key: Key, uid: int) -> int:
        """What a uid may do with a key of which it has but the number: as its owner, and by a grant."""
        bits = 0
        if key.domain == SELINUX:
            bits = self.row(uid, key.nspace) or 0
        elif key.nspace == uid:
            bits = self.app_bits(uid)
        grant = self.grant_to(key, uid)
        return bits if grant is None else bits | grant.bits

    def access(self, uid: int, descriptor: Descriptor) -> tuple[Key | None, int]:
        """The stored key that a uid's descriptor finds, or None, and what the uid may do with it, or with a blob."""
        domain, nspace, alias = descriptor["domain"], descriptor["nspace"], descriptor["alias"]
        if domain == APP:
            return self.live.get((APP, uid, alias)), self.app_bits(uid)
        if domain == SELINUX:
            return self.live.get((SELINUX, nspace, alias)), self.row(uid, nspace) or 0
        if domain == GRANT:
            grant = self.grants.get(nspace)
            return (None, 0) if grant is None or grant.uid != uid else (grant.key, grant.bits)
        if domain == BLOB:
            return None, self.row(uid, nspace) or 0
        key = self.numbered(nspace) if domain == KEY_ID else None
        return (None, 0) if key is None else (key, self.bits_by_number(key, uid))

    # What changes them.

    def end(self, keys: Iterable[Key]) -> None:
        """Ends keys, and the grants of them."""
        for key in keys:
            key.is_live = False
            del self.live[key.domain, key.nspace, key.alias]
        self.grants = {number: grant for number, grant in self.grants.items() if grant.key.is_live}

    def check_place(self, owner: Owner, alias: bytes) -> None:
        """There is a place for a new key, or one under its name makes place."""
        if (*owner, alias) not in self.live and len(self.live) >= MOST_KEYS:
            raise Denied(1002)

    def put(self, owner: Owner, alias: bytes, params: Params, blob: bytes) -> int:
        """Makes a key in place of the one under its name, and gives its number."""
        old_key = self.live.get((*owner, alias))
        if old_key is not None:
            self.end([old_key])
        key = Key(len(self.made) + 1, *owner, alias, params, blob, one(params, "USAGE_COUNT_LIMIT"))
        self.made.append(key)
        self.live[*owner, alias] = key
        return key.number

    def use(self, key: Key) -> None:
        """Uses a key that has a limit; its last use ends it."""
        assert key.uses is not None
        key.uses -= 1
        if key.uses == 0:
            self.end([key])

    def grant(self, key: Key, uid: int, bits: int) -> int:
        """Grants a key to a uid, or changes what it may do with it, and gives the grant's number."""
        grant = self.grant_to(key, uid)
        if grant is None:
            if len(self.grants) >= MOST_GRANTS:
                raise Denied(1002)
            self.granted += 1
            grant = self.grants[self.granted] = Grant(self.granted, key, uid, bits)
        grant.bits = bits
        return grant.number

    def clear(self, owner: Owner) -> None:
        self.end(self.keys_of(owner))

    def remove_user(self, user: int) -> None:
        self.end([key for key in self.live.values() if key.domain == APP and key.nspace // UIDS_OF_A_USER == user])

    # What is told of an owner.

    def keys_of(self, owner: Owner) -> list[Key]:
        return [key for key in self.live.values() if (key.domain, key.nspace) == owner]

    def listing(self, owner: Owner, past: bytes | None) -> list[Key]:
        """The owner's keys whose aliases are greater than `past`, the first of them in order."""
        keys = [key for key in self.keys_of(owner) if past is None or key.alias > past]
        return sorted(keys, key=lambda key: key.alias)[:MOST_LISTED]
