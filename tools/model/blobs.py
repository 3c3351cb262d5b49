"""The sealed blobs of second_model.py: how a key's material and list are sealed for a device, and when they open
again."""
from __future__ import annotations

from dataclasses import dataclass

from cryptography.exceptions import InvalidTag
from cryptography.hazmat.primitives.ciphers.aead import AESGCM

from model.values import Denied
from keystore.lists import ListFault, Params, read_list, write_list
from keystore.spelling import Reader, Short, counted, optional

START = b"KSB1"
NONCE_BYTES = 12
ROOT_BYTES = 32
LEAST_BYTES = len(START) + NONCE_BYTES + 16


@dataclass
class Sealed:
    """What stands in a blob: for which root of trust and which application it is, and the key's list and material."""

    root: bytes
    app_id: bytes | None
    app_data: bytes | None
    params: Params
    material: bytes


class Unreadable(Exception):
    """An opened text is no sealed text."""


def sealed_blob(key: bytes, nonce: bytes, sealed: Sealed) -> bytes:
    """The blob of a text under a device's key."""
    text = sealed.root + optional(sealed.app_id, 2) + optional(sealed.app_data, 2)
    text += counted(write_list(sealed.params)) + counted(sealed.material, 1)
    return START + nonce + AESGCM(key).encrypt(nonce, text, START)


def canonical_list(data: bytes) -> Params:
    """The list of its one spelling."""
    try:
        params = read_list(data)
    except ListFault:
        raise Unreadable()
    if write_list(params) != data:
        raise Unreadable()
    return params


def read_sealed(text: bytes) -> Sealed:
    reader = Reader(text)
    try:
        root, app_id, app_data = reader.take(ROOT_BYTES), reader.optional(2), reader.optional(2)
        params, material = canonical_list(reader.counted()), reader.counted(1)
    except Short:
        raise Unreadable()
    if reader.data:
        raise Unreadable()
    return Sealed(root, app_id, app_data, params, material)


def opened_blob(key: bytes, blob: bytes, rule: str = "B7") -> Sealed:
    """What a blob seals under a device's key, by B7, or by A12."""
    if len(blob) < LEAST_BYTES or blob[: len(START)] != START:
        raise Denied(-33, rule)
    nonce_end = len(START) + NONCE_BYTES
    try:
        text = AESGCM(key).decrypt(blob[len(START) : nonce_end], blob[nonce_end:], START)
        return read_sealed(text)
    except (InvalidTag, Unreadable):
        raise Denied(-33, rule)
