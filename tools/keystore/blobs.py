"""Sealed blobs by docs/FORMATS.md and the Python package `cryptography`, apart from the program: they are made, also
of texts that are none, and opened."""
from __future__ import annotations

from collections.abc import Iterable, Iterator
from typing import Any

from cryptography.exceptions import InvalidTag
from cryptography.hazmat.primitives.ciphers.aead import AESGCM

from keystore.device import DEMO_DEVICE, SECRETS
from keystore.lists import BOOL, BYTES, TAGS, ListFault, Params, read_list, write_list
from keystore.spelling import Reader, Short, counted, optional

MAGIC = bytes.fromhex("4b534231")


class NoBlob(Exception):
    """Bytes that are no blob of the device."""


def with_versions(encoded: bytes, os: int, patch: int) -> bytes:
    """A list with these versions in place of its own; a text that is no list stays as it is."""
    try:
        return write_list({**read_list(encoded), "OS_VERSION": [os], "OS_PATCHLEVEL": [patch]})
    except ListFault:
        return encoded


def list_of(params: Iterable[tuple[str, Any]]) -> bytes:
    """The canonical spelling of pairs of a tag's name and a value."""
    values: Params = {}
    for name, value in params:
        values.setdefault(name, []).append(bytes.fromhex(value) if TAGS[name][0] == BYTES else int(value))
    return write_list(values)


def text_of(root: bytes, app_id: bytes | None, app_data: bytes | None, encoded: bytes, material: bytes) -> bytes:
    """The text inside a blob."""
    return root + optional(app_id, 2) + optional(app_data, 2) + counted(encoded) + counted(material, 1)


def seal(device: bytes, nonce: bytes, text: bytes) -> bytes:
    """The blob of a text, whatever stands in it."""
    return MAGIC + nonce + AESGCM(device[:32]).encrypt(nonce, text, MAGIC)


def blob_of(
    encoded: bytes,
    material: bytes,
    app_id: bytes | None = None,
    app_data: bytes | None = None,
    root: bytes | None = None,
    nonce: bytes = bytes(12),
    device: bytes = DEMO_DEVICE,
) -> bytes:
    """The blob of a list and a material, for the device's own root of trust where none is given."""
    own = device[64:SECRETS] if root is None else root
    return seal(device, nonce, text_of(own, app_id, app_data, encoded, material))


def unsealed(device: bytes, blob: bytes) -> bytes:
    """The text inside a blob."""
    if blob[:4] != MAGIC or len(blob) < 32:
        raise NoBlob("the bytes are no blob")
    try:
        return AESGCM(device[:32]).decrypt(blob[4:16], blob[16:], MAGIC)
    except InvalidTag as fault:
        raise NoBlob("the tag is not that of this device") from fault


def parts_of(text: bytes) -> dict[str, Any]:
    """What stands in the text of a blob: two ids, the list and the material, behind the root of trust."""
    reader = Reader(text)
    try:
        root, app_id, app_data, encoded = reader.take(32), reader.optional(2), reader.optional(2), reader.counted()
        material = reader.counted(1)
        if not reader.data and write_list(read_list(encoded)) == encoded:
            return {"root": root, "app_id": app_id, "app_data": app_data, "encoded": encoded, "material": material}
    except (Short, ListFault):
        pass
    raise NoBlob("the text inside is no sealed text")


def pairs_of(encoded: bytes) -> Iterator[list[Any]]:
    """A list as pairs of a tag's name and a value."""
    for name, values in read_list(encoded).items():
        for value in values:
            yield [name, value.hex() if TAGS[name][0] == BYTES else True if TAGS[name][0] == BOOL else value]
