"""Writes checks/cuttings.jsonl and its expected replies: each mode, both ways, over a text that is cut where blocks
begin to go through the cipher together (128 bytes and 1,024), around these, and into single bytes; and macs of texts in
two pieces, verified with signatures of every length, with a changed one and with none. And checks/many-blocks.jsonl:
from none to 33 blocks at once, in ECB both ways under each size of key, and in GCM, whose additional data and text go
through GHASH, also a hundred.

The cipher texts are made by the Python package `cryptography`, and the replies by `tools/model/second_model.py`,
which calls it too."""
import hmac
import json
import subprocess
import sys

from cryptography.hazmat.primitives import padding
from cryptography.hazmat.primitives.ciphers import Cipher, algorithms, modes
from cryptography.hazmat.primitives.ciphers.aead import AESGCM

from keystore.lines import begin, call, connect, folder_of, made, named, text_of, write
from keystore.harness import TOOLS

KEYS = {16: bytes(range(16)), 24: bytes(range(24)), 32: bytes(range(32))}
# of all 128 bits, so that the sum that CTR counts by carries over 64
VECTOR = bytes([7] * 8 + [255] * 8)
NONCE = bytes(range(12))
DATA = bytes(3 * i % 256 for i in range(1300))
ECB, CBC, CTR, GCM = 1, 2, 3, 32
NO_PADDING, PKCS7 = 1, 64
SHORT = [127, 1, 128, 129]
LONG = [1023, 1024, 1, 1025]
SINGLE = [1] * 40
DIGESTS = {3: "sha224", 4: "sha256", 5: "sha384", 6: "sha512"}


def bytes_of(size):
    return bytes((i * i + 5 * i) % 251 for i in range(size))


def sealed(key, mode, padded, text):
    if mode == GCM:
        return AESGCM(key).encrypt(NONCE, text, DATA)
    if padded == PKCS7:
        padder = padding.PKCS7(128).padder()
        text = padder.update(text) + padder.finalize()
    kinds = {ECB: modes.ECB(), CBC: modes.CBC(VECTOR), CTR: modes.CTR(VECTOR)}
    maker = Cipher(algorithms.AES(key), kinds[mode]).encryptor()
    return maker.update(text) + maker.finalize()


def operation(number, size, mode, padded, opens, cuts):
    """The lines of one operation: the pieces, and behind them what is left of the text to whole blocks, with the
    finish."""
    whole = sum(cuts) + 40
    text = bytes_of(whole if mode in (CTR, GCM) or padded == PKCS7 else whole // 16 * 16)
    given = sealed(KEYS[size], mode, padded, text) if opens else text
    params = [["PURPOSE", int(opens)], ["BLOCK_MODE", mode], ["PADDING", padded]]
    if mode == GCM:
        params += [["MAC_LENGTH", 128], ["NONCE", NONCE.hex()]]
    elif mode != ECB:
        params += [["NONCE", VECTOR.hex()]]
    yield begin(1, named(f"k{size}"), params)
    if mode == GCM:
        for start, end in [(0, 15), (15, 1100), (1100, len(DATA))]:
            yield call(1, "updateAad", op=number, input=DATA[start:end].hex())
    at = 0
    for size_of_piece in cuts:
        yield call(1, "update", op=number, input=given[at : at + size_of_piece].hex())
        at += size_of_piece
    yield call(1, "finish", op=number, input=given[at:].hex())


def cases():
    every = [(ECB, NO_PADDING), (ECB, PKCS7), (CBC, NO_PADDING), (CBC, PKCS7), (CTR, NO_PADDING), (GCM, NO_PADDING)]
    for size in KEYS:
        for mode, padded in every:
            for opens in (False, True):
                yield size, mode, padded, opens, SHORT
    for mode, padded in [(ECB, NO_PADDING), (CBC, PKCS7), (CTR, NO_PADDING), (GCM, NO_PADDING)]:
        yield 16, mode, padded, True, LONG
        yield 32, mode, padded, False, SINGLE
    yield 32, CTR, NO_PADDING, False, LONG
    yield 32, GCM, NO_PADDING, False, LONG


def macs(number):
    """The lines of the macs, whose operations are numbered from here on."""
    for digest, name in DIGESTS.items():
        params = [
            ["PURPOSE", 2],
            ["PURPOSE", 3],
            ["ALGORITHM", 128],
            ["DIGEST", digest],
            ["MIN_MAC_LENGTH", 128],
            ["NO_AUTH_REQUIRED", True],
        ]
        key = named(f"m{digest}")
        yield made(1, key, params, KEYS[32].hex())
        for size in (0, 1, 15, 16, 17, 33, 200):
            text = bytes_of(size)
            mac = hmac.digest(KEYS[32], text, name)[:28]
            signatures = (
                [None] if size != 17 else [None, *(mac[:end] for end in range(29)), mac[:27] + bytes([mac[27] ^ 1])]
            )
            for purpose, signature in [(2, None), *((3, it) for it in signatures)]:
                asked = [["PURPOSE", purpose]] + ([["MAC_LENGTH", 224]] if purpose == 2 else [])
                yield begin(1, key, asked)
                yield call(1, "update", op=number, input=text[: size // 2].hex())
                given = {} if signature is None else {"signature": signature.hex()}
                yield call(1, "finish", op=number, input=text[size // 2 :].hex(), **given)
                number += 1


def keys():
    yield connect(10001)
    for size, key in KEYS.items():
        params = [
            ["PURPOSE", 0],
            ["PURPOSE", 1],
            ["ALGORITHM", 32],
            *[["BLOCK_MODE", mode] for mode in (ECB, CBC, CTR, GCM)],
        ]
        params += [
            ["PADDING", NO_PADDING],
            ["PADDING", PKCS7],
            ["MIN_MAC_LENGTH", 128],
            ["CALLER_NONCE", True],
            ["NO_AUTH_REQUIRED", True],
        ]
        yield made(1, named(f"k{size}"), params, key.hex())


def cuttings():
    yield from keys()
    for number, case in enumerate(cases(), 1):
        yield from operation(number, *case)
    yield from macs(len(list(cases())) + 1)


def at_once(number, size, mode, opens, text):
    """The lines of one operation whose whole text comes with its finish."""
    given = sealed(KEYS[size], mode, NO_PADDING, text) if opens else text
    params = [["PURPOSE", int(opens)], ["BLOCK_MODE", mode], ["PADDING", NO_PADDING]]
    if mode == GCM:
        params += [["MAC_LENGTH", 128], ["NONCE", NONCE.hex()]]
    yield begin(1, named(f"k{size}"), params)
    if mode == GCM:
        yield call(1, "updateAad", op=number, input=DATA.hex())
    yield call(1, "finish", op=number, input=given.hex())


def many_blocks():
    yield from keys()
    blocks = [
        (size, ECB, opens, bytes_of(16 * count)) for size in KEYS for opens in (False, True) for count in range(34)
    ]
    blocks += [(16, GCM, opens, bytes_of(16 * count)) for opens in (False, True) for count in (*range(34), 100)]
    for number, case in enumerate(blocks, 1):
        yield from at_once(number, *case)


def answered(lines):
    """Lines with the second model's replies."""
    lines = list(lines)
    script = "".join(map(text_of, lines))
    said = subprocess.run(
        [sys.executable, TOOLS / "ks", "compare", "second_model"],
        input=script,
        capture_output=True,
        text=True,
        check=True,
    ).stdout
    return zip(lines, map(json.loads, said.splitlines()), strict=True)


def main():
    into = folder_of(__doc__)
    write(into, "cuttings", answered(cuttings()))
    write(into, "many-blocks", answered(many_blocks()))
