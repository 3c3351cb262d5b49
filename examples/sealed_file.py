#!/usr/bin/env python3
"""An app seals a file of a megabyte and a half over the service's socket and opens it again; a changed byte is told, and so is a file
that is put together from the pieces of two.

    ./keystore2 init
    ./keystore2 serve 7878 1 1 & sleep 1
    python3 examples/sealed_file.py --port 7878
"""
import argparse
import os
import pathlib
import sys

sys.path.insert(0, str(pathlib.Path(__file__).resolve().parent.parent / "tools"))
from keystore_client import FRONT, KINDS, NONCE, PIECE, PORT, TAG, Client, Key, ServiceError, parameters, seal, unseal

LENGTH = 1_500_000
FIRST_PIECE = len(FRONT) + 4 + NONCE + PIECE + TAG
APP = 10001


def is_refused(client, key, sealed):
    """Whether the service tells that this is no file as it was sealed."""
    try:
        unseal(client, key, sealed)
    except ServiceError as error:
        return error.code == -30
    return False


def main():
    parser = argparse.ArgumentParser(description="Seals a file of a megabyte and a half over the service's socket, and opens it.")
    parser.add_argument("--port", type=int, default=PORT, metavar="N")
    port = parser.parse_args().port
    text, key = os.urandom(LENGTH), Key(alias="files")
    with Client.connect(APP, port=port) as client:
        client.generateKey(key, parameters(KEY_SIZE=256, **KINDS["aes"]))
        sealed, other = seal(client, key, text), seal(client, key, os.urandom(LENGTH))
        opened = unseal(client, key, sealed)
        changed = bytearray(sealed)
        changed[LENGTH // 2] ^= 1
        tells_change = is_refused(client, key, bytes(changed))
        tells_joining = is_refused(client, key, sealed[:FIRST_PIECE] + other[FIRST_PIECE:])
    print(f"sealed {len(text)} bytes as {len(sealed)}")
    print("opened as they were" if opened == text else "opened otherwise")
    print("a changed byte is told" if tells_change else "a changed byte is not told")
    print("pieces of two files are told" if tells_joining else "pieces of two files are not told")


if __name__ == "__main__":
    main()
