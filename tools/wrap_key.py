#!/usr/bin/env python3
"""Wraps a key under another one, and opens what is wrapped, for who provisions devices (importWrappedKey).

    python3 tools/wrap_key.py wrap KEY TEXT [--out FILE]
    python3 tools/wrap_key.py open KEY WRAPPED [--out FILE]

It is the key wrap KW of NIST SP 800-38F section 6.2 (RFC 3394), by the Python package `cryptography`. KEY is an AES key
of 16, 24 or 32 bytes, TEXT the key that is wrapped, of 16 to 64 bytes and a multiple of 8, and WRAPPED has 8 bytes
more. Each is hex text, or behind an @ the name of a file that has the bytes (@- standard input): words can be seen by
all who may list processes. What comes of it is printed as hex text, or with --out written into a file that only its
owner may read. A wrong key is told by eight bytes alone. The status is 0 where all was done, 1 where WRAPPED does not
open under KEY, and 2 for wrong words, and files and a package that are not to be had."""
import argparse
import os
import sys

KEY_SIZES, TEXT_SIZES = (16, 24, 32), range(16, 65, 8)
WRAPPED_SIZES = range(24, 73, 8)


def data_of(word):
    """The bytes of a word: hex text, or the bytes of a file behind an @."""
    if not word.startswith("@"):
        return bytes.fromhex(word)
    if word == "@-":
        return sys.stdin.buffer.read()
    with open(word[1:], "rb") as file:
        return file.read()


def of_sizes(sizes):
    """What reads a word as bytes of one of these lengths."""

    def read(word):
        try:
            data = data_of(word)
        except (OSError, ValueError) as fault:
            raise argparse.ArgumentTypeError(str(fault)) from fault
        if len(data) not in sizes:
            raise argparse.ArgumentTypeError(f"{len(data)} bytes, and not {', '.join(map(str, sizes))}")
        return data

    return read


def put(path, data):
    """Writes a file that only its owner may read."""
    with open(os.open(path, os.O_WRONLY | os.O_CREAT | os.O_TRUNC, 0o600), "wb") as file:
        os.fchmod(file.fileno(), 0o600)
        file.write(data)


def words():
    parser = argparse.ArgumentParser(description=__doc__, formatter_class=argparse.RawDescriptionHelpFormatter)
    acts = parser.add_subparsers(dest="act", required=True)
    for name, what, sizes, text in (
        ("wrap", "text", TEXT_SIZES, "wrap a key"),
        ("open", "wrapped", WRAPPED_SIZES, "open a wrapped key"),
    ):
        act = acts.add_parser(name, help=text, description=text)
        act.add_argument("key", type=of_sizes(KEY_SIZES), metavar="KEY")
        act.add_argument("data", type=of_sizes(sizes), metavar=what.upper())
        act.add_argument("--out", metavar="FILE", help="the file that gets the bytes")
    return parser.parse_args()


class Unopened(Exception):
    """Bytes that are not wrapped under the key."""


def made_of(asked):
    """What the words ask for. The package is wanted here alone, so that the help needs none."""
    from cryptography.hazmat.primitives import keywrap

    try:
        return (keywrap.aes_key_wrap if asked.act == "wrap" else keywrap.aes_key_unwrap)(asked.key, asked.data)
    except keywrap.InvalidUnwrap:
        raise Unopened("it does not open under this key") from None


def main():
    asked = words()
    try:
        made = made_of(asked)
        if asked.out is None:
            print(made.hex())
        else:
            put(asked.out, made)
    except (OSError, ImportError, Unopened) as fault:
        print(f"wrap_key: {fault}", file=sys.stderr)
        return 1 if isinstance(fault, Unopened) else 2
    return 0


if __name__ == "__main__":
    sys.exit(main())
