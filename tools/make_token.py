#!/usr/bin/env python3
"""Makes an authentication token as an authenticator of the demo device, or of another one, would, and prints its line
of a script.

The mac is HMAC-SHA256 (FIPS 198-1) over the 37 bytes of docs/FORMATS.md, under the key that the device's authenticators
share with the service. It is no part of the program: a person tries with it a key that needs its user's token.

    python3 tools/make_token.py 7 --time 5000
    python3 tools/make_token.py 7 --challenge 868365761009226259 --client 2 --at 6000 1000
"""
import argparse
import json

from keystore.device import device_of
from keystore.tokens import DEMO_KEY, mac_of


def number(bits):
    """A reader of numbers of at most so many bits, in decimal or with 0x."""

    def read(text):
        value = int(text, 0)
        if not 0 <= value < 1 << bits:
            raise ValueError
        return value

    read.__name__ = f"number of {bits} bits"
    return read


def key(text):
    value = bytes.fromhex(text)
    if len(value) != 32:
        raise ValueError
    return value


def device_key(path):
    """The second of the three keys of a file device.key."""
    with open(path, "rb") as file:
        data = file.read()
    try:
        return device_of(data)[32:64]
    except ValueError as fault:
        raise argparse.ArgumentTypeError(f"{path}: {fault}") from fault


def main():
    words = argparse.ArgumentParser(description=__doc__, formatter_class=argparse.RawDescriptionHelpFormatter)
    words.add_argument("user", type=number(64), help="the secure id of the user, as in USER_SECURE_ID")
    words.add_argument("--authenticator", type=number(64), default=0, help="the secure id of the authenticator")
    words.add_argument("--kind", type=number(32), default=1, help="1 a password, 2 a fingerprint")
    words.add_argument("--time", type=number(64), default=0, help="when, in milliseconds since the start")
    words.add_argument("--challenge", type=number(64), default=0, help="the challenge that createOperation answered")
    words.add_argument("--client", type=number(64), default=1, help="the client that brings it, of uid 1000")
    words.add_argument(
        "--at", type=number(64), nargs=2, metavar=("BOOT", "WALL"), help="the line's readings; TIME and 0"
    )
    words.add_argument("--key", type=key, default=DEMO_KEY, help="another device's key, 32 bytes in hex")
    words.add_argument("--device", type=device_key, dest="key", metavar="FILE", help="another device's file device.key")
    asked = words.parse_args()
    line = {
        "t": asked.at or [asked.time, 0],
        "c": asked.client,
        "do": "addAuthToken",
        "challenge": asked.challenge,
        "user": asked.user,
        "authenticator": asked.authenticator,
        "kind": asked.kind,
        "time": asked.time,
    }
    print(json.dumps({**line, "mac": mac_of(asked.key, line).hex()}, separators=(",", ":")))


if __name__ == "__main__":
    main()
