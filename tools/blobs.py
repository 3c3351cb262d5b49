#!/usr/bin/env python3
"""Makes sealed blobs and opens them, by docs/FORMATS.md and the Python package `cryptography`, apart from the program.

    python3 tools/blobs.py [--device FILE] make PARAMS MATERIAL [--app-id HEX] [--app-data HEX] [--root HEX]
        [--nonce HEX] [--os N] [--patch N] [--bare]
    python3 tools/blobs.py [--device FILE] open BLOB

PARAMS is a list of pairs as in a script, or the hex text of an encoded list; MATERIAL and BLOB are hex text. The list
gets OS_VERSION and OS_PATCHLEVEL of the device, or N of --os and --patch; with --bare it is sealed as it is, and so is
a text that is no list. The device is that of a file device.key (its key for blobs, its key for tokens and its root of
trust, 32 bytes each, and perhaps the versions of its system, four bytes each), or the demo device. The nonce is drawn
where it is not given: no two blobs of a device may have the same one. `open` prints what is in a blob as JSON, and
looks at nothing but the tag and the format."""
import argparse
import json
import os
import sys

from keystore.blobs import NoBlob, blob_of, list_of, pairs_of, parts_of, unsealed, with_versions
from keystore.device import DEMO_DEVICE, device_of, versions_of
from keystore.harness import parser_of


def hex_of(data):
    return None if data is None else data.hex()


def print_opened(device, blob):
    parts = parts_of(unsealed(device, blob))
    print(
        json.dumps(
            {
                "nonce": blob[4:16].hex(),
                "root": hex_of(parts["root"]),
                "app_id": hex_of(parts["app_id"]),
                "app_data": hex_of(parts["app_data"]),
                "params": list(pairs_of(parts["encoded"])),
                "material": hex_of(parts["material"]),
            }
        )
    )


def encoded_of(text):
    return list_of(json.loads(text)) if text.lstrip().startswith("[") else bytes.fromhex(text)


def device_in(path):
    with open(path, "rb") as file:
        data = file.read()
    try:
        return device_of(data)
    except ValueError as fault:
        raise argparse.ArgumentTypeError(f"{path}: {fault}") from fault


def version(text):
    value = int(text)
    if not 0 <= value < 1 << 32:
        raise ValueError
    return value


version.__name__ = "number of 32 bits"


def sealed_list(asked):
    """The list of a blob, as the words say."""
    if asked.bare:
        return asked.params
    os_version, patch = versions_of(asked.device)
    return with_versions(
        asked.params,
        os_version if asked.os is None else asked.os,
        patch if asked.patch is None else asked.patch,
    )


def words():
    parser = parser_of(__doc__)
    parser.add_argument(
        "--device", type=device_in, default=DEMO_DEVICE, metavar="FILE", help="the demo device where it is not said"
    )
    acts = parser.add_subparsers(dest="act", required=True)
    make = acts.add_parser("make")
    make.add_argument("params", type=encoded_of, metavar="PARAMS")
    make.add_argument("material", type=bytes.fromhex, metavar="MATERIAL")
    for name in ["--app-id", "--app-data", "--root", "--nonce"]:
        make.add_argument(name, type=bytes.fromhex, metavar="HEX")
    for name, what in (("--os", "operating system"), ("--patch", "patches")):
        make.add_argument(name, type=version, metavar="N", help=f"the version of the {what}; the device's")
    make.add_argument("--bare", action="store_true", help="the list as it is, without versions of its own")
    acts.add_parser("open").add_argument("blob", type=bytes.fromhex, metavar="BLOB")
    return parser.parse_args()


def main():
    asked = words()
    try:
        if asked.act == "open":
            print_opened(asked.device, asked.blob)
        else:
            nonce = asked.nonce or os.urandom(12)
            print(
                blob_of(
                    sealed_list(asked), asked.material, asked.app_id, asked.app_data, asked.root, nonce, asked.device
                ).hex()
            )
    except NoBlob as fault:
        print(f"blobs: {fault}", file=sys.stderr)
        return 1
    return 0


if __name__ == "__main__":
    sys.exit(main())
