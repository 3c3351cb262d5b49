#!/usr/bin/env python3
"""Makes a device's file, or changes the versions of the one that is there.

    python3 tools/make_device.py --os N --patch N [FILE]

FILE is device.key of this folder where it is not said. Where it is not there, it is made with 96 random bytes, the
secrets of a new device, and only its owner may read it; where it is there, its secrets stay. N are the versions of
the operating system and of its patches, as in OS_VERSION and OS_PATCHLEVEL (140000 and 202406 are version 14 and June
2024), which stand behind the secrets in four bytes each, big-endian. A file of another length than 96 and 104 stays
as it is. The new file takes the place of the old one in one step."""
import argparse
import contextlib
import os
import sys
import tempfile

SECRETS, LENGTHS = 96, (96, 104)


def version(text):
    value = int(text)
    if not 0 <= value < 1 << 32:
        raise ValueError
    return value


version.__name__ = "number of 32 bits"


def secrets_of(path):
    """The secrets of the device that is there, or of a new one."""
    try:
        with open(path, "rb") as file:
            data = file.read(max(LENGTHS) + 1)
    except FileNotFoundError:
        return os.urandom(SECRETS)
    if len(data) not in LENGTHS:
        raise ValueError(f"{path} is no device's file: it has not 96 bytes or 104")
    return data[:SECRETS]


def put(path, data):
    """Puts a file that only its owner may read in the place of one that is there, and syncs it."""
    folder = os.path.dirname(os.path.realpath(path))
    number, made = tempfile.mkstemp(dir=folder, prefix=".device.")
    try:
        with open(number, "wb") as file:
            file.write(data)
            file.flush()
            os.fsync(file.fileno())
        os.replace(made, os.path.realpath(path))
    except BaseException:
        with contextlib.suppress(FileNotFoundError):
            os.unlink(made)
        raise


def main():
    words = argparse.ArgumentParser(description=__doc__, formatter_class=argparse.RawDescriptionHelpFormatter)
    words.add_argument("--os", type=version, required=True, metavar="N", help="the version of the operating system")
    words.add_argument("--patch", type=version, required=True, metavar="N", help="the version of its patches")
    words.add_argument("file", nargs="?", default="device.key", metavar="FILE")
    asked = words.parse_args()
    try:
        put(asked.file, secrets_of(asked.file) + asked.os.to_bytes(4, "big") + asked.patch.to_bytes(4, "big"))
    except (OSError, ValueError) as fault:
        print(f"make_device: {fault}", file=sys.stderr)
        return 1
    return 0


if __name__ == "__main__":
    sys.exit(main())
