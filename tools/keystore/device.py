"""A device's file by docs/FORMATS.md: its secrets, and the versions of its system."""
from __future__ import annotations

from keystore.spelling import u32

SECRETS, SYSTEM = 96, 8
DEMO_SECRETS, DEMO_OS, DEMO_PATCH = b"\x01" * 32 + b"\x02" * 32 + b"\x03" * 32, 140000, 202406


def device_of(data: bytes) -> bytes:
    """The device of the bytes of a file device.key: its secrets, and the versions of its system, which are 0 where they
    are not there."""
    if len(data) not in (SECRETS, SECRETS + SYSTEM):
        raise ValueError(f"{len(data)} bytes are no device, which has 96 or 104")
    return data.ljust(SECRETS + SYSTEM, b"\0")


def versions_of(device: bytes) -> tuple[int, int]:
    """The versions of a device's operating system and of its patches."""
    os, patch = (int.from_bytes(device_of(device)[place : place + 4], "big") for place in (SECRETS, SECRETS + 4))
    return os, patch


def with_system(secrets: bytes, os: int, patch: int) -> bytes:
    """The device of these secrets, or of those of another device, with these versions of its system."""
    return secrets[:SECRETS] + u32(os) + u32(patch)


DEMO_DEVICE = with_system(DEMO_SECRETS, DEMO_OS, DEMO_PATCH)
