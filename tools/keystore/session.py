"""A short session of frames that leaves nothing behind, frames that end a connection, and what comes back for pieces
of bytes."""
from __future__ import annotations

import socket
import time
from collections.abc import Iterator

from keystore.runs import PATIENCE
from keystore.spelling import counted, optional, u32, u64

PAUSE = 0.005
# Requests that leave nothing behind, and their replies: the client's number is that of the first one.
CONNECT, CLIENT = counted(b"\x01" + u32(10001)), bytes.fromhex("0000000f 00000000 0000 01 0000000000000001")
SESSION = [
    (CONNECT, CLIENT),
    (counted(b"\x0e" + u32(2) + u64(7)), bytes.fromhex("00000006 00000006 4104")),
    (counted(b"\x09" + u64(0)), bytes.fromhex("00000006 ffffffe4 5301")),
    (counted(b"\x0f" + u32(0) + u64(0) + optional(b"\xff")), bytes.fromhex("0000000b 00000000 0000 11 00000000")),
]
TEXT = b"".join(request for request, _ in SESSION)
# The fields of an act with two descriptors, importWrappedKey, each with where an option byte stands in it.
DESCRIPTOR = u32(0) + u64(7) + optional(b"m") + optional(None)
OPTIONS = {"alias": 12, "blob": 18}
WRAPPED_ACT = {
    "key": DESCRIPTOR,
    "params": counted(b"\x00\x00"),
    "wrapping": DESCRIPTOR,
    "wrapped": counted(bytes(24)),
    "unwrapping": counted(b"\x00\x00"),
}


def wrapped_frame(**parts: bytes) -> bytes:
    """A frame of importWrappedKey with these parts in place of its own."""
    return counted(b"\x19" + b"".join({**WRAPPED_ACT, **parts}.values()))


def bad_wrapped_frames() -> Iterator[tuple[str, bytes]]:
    """Such frames in which each field is cut, and each option byte is 2, and one with a byte left over."""
    front = b"\x19"
    for name, part in WRAPPED_ACT.items():
        yield f"importWrappedKey without its {name}", counted(front)
        yield f"importWrappedKey with its {name} cut", counted(front + part[:-1])
        front += part
    for name in ("key", "wrapping"):
        for option, place in OPTIONS.items():
            other = DESCRIPTOR[:place] + b"\x02" + DESCRIPTOR[place + 1 :]
            yield f"importWrappedKey whose {name} has an option byte of 2 for its {option}", wrapped_frame(**{name: other})
    yield "importWrappedKey with a byte left over", wrapped_frame(more=b"\x00")


# What ends a connection: no body, a body that is too long, no act, an act that is cut, another connect, and frames of
# importWrappedKey.
BAD_FRAMES = {
    "no body": bytes(4),
    "a body that is too long": u32(262145),
    "no act": counted(b"\x02"),
    "an act that is cut": counted(b"\x0e" + u32(0)),
    "another connect": CONNECT,
    **dict(bad_wrapped_frames()),
}


def replies_to(port: int, *pieces: bytes) -> bytes:
    """All that comes back for these pieces, with the number 1 in place of the client's."""
    with socket.create_connection(("127.0.0.1", port), PATIENCE) as stream:
        stream.setsockopt(socket.IPPROTO_TCP, socket.TCP_NODELAY, 1)
        for piece in pieces:
            stream.sendall(piece)
            time.sleep(PAUSE if piece is not pieces[-1] else 0)
        stream.shutdown(socket.SHUT_WR)
        came = b""
        while piece := stream.recv(65536):
            came += piece
    return CLIENT + came[len(CLIENT) :] if came[:11] == CLIENT[:11] else came


def replies_in(size: int) -> bytes:
    """The replies to the requests that are whole in so many bytes of the session."""
    came, place = b"", 0
    for request, reply in SESSION:
        place += len(request)
        came += reply if place <= size else b""
    return came
