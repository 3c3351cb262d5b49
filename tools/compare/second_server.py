"""The service's protocol over the second model (`tools/model/second_model.py`), written from docs/PROTOCOL.md and
docs/FORMATS.md alone: clients can be tried on it, and what the service answers can be compared with what it answers.

    tools/ks compare second_server [--port N] [--connections N]

It listens on 127.0.0.1, prints its port, and serves one connection after another. The clocks stand at (0, 1000) and
what is drawn counts up from 00, so that it answers the same at each run. It needs the Python package `cryptography`."""
import socket

from keystore.harness import parser_of
from keystore.spelling import Reader, Short, counted
from model.second_model import Service

MOST_BODY = 262144
U32, U64 = 4, 8

# The acts that have a frame: their names, and their fields in order.
OWNER = [("domain", U32), ("nspace", U64)]
KEYED = [("key", "key"), ("params", "params")]
ACTS = {
    1: ("connect", [("uid", U32)]),
    3: ("generateKey", KEYED),
    4: ("importKey", [*KEYED, ("format", U32), ("material", "bytes")]),
    5: ("createOperation", [*KEYED, ("forced", "flag")]),
    6: ("updateAad", [("op", U64), ("input", "bytes")]),
    7: ("update", [("op", U64), ("input", "bytes")]),
    8: ("finish", [("op", U64), ("input", "bytes"), ("signature", "opt")]),
    9: ("abort", [("op", U64)]),
    10: ("getKeyEntry", [("key", "key")]),
    11: ("deleteKey", [("key", "key")]),
    12: ("grant", [("key", "key"), ("uid", U32), ("bits", U32)]),
    13: ("ungrant", [("key", "key"), ("uid", U32)]),
    14: ("getNumberOfEntries", OWNER),
    15: ("listEntriesBatched", [*OWNER, ("past", "opt")]),
    16: ("addAuthToken", [("token", "token")]),
    17: ("deviceLocked", [("user", U32)]),
    18: ("deviceUnlocked", [("user", U32)]),
    19: ("earlyBootEnded", []),
    20: ("clearNamespace", OWNER),
    21: ("userRemoved", [("user", U32)]),
    24: ("upgradeKey", KEYED),
    25: ("importWrappedKey", [*KEYED, ("wrapping", "key"), ("wrapped", "bytes"), ("unwrapping", "params")]),
}
TOKEN = [("challenge", U64), ("user", U64), ("authenticator", U64), ("kind", U32), ("time", U64)]
NUMBERS = {
    "client": (1, U64),
    "key": (2, U64),
    "op": (3, U64),
    "challenge": (4, U64),
    "ticket": (5, U64),
    "pruned": (6, U64),
    "grant": (7, U64),
    "count": (8, U64),
    "uses": (9, U32),
    "domain": (10, U32),
    "nspace": (11, U64),
}
TEXTS = {"alias": 12, "nonce": 13, "out": 14, "blob": 15, "list": 16}
ENTRIES = 17


class BadFrame(Exception):
    """A body that is not exactly one act."""


class Body(Reader):
    """The bytes of a body that are left."""

    def field(self, kind):
        if isinstance(kind, int):
            return self.number(kind)
        if kind in ("bytes", "params"):
            return self.counted()
        if kind == "flag":
            return self.flag()
        if kind == "opt":
            return self.optional()
        if kind == "key":
            parts = [("domain", U32), ("nspace", U64), ("alias", "opt"), ("blob", "opt")]
            return {name: self.field(part) for name, part in parts}
        token = {name: self.field(part) for name, part in TOKEN}
        return {**token, "mac": self.take(32)}


def event_in(body):
    """The event that a body spells, without its client."""
    left = Body(body)
    try:
        act, fields = ACTS[left.number(1)]
        event = {name: left.field(kind) for name, kind in fields}
    except (KeyError, Short):
        raise BadFrame() from None
    if left.data:
        raise BadFrame()
    return {"act": act, "boot": 0, "wall": 1000, **event}


def reply_frame(reply):
    """A reply as a frame."""
    rule = reply.get("rule")
    body = reply["code"].to_bytes(4, "big", signed=True)
    body += bytes([ord(rule[0]), int(rule[1:])]) if rule else bytes(2)
    for name, (number, width) in NUMBERS.items():
        if name in reply:
            body += bytes([number]) + reply[name].to_bytes(width, "big")
    for name, number in TEXTS.items():
        if name in reply:
            text = reply[name].encode() if name == "alias" else bytes.fromhex(reply[name])
            body += bytes([number]) + counted(text)
    if "entries" in reply:
        rows = [counted(alias.encode()) + key.to_bytes(U64, "big") for alias, key in reply["entries"]]
        body += bytes([ENTRIES]) + len(rows).to_bytes(4, "big") + b"".join(rows)
    return counted(body)


class Connection:
    """A client's connection: the frames of its stream, and its client once one has come."""

    def __init__(self, service, stream):
        self.service, self.stream, self.client, self.held = service, stream, 0, b""

    def more(self, count):
        """Whether so many bytes are held, which are read where they are not."""
        while len(self.held) < count:
            piece = self.stream.recv(65536)
            if not piece:
                return False
            self.held += piece
        return True

    def next_body(self):
        """The next frame's body, or None at the end of the input."""
        if not self.more(4):
            return None
        size = int.from_bytes(self.held[:4], "big")
        if not 1 <= size <= MOST_BODY:
            raise BadFrame()
        if not self.more(4 + size):
            return None
        body, self.held = self.held[4 : 4 + size], self.held[4 + size :]
        return body

    def answer(self, event):
        reply = self.service.reply({**event, "client": self.client})
        if "ticket" in reply:
            return self.service.reply({"act": "leave", "ticket": reply["ticket"]})
        return reply

    def serve(self):
        try:
            while (body := self.next_body()) is not None:
                event = event_in(body)
                if (event["act"] == "connect") == (self.client > 0):
                    raise BadFrame()
                reply = self.answer(event)
                self.client = reply.get("client", self.client)
                self.stream.sendall(reply_frame(reply))
        except (BadFrame, ConnectionError):
            pass
        if self.client:
            self.service.reply({"act": "disconnect", "client": self.client})


def main():
    parser = parser_of(__doc__)
    parser.add_argument(
        "--port", type=int, default=0, metavar="N", help="the port; one that is free where none is given"
    )
    parser.add_argument("--connections", type=int, metavar="N", help="end after so many")
    words = parser.parse_args()
    service, served = Service(), 0
    with socket.create_server(("127.0.0.1", words.port)) as listener:
        print(listener.getsockname()[1], flush=True)
        while served != words.connections:
            stream, _ = listener.accept()
            with stream:
                Connection(service, stream).serve()
                try:
                    stream.shutdown(socket.SHUT_WR)
                except OSError:
                    pass
            served += 1
