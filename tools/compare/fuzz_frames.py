"""Sends streams of frames that are right, changed, cut, doubled and spliced to a service, and compares what comes
back with the second model's service.

    tools/ks compare fuzz_frames SEED SECONDS [--connections N] [--program PATH]

Each stream is one connection: it is sent in pieces of drawn lengths, and ends by its end, by a reset, or amid a
frame. Its frames are acts of apps and of the system over keys that are imported, so that no reply but a challenge,
a nonce or a blob rests on what is drawn. Most are sent as they are; of the others a byte is changed, bytes are cut
out or doubled, a length is at one of its bounds, the act is another number, or the rest of another stream goes on.
One connection is behind the other, so the model's replies are the service's; those bytes that are drawn are
compared by their lengths, and the time at which a key was made is not. With several connections at once nobody knows
the order of their calls: then each reply is looked at alone, its form, its code, and whether its rule is one of the
act's table (docs/RULES.md). At the end the service has as many threads and descriptors as at its beginning, no more
memory than the calls that it keeps account for, and its store opens. The exit status is 1 where something is
otherwise."""
import concurrent.futures
import contextlib
import os
import random
import re
import socket
import struct
import subprocess
import tempfile
import time

from compare.second_server import ACTS, NUMBERS, TEXTS, Connection
from keystore.harness import SLOWER, add_program, check, parser_of
from keystore.rules_page import CODES, RULES
from keystore.runs import PATIENCE, check_held, held_by, memory_of, once_it_listens, service_process
from keystore.spelling import Reader, counted, number, optional, u32, u64
from keystore_client import parameters
from make.made_lists import Draws, made_up
from model.second_model import Service

CONNECTIONS = 65_536
OWNER, OTHER, SYSTEM = 10001, 10002, 1000
ALIASES = [b"a", b"b", b"\xff", b"m" * 256]
HMAC = {"PURPOSE": [2, 3], "ALGORITHM": 128, "DIGEST": [4], "MIN_MAC_LENGTH": 64, "NO_AUTH_REQUIRED": True}
AES = {"PURPOSE": [0, 1], "ALGORITHM": 32, "BLOCK_MODE": [1], "PADDING": [1], "NO_AUTH_REQUIRED": True}
# A wrapping key (RFC 3394 section 4.1), and what is wrapped under it: 16 bytes 0b, and with its last bit changed.
WRAPPING_KEY = bytes(range(16))
WRAPPED = bytes.fromhex("4bfcdf431a6e8520e80c37265f00139117989610f0a27695")
WRAPPED_TEXTS = [WRAPPED, WRAPPED, WRAPPED[:-1] + b"\x94", WRAPPED[1:], b""]
WRAPPING = parameters(PURPOSE=[5], ALGORITHM=32, NO_AUTH_REQUIRED=True)
LISTS = [
    WRAPPING,
    parameters(**HMAC),
    parameters(**AES),
    parameters(**HMAC, USAGE_COUNT_LIMIT=2),
    parameters(**HMAC, APPLICATION_ID=b"id"),
    parameters(PURPOSE=[2], MAC_LENGTH=256),
    parameters(PURPOSE=[0], BLOCK_MODE=[1], PADDING=[1]),
    parameters(PURPOSE=[3]),
    parameters(),
    b"",
    b"\0\1",
]
# How many bytes of memory a service may take: for a call that it keeps, for a byte of its frames, and besides.
# The checked program takes more for a call, as it takes longer.
A_CALL, A_BYTE, BESIDES = 16_384 * int(os.environ.get(SLOWER) or 1), 4, 8 << 20
# The fields of a reply whose bytes are drawn, and those that are numbers, by their numbers in a frame.
DRAWN = {TEXTS["nonce"], TEXTS["blob"]}
CHALLENGE = NUMBERS["challenge"][0]
# The parameter CREATION_DATETIME of a list, whose time is the service's.
CREATED = b"\x60\x00\x02\xbd"
CREATION = re.compile(CREATED + b".{8}", re.DOTALL)
WIDTHS = dict(NUMBERS.values())
ENTRIES = 17


class Maker:
    """Draws frames and streams."""

    def __init__(self, seed):
        self.draws = random.Random(seed)
        self.lists = Draws(self.draws.randrange(1, 1 << 64))

    def key(self):
        draws = self.draws
        domain = draws.choice([0, 0, 0, 0, 1, 2, 4, 5])
        nspace = draws.choice([0, 1, 2, 3, 100]) if domain else 0
        alias = draws.choice(ALIASES) if domain in (0, 2) or draws.random() < 0.1 else None
        return u32(domain) + u64(nspace) + optional(alias) + optional(None)

    def a_list(self):
        """An encoded list, or bytes that are nearly one."""
        return made_up(self.lists) if self.draws.random() < 0.1 else self.draws.choice(LISTS)

    def text(self):
        return self.draws.randbytes(self.draws.choice([0, 1, 15, 16, 17, 64, 1000]))

    def body(self, act):
        """The body of a frame of an act."""
        draws, fields = self.draws, b""
        for name, kind in ACTS[act][1]:
            if kind == "key":
                fields += self.key()
            elif kind == "params":
                fields += counted(self.a_list())
            elif kind == "token":
                fields += draws.randbytes(68)
            elif kind == "flag":
                fields += bytes([draws.random() < 0.2])
            elif kind == "opt":
                fields += optional(draws.choice([None, None, draws.randbytes(32), b"a"]))
            elif kind == "bytes":
                fields += counted(self.data(name))
            else:
                fields += number(self.number(name), kind)
        return bytes([act]) + fields

    def data(self, name):
        """The bytes of a field."""
        if name == "wrapped":
            return self.draws.choice(WRAPPED_TEXTS)
        if name != "material":
            return self.text()
        return WRAPPING_KEY if self.draws.random() < 0.3 else self.draws.randbytes(self.draws.choice([16, 20, 32]))

    def number(self, name):
        draws = self.draws
        if name == "uid":
            return draws.choice([OWNER, OTHER, SYSTEM])
        if name == "format":
            return draws.choice([3, 3, 3, 0])
        return draws.choice([0, 1, 2, 3, 256, 260]) if name != "op" else draws.randint(0, 40)

    def acts(self):
        """The acts of a stream, behind its connect."""
        return self.draws.choices([it for it in ACTS if it not in (1, 3)], k=self.draws.randint(0, 12))

    def changed(self, frame):
        """A frame with something wrong, or something that happens to be right."""
        draws, at = self.draws, self.draws.randrange(len(frame))
        how = draws.randrange(6)
        if how == 0:
            return frame[:at] + bytes([draws.randrange(256)]) + frame[at + 1 :]
        if how == 1:
            return frame[:at] + frame[at + draws.randint(1, 8) :]
        if how == 2:
            return frame[:at] + frame[max(at - draws.randint(1, 8), 0) :]
        if how == 3:
            return u32(draws.choice([0, 1, 262_144, 262_145, 1 << 31, (1 << 32) - 1])) + frame[4:]
        if how == 4 and len(frame) > 4:
            return frame[:4] + bytes([draws.randrange(256)]) + frame[5:]
        return frame + frame[: draws.randint(1, len(frame))]

    def comes_wrapped(self):
        """A key that wraps, and one that comes under it, mostly so that it opens."""
        alias = self.draws.choice(ALIASES)
        key = u32(0) + u64(0) + optional(alias) + optional(None)
        yield b"\x04" + key + counted(WRAPPING) + u32(3) + counted(WRAPPING_KEY)
        wrapped = counted(self.data("wrapped")) + counted(self.draws.choice([b"\0\0", b"\0\0", b"\0\1"]))
        yield b"\x19" + self.key() + counted(self.a_list()) + key + wrapped

    def frames(self):
        """The bytes of some frames, of which one may be changed."""
        frames = [counted(self.body(1))] if self.draws.random() < 0.95 else []
        frames += [counted(self.body(act)) for act in self.acts()]
        if self.draws.random() < 0.1:
            frames += [counted(body) for body in self.comes_wrapped()]
        if frames and self.draws.random() < 0.5:
            place = self.draws.randrange(len(frames))
            frames[place] = self.changed(frames[place])
        return b"".join(frames)

    def stream(self):
        """The bytes of a connection: some frames, or a front of them, behind which the rest of others may go on."""
        stream = self.frames()
        if self.draws.random() < 0.2:
            stream = stream[: self.draws.randint(0, len(stream))]
            other = self.frames()
            stream += other[self.draws.randint(0, len(other)) :] if self.draws.random() < 0.5 else b""
        return stream

    def pieces(self, stream):
        """The stream in pieces of drawn lengths."""
        while stream:
            size = self.draws.choice([1, 3, 16, 200, 5000, len(stream)])
            yield stream[:size]
            stream = stream[size:]


class Told:
    """A stream that the model's connection reads, and the replies that it writes."""

    def __init__(self, stream):
        self.left, self.replies = stream, []

    def recv(self, count):
        piece, self.left = self.left[:count], self.left[count:]
        return piece

    def sendall(self, frame):
        self.replies.append(frame)


def masked(frame):
    """A reply's frame, in which what is drawn is told by its length alone."""
    reader, parts = Reader(frame[4:]), []
    parts.append(reader.take(6))
    while reader.data:
        field = reader.number(1)
        if field == ENTRIES:
            rows = [(reader.counted(), reader.number(8)) for _ in range(reader.number(4))]
            parts.append((field, rows))
        elif field in WIDTHS:
            value = reader.number(WIDTHS[field])
            parts.append((field, 0 if field == CHALLENGE else value))
        else:
            text = CREATION.sub(CREATED, reader.counted())
            parts.append((field, len(text) if field in DRAWN else text))
    return parts


def frames_in(data):
    """The whole frames at the front of bytes, and how many bytes are left behind them."""
    frames = []
    while len(data) >= 4 and len(data) >= 4 + int.from_bytes(data[:4], "big"):
        size = 4 + int.from_bytes(data[:4], "big")
        frames.append(data[:size])
        data = data[size:]
    return frames, len(data)


def check_form(request, reply):
    """A reply is one that an act may have: it reads, its code is known, and its rule is one of the act's table."""
    masked(reply)
    code, letter, row = struct.unpack(">iBB", reply[4:10])
    what = f"the reply {reply.hex()} to {request.hex()}"
    check(f"{what}, its code", code in CODES and (code == 0) <= (letter == 0), True)
    check(
        f"{what}, its rule", letter == 0 or f"{chr(letter)}{row}" in RULES and chr(letter) == table_of(request[4]), True
    )


def table_of(act):
    """The letter of an act's table of rules."""
    return {3: "K", 4: "K", 25: "K", 5: "B", 6: "S", 7: "S", 8: "S", 9: "S"}.get(act, "A")


def answers(port, pieces, wanted, is_reset):
    """What the service sends back to a stream, which ends by a reset behind its last reply, or by its end."""
    with once_it_listens(socket.create_connection, ("127.0.0.1", port)) as stream:
        stream.settimeout(PATIENCE)
        data = b""
        try:
            for piece in pieces:
                stream.sendall(piece)
            if not is_reset:
                stream.shutdown(socket.SHUT_WR)
            while not (is_reset and len(frames_in(data)[0]) >= wanted):
                piece = stream.recv(1 << 16)
                if not piece:
                    break
                data += piece
            if is_reset:
                stream.setsockopt(socket.SOL_SOCKET, socket.SO_LINGER, struct.pack("ii", 1, 0))
        except ConnectionError:
            pass
    return data


class Fuzz:
    """Services over empty stores, one behind another, and the second model beside each."""

    def __init__(self, program, folder, seed):
        self.program, self.folder, self.maker = program, folder, Maker(seed)
        self.connections, self.frames, self.resets, self.bytes = 0, 0, 0, 0

    def run(self, seconds, clients=1):
        end = time.monotonic() + seconds
        while time.monotonic() < end:
            if clients == 1:
                self.serve(end)
            else:
                self.serve_many(end, clients)

    @contextlib.contextmanager
    def service(self, workers):
        """A service over an empty store, which has as much at its end as at its beginning, and whose store opens."""
        check("init", subprocess.run([self.program, "init"], cwd=self.folder, check=False).returncode, 0)
        kept = self.kept()
        with service_process(self.program, self.folder, CONNECTIONS, workers) as (port, process):
            answers(port, [], 0, False)
            before, room = held_by(process), memory_of(process, "VmRSS")
            yield port
            answers(port, [], 0, False)
            check_held(process, before)
            grown, most = memory_of(process, "VmRSS") - room, self.kept() - kept + BESIDES
            check(f"{grown} bytes of memory more, and {most} may be", grown <= most, True)
            check("the end of the service", process.poll(), None)
        done = subprocess.run([self.program, "run"], input=b"", cwd=self.folder, capture_output=True, check=False)
        check("an opening of the store", done.returncode, 0)

    def kept(self):
        """How much memory the calls so far may take, in bytes."""
        return A_BYTE * self.bytes + A_CALL * self.frames

    def serve(self, end):
        """One service, until the time is over or it has had its connections, of which the last one looks at it."""
        self.model, last = Service(), self.connections + CONNECTIONS - 2
        with self.service(1) as port:
            while time.monotonic() < end and self.connections < last:
                self.one(port, self.maker.stream(), self.maker.draws.random() < 0.1)

    def serve_many(self, end, clients):
        """The same by clients that come at once."""
        makers = [Maker(self.maker.draws.random()) for _ in range(clients)]
        with self.service(clients) as port, concurrent.futures.ThreadPoolExecutor(clients) as pool:
            counts = pool.map(lambda maker: self.come(port, maker, end, CONNECTIONS // clients - 1), makers)
            for connections, frames, size in counts:
                self.connections += connections
                self.frames += frames
                self.bytes += size

    def come(self, port, maker, end, most):
        """The connections of one client; gives how many there were, how many replies, and the bytes of both ways."""
        connections = frames = size = 0
        while time.monotonic() < end and connections < most:
            stream = maker.stream()
            data = answers(port, maker.pieces(stream), 0, False)
            replies, left = frames_in(data)
            check(f"the bytes behind the replies to {stream.hex()}", left, 0)
            requests, _ = frames_in(stream)
            check(f"more replies than requests to {stream.hex()}", len(replies) <= len(requests), True)
            for request, reply in zip(requests, replies):
                check_form(request, reply)
            connections, frames, size = connections + 1, frames + len(replies), size + len(stream) + len(data)
        return connections, frames, size

    def one(self, port, stream, is_reset):
        """One connection."""
        told = Told(stream)
        Connection(self.model, told).serve()
        data = answers(port, self.maker.pieces(stream), len(told.replies), is_reset)
        frames, left = frames_in(data)
        self.connections += 1
        self.frames += len(told.replies)
        self.bytes += len(stream) + len(data)
        self.resets += is_reset
        check(f"the replies to {stream.hex()}", [masked(it) for it in frames], [masked(it) for it in told.replies])
        check(f"the bytes behind them to {stream.hex()}", left, 0)


def main():
    ask = parser_of(__doc__)
    ask.add_argument("seed", type=int, metavar="SEED")
    ask.add_argument("seconds", type=float, metavar="SECONDS")
    ask.add_argument("--connections", type=int, default=1, metavar="N", help="so many clients at once, up to 64")
    add_program(ask)
    words = ask.parse_args()
    with tempfile.TemporaryDirectory() as folder:
        fuzz = Fuzz(words.program, folder, words.seed)
        try:
            fuzz.run(words.seconds, words.connections)
        except AssertionError as fault:
            print(f"connection {fuzz.connections}: {fault}")
            return 1
    print(f"{fuzz.connections} connections, {fuzz.frames} replies, {fuzz.resets} resets: none differ")
    return 0
