"""The client writes and reads the session of docs/PROTOCOL.md, and the second model's server plays it.

`tools/keystore_client.py` has to write the page's requests and to read from its replies what the page says, and the
mac is that of Python's own library. The service itself plays the session in the check `service`."""
import hashlib
import hmac
import importlib
import socket
import subprocess
import sys

from keystore.cases import Case, each, needs_ciphers
from keystore.harness import TOOLS, TOP, check
from keystore.session import BAD_FRAMES, CLIENT, CONNECT, wrapped_frame
from keystore.spelling import counted, u32
from keystore_client import Client, Key, ServiceError, parameters

PAGE = TOP / "docs/PROTOCOL.md"


def session_in(page):
    """The turns of the page's session: what is sent, and what comes back."""
    turns = []
    for line in page.read_text(encoding="utf-8").splitlines():
        if not line.startswith("    "):
            continue
        words = line.split("#")[0].split()
        if words and words[0] in ("->", "<-"):
            turns.append((words.pop(0), bytearray()))
        elif not turns or not line.startswith("       "):
            continue
        turns[-1][1].extend(bytes.fromhex("".join(words)))
    return turns


class Page:
    """A stream that wants the page's requests, and gives its replies."""

    def __init__(self, turns):
        self.turns, self.left = list(turns), b""

    def sendall(self, data):
        check("a request of the client", (self.left, data), (b"", bytes(self.turns.pop(0)[1])))
        self.left = bytes(self.turns.pop(0)[1])

    def recv(self, count):
        piece, self.left = self.left[:count], self.left[count:]
        return piece


def refusal(call, *words):
    try:
        call(*words)
    except ServiceError as error:
        return error.code, error.rule
    return None


def read_page(turns):
    """What the page says of its session."""
    page = Page(turns)
    client, key, material = Client(page), Key(alias="m"), b"\x0b" * 20
    check("the client", client.connect_as(10001).fields, {"client": 1})
    params = parameters(PURPOSE=[2, 3], ALGORITHM=128, DIGEST=[4], MIN_MAC_LENGTH=64, NO_AUTH_REQUIRED=True)
    check("the key", client.importKey(key, params, material).fields, {"key": 1})
    check("the operation", client.createOperation(key, parameters(PURPOSE=[2], MAC_LENGTH=256)).fields, {"op": 1})
    check("the update", client.update(1, b"Hi ").fields, {"out": b""})
    check("the mac", client.finish(1, b"There").out, hmac.new(material, b"Hi There", hashlib.sha256).digest())
    check("the step behind it", refusal(client.update, 1, b""), (-28, "S1"))
    check("the listing", client.listEntriesBatched().entries, [(b"m", 1)])
    check("the end of the key", client.deleteKey(key).fields, {})
    read_sealing(client)
    check("what is left of the page", page.turns, [])


def read_sealing(client):
    """What the page says of GCM: test case 2 of its specification."""
    key, sealed = Key(alias="g"), bytes.fromhex("0388dace60b6a392f328c2b971b2fe78ab6e47d42cec13bdf53a67b21257bddf")
    common = {"BLOCK_MODE": [32], "PADDING": [1]}
    params = parameters(
        PURPOSE=[0, 1], ALGORITHM=32, CALLER_NONCE=True, MIN_MAC_LENGTH=128, NO_AUTH_REQUIRED=True, **common
    )
    seal, opening = (parameters(PURPOSE=[it], NONCE=bytes(12), MAC_LENGTH=128, **common) for it in (0, 1))
    check("the AES key", client.importKey(key, params, bytes(16)).fields, {"key": 2})
    check("the sealing", client.createOperation(key, seal).fields, {"op": 2})
    check("the sealed text", (client.update(2, bytes(16)).out, client.finish(2).out), (sealed[:16], sealed[16:]))
    check("the opening", client.createOperation(key, opening).fields, {"op": 3})
    check("the opened text", (client.update(3, sealed).out, client.finish(3).out), (bytes(16), b""))
    check("the second opening", client.createOperation(key, opening).fields, {"op": 4})
    check("a changed tag", refusal(client.finish, 4, sealed[:-1] + b"\xde"), (-30, None))
    check("the end of the AES key", client.deleteKey(key).fields, {})


def received(stream, count):
    """So many bytes of a stream, or what came before its end."""
    data = b""
    while len(data) < count and (piece := stream.recv(count - len(data))):
        data += piece
    return data


def play(port, turns):
    """Sends what is to be sent, and stops at the first bytes that come back otherwise."""
    with socket.create_connection(("127.0.0.1", port), timeout=20) as stream:
        for number, (way, data) in enumerate(turns, 1):
            if way == "->":
                stream.sendall(data)
            elif (found := received(stream, len(data))) != data:
                raise AssertionError(f"turn {number} gave {found.hex()} and not {data.hex()}")
        stream.shutdown(socket.SHUT_WR)
        if (more := stream.recv(1)) != b"":
            raise AssertionError(f"{more.hex()} behind the last reply")


class Protocol(Case):
    def test_the_client_writes_and_reads_the_page(self):
        read_page(session_in(PAGE))

    @needs_ciphers
    def test_the_second_model_plays_the_page(self):
        server = [sys.executable, TOOLS / "ks", "compare", "second_server", "--connections", "1"]
        with subprocess.Popen(server, stdout=subprocess.PIPE) as second:
            play(int(second.stdout.readline()), session_in(PAGE))


def second_replies(stream):
    """The frames that the second model's server gives to a stream."""
    told = importlib.import_module("compare.fuzz_frames").Told(stream)
    second = importlib.import_module("compare.second_server")
    second.Connection(second.Service(), told).serve()
    return told.replies


@needs_ciphers
@each(BAD_FRAMES.items())
class BadFrames(Case):
    """The second model's server gives the same as the service to what ends a connection: nothing."""

    def show(self, frame):
        check("the replies", second_replies(CONNECT + frame + CONNECT), [CLIENT])


@needs_ciphers
class GoodFrames(Case):
    """The frame of which the bad ones are made is a good one."""

    def test_a_wrapped_key_whose_wrapping_key_is_not_there(self):
        refused = counted(u32(7) + b"K\x13")
        check("the replies", second_replies(CONNECT + wrapped_frame() + wrapped_frame()), [CLIENT, refused, refused])
