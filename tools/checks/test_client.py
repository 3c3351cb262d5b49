"""The client's frames are those of `make/frames.py`, which spells them apart from it: each request that it writes,
and what it reads of each reply."""
import unittest

from keystore.cases import each
from keystore.harness import check
from keystore.spelling import counted
from keystore_client import Client, Key, ServiceError, read_reply
from make import frames


class Canned:
    """A stream that keeps what is sent and answers each request with code 0."""

    def __init__(self):
        self.sent, self.answer = [], b""

    def sendall(self, data):
        self.sent.append(data)
        self.answer = counted(bytes(6))

    def recv(self, count):
        piece, self.answer = self.answer[:count], self.answer[count:]
        return piece


def one_of_each(client):
    """The requests of `tools/make/frames.py`."""
    alias, blob = Key("m", 0, 10001), Key(None, 3, 0, b"\xaa\xbb")
    client.connect_as(10001)
    client.generateKey(alias, b"\x00\x00")
    client.importKey(blob, b"\x00\x01\x02", b"\x11" * 16)
    client.createOperation(Key(b"", 4294967295, 18446744073709551615, b"\x00"), b"", True)
    client.updateAad(7, b"ad")
    client.update(8, b"text")
    client.finish(9, b"", b"\x5a\x5b")
    client.abort(72623859790382856)
    client.getKeyEntry(alias)
    client.deleteKey(blob)
    client.grant(alias, 10002, 260)
    client.ungrant(alias, 10003)
    client.getNumberOfEntries(2, 101)
    client.listEntriesBatched(0, 5, b"a")
    client.addAuthToken(1, 2, 3, 4, 5, bytes(range(32)))
    client.deviceLocked(0)
    client.deviceUnlocked(42949)
    client.earlyBootEnded()
    client.clearNamespace(2, 100)
    client.userRemoved(10)
    client.upgradeKey(alias, b"\x00\x03")
    client.importWrappedKey(alias, b"\x00\x04", Key(None, 4, 9), b"\x22" * 24, b"\x00\x05\x06")


def refusal(body):
    """The code and the rule of a reply that is a refusal."""
    try:
        read_reply(body)
    except ServiceError as error:
        return error.code, error.rule, error.name
    return None


def bodies():
    return [reply[4:] for reply in frames.REPLIES]


class Requests(unittest.TestCase):
    def test_each_request_is_the_frame_that_is_spelled_apart(self):
        stream = Canned()
        one_of_each(Client(stream))
        check("how many requests", len(stream.sent), len(frames.REQUESTS))
        for sent, (frame, words) in zip(stream.sent, frames.REQUESTS):
            with self.subTest(request=words):
                check("the request", sent.hex(), frame.hex())


@each(
    [
        ("a broken rule", 1, (-28, "S1", "INVALID_OPERATION_HANDLE")),
        ("want of memory", 2, (-41, None, "MEMORY_ALLOCATION_FAILED")),
        ("a full run", 3, (1001, None, "RUN_FULL")),
    ]
)
class Refusals(unittest.TestCase):
    def show(self, place, wanted):
        check("the refusal", refusal(bodies()[place]), wanted)


class Replies(unittest.TestCase):
    def test_an_admitted_call(self):
        check("the fields", read_reply(bodies()[0]).fields, {})

    def test_all_fields(self):
        fields = [*range(1, 12), b"m", b"nonce", b"", b"\x4b", b"\x00\x00", [(b"a", 1), (b"bc", 2)]]
        check("the fields", list(read_reply(bodies()[4]).fields.values()), fields)
