#!/usr/bin/env python3
"""A client of the key service over a socket: a library with one method for each act, under the act's AOSP name, and a
command line over it. It needs no package. docs/PROTOCOL.md tells the protocol.

    from keystore_client import Client, Key, ServiceError, parameters

    with Client.connect(uid=10001) as client:
        key = Key(alias="m")
        params = parameters(
            ALGORITHM=128, KEY_SIZE=256, PURPOSE=[2, 3], DIGEST=[4], MIN_MAC_LENGTH=64, NO_AUTH_REQUIRED=True
        )
        client.generateKey(key, params)
        op = client.createOperation(key, parameters(PURPOSE=[2], MAC_LENGTH=256)).op
        mac = client.finish(op, b"a text").out

A client connects at its first call, ends its connection behind a minute without one, and connects anew at the next:
so it keeps no worker of the service from others. Its operations end with the connection. Where no service takes a
connection, or it ends before the client is told its number, it tries again for ten seconds, with pauses.

A refused call raises `ServiceError`, which has the code, the rule that was broken (None where it was none), AOSP's
name of the code and what it means; where the service's run is full it is a `RunFull`, behind a second try but for a
step of an operation. `Busy` is raised where no connection was had, so that nothing was asked; `Withheld` where the
connection ended before the reply, so that nobody knows whether the call was made: it is not made anew by itself. Both
are a `ConnectionEnded`, and so is what comes where another program answers. The command line:

    python3 tools/keystore_client.py connect --uid 10001
    python3 tools/keystore_client.py generate files --kind aes
    python3 tools/keystore_client.py import m --kind hmac --material-file secret.bin
    python3 tools/keystore_client.py import w --kind wrapping --material-file wrapping.bin
    python3 tools/keystore_client.py import_wrapped n w --kind hmac --wrapped-file secret.wrapped
    python3 tools/keystore_client.py entry m
    python3 tools/keystore_client.py mac m letter.txt
    python3 tools/keystore_client.py seal files letter.txt letter.sealed
    python3 tools/keystore_client.py open files letter.sealed letter.txt
    python3 tools/keystore_client.py list
    python3 tools/keystore_client.py count
    python3 tools/keystore_client.py grant m 10002
    python3 tools/keystore_client.py ungrant m 10002
    python3 tools/keystore_client.py upgrade --all
    python3 tools/keystore_client.py delete m --json
    python3 tools/keystore_client.py unlock 0
    python3 tools/make_token.py 7 --time 5000 | python3 tools/keystore_client.py token -

A file goes through in pieces, whatever its size, in less than 20 MB of memory, or 24 under a key with a use limit,
whose output comes at the end of each piece. Standard input is read before the service is called. What comes of it is
written beside its place and takes it once it is whole and right. A name that is there is not made anew but with
--replace, which ends the key that has it; and a key with a use limit is not used where it has fewer uses left than
the file has pieces. Options may stand before or behind the command. The exit status is 0 where all was done, 1 where
the call or the client refused, 2 for wrong words and files that are not to be had, 3 where no service answers, 4
where a mac is wrong, a wrapped key does not open or a file is not as it was sealed."""
import argparse
import contextlib
import io
import json
import os
import signal
import socket
import stat
import sys
import tempfile
import threading
import time

PORT = 7878
# How long a client keeps a connection without a call, and how long it tries to have one, in seconds: a service takes as
# many connections as it has workers, and the system keeps some more for it (docs/PROTOCOL.md, "A connection").
IDLE, PATIENCE = 60.0, 10.0
SHORTEST_PAUSE, LONGEST_PAUSE = 0.05, 1.0
# How long it waits for the next run where one is full, in seconds.
FULL_PAUSE = 0.2
MOST_INPUT = 32768

# The codes that Keystore2 and KeyMint name, with what they mean; those from 1001 on are the service's own.
CODES = {
    -2: ("UNSUPPORTED_PURPOSE", "a purpose is not one of the key's algorithm, or there is not exactly one"),
    -3: ("INCOMPATIBLE_PURPOSE", "the key does not have the purpose"),
    -4: ("UNSUPPORTED_ALGORITHM", "the key is neither for AES nor for HMAC"),
    -6: ("UNSUPPORTED_KEY_SIZE", "the size is not one of the algorithm's"),
    -7: ("UNSUPPORTED_BLOCK_MODE", "the mode is not known, or there is not exactly one"),
    -8: ("INCOMPATIBLE_BLOCK_MODE", "the key does not have the mode"),
    -9: ("UNSUPPORTED_MAC_LENGTH", "the mac or tag cannot have this length"),
    -10: ("UNSUPPORTED_PADDING_MODE", "the padding is not known, or there is not exactly one"),
    -11: ("INCOMPATIBLE_PADDING_MODE", "the key does not have the padding, or the mode takes none"),
    -12: (
        "UNSUPPORTED_DIGEST",
        "the digest is not known, or a new key's list has not exactly one, or an operation's more than one",
    ),
    -13: ("INCOMPATIBLE_DIGEST", "the digest is not the key's"),
    -15: ("INVALID_USER_ID", "the key is another user's"),
    -17: ("UNSUPPORTED_KEY_FORMAT", "the format of an import is not RAW"),
    -21: (
        "INVALID_INPUT_LENGTH",
        "a list or an id is too long; a wrapped key cannot have this length; all input is too long, or the text's "
        "length does not suit the mode",
    ),
    -24: ("KEY_NOT_YET_VALID", "the key is not active yet"),
    -25: ("KEY_EXPIRED", "the key has expired for this purpose"),
    -26: ("KEY_USER_NOT_AUTHENTICATED", "no token lets the user in"),
    -28: ("INVALID_OPERATION_HANDLE", "the operation is not open, or another client's"),
    -30: (
        "VERIFICATION_FAILED",
        "a token's mac is wrong; a wrapped key does not open under the wrapping key; at a finish, without a rule, the "
        "tag or the signature is wrong",
    ),
    -33: (
        "INVALID_KEY_BLOB",
        "the blob does not open, or not for this device and these ids; the key is of a newer system than the device's; "
        "the operation's key has ended",
    ),
    -38: (
        "INVALID_ARGUMENT",
        "KeyMint's: a tag that does not repeat stands twice; tags that do not go together, or a limit of 0; the key is "
        "of a newer system than the device's; at a finish, without a rule, the padding is none",
    ),
    -39: (
        "UNSUPPORTED_TAG",
        "a key of domain 3 has a count that only stored keys have; a key that wraps others has another purpose, or a "
        "limit",
    ),
    -40: ("INVALID_TAG", "the list does not read; additional data comes where none is taken"),
    -41: ("MEMORY_ALLOCATION_FAILED", "memory was wanting; the call changed nothing"),
    -44: ("IMPORT_PARAMETER_MISMATCH", "the material does not have the size that the list names"),
    -51: ("MISSING_NONCE", "a decryption needs a nonce"),
    -52: ("INVALID_NONCE", "the nonce does not have the mode's length"),
    -53: ("MISSING_MAC_LENGTH", "a mac or tag needs a length"),
    -55: ("CALLER_NONCE_PROHIBITED", "the key lets no caller choose the nonce"),
    -56: ("KEY_MAX_OPS_EXCEEDED", "the key has no begins left until the next restart"),
    -57: ("INVALID_MAC_LENGTH", "the mac or tag is shorter than the key allows"),
    -58: ("MISSING_MIN_MAC_LENGTH", "the key needs a least length of its macs or tags"),
    -59: ("UNSUPPORTED_MIN_MAC_LENGTH", "that least length is none that the digest or GCM has"),
    -62: ("KEY_REQUIRES_UPGRADE", "the key is of an older system than the device's, and works on once it was upgraded"),
    -72: ("DEVICE_LOCKED", "the caller's user is locked"),
    -73: ("EARLY_BOOT_ENDED", "early boot has ended"),
    4: ("SYSTEM_ERROR", "a call of the disk failed; a later call tells what became of a change"),
    6: ("PERMISSION_DENIED", "the caller may not do this"),
    7: ("KEY_NOT_FOUND", "no such key, or no such grant"),
    8: ("VALUE_CORRUPTED", "the bytes of the store are not those that are kept"),
    18: ("BACKEND_BUSY", "no slot is free, and no operation gives way"),
    19: ("OPERATION_BUSY", "a step of the operation is out"),
    20: ("INVALID_ARGUMENT", "Keystore2's: not connected, or not the call's form; a script's line is no event"),
    21: ("TOO_MUCH_DATA", "an input or a signature is too long"),
    1001: ("RUN_FULL", "the service's run is full, and the call added nothing: it has to be started again"),
    1002: ("STORE_FULL", "there is no place for one more key or grant, or no number for it"),
    1004: ("TOKENS_FULL", "there is no place for one more triple of user, authenticator and kind"),
    1005: ("ENTROPY_FAULT", "a draw of random bytes failed; the call changed nothing"),
    1006: ("NO_TICKET", "no step is out under the ticket"),
}
NAMES = {code: name for code, (name, _) in CODES.items()}

# Tags: the type and the number of each.
ENUM, ENUM_REP, UINT, UINT_REP, ULONG, DATE, BOOL, BIGNUM, BYTES, ULONG_REP = range(1, 11)
REPEATING = {ENUM_REP, UINT_REP, ULONG_REP}
TAGS = {
    "PURPOSE": (ENUM_REP, 1),
    "ALGORITHM": (ENUM, 2),
    "KEY_SIZE": (UINT, 3),
    "BLOCK_MODE": (ENUM_REP, 4),
    "DIGEST": (ENUM_REP, 5),
    "PADDING": (ENUM_REP, 6),
    "CALLER_NONCE": (BOOL, 7),
    "MIN_MAC_LENGTH": (UINT, 8),
    "EARLY_BOOT_ONLY": (BOOL, 305),
    "ACTIVE_DATETIME": (DATE, 400),
    "ORIGINATION_EXPIRE_DATETIME": (DATE, 401),
    "USAGE_EXPIRE_DATETIME": (DATE, 402),
    "MAX_USES_PER_BOOT": (UINT, 404),
    "USAGE_COUNT_LIMIT": (UINT, 405),
    "USER_ID": (UINT, 501),
    "USER_SECURE_ID": (ULONG_REP, 502),
    "NO_AUTH_REQUIRED": (BOOL, 503),
    "USER_AUTH_TYPE": (ENUM, 504),
    "AUTH_TIMEOUT": (UINT, 505),
    "UNLOCKED_DEVICE_REQUIRED": (BOOL, 509),
    "APPLICATION_ID": (BYTES, 601),
    "APPLICATION_DATA": (BYTES, 700),
    "CREATION_DATETIME": (DATE, 701),
    "ORIGIN": (ENUM, 702),
    "OS_VERSION": (UINT, 705),
    "OS_PATCHLEVEL": (UINT, 706),
    "NONCE": (BYTES, 1001),
    "MAC_LENGTH": (UINT, 1003),
}

# The fields of a reply: name, and bytes of a number; None for counted bytes.
FIELDS = {
    1: ("client", 8),
    2: ("key", 8),
    3: ("op", 8),
    4: ("challenge", 8),
    5: ("ticket", 8),
    6: ("pruned", 8),
    7: ("grant", 8),
    8: ("count", 8),
    9: ("uses", 4),
    10: ("domain", 4),
    11: ("nspace", 8),
    12: ("alias", None),
    13: ("nonce", None),
    14: ("out", None),
    15: ("blob", None),
    16: ("list", None),
}
ENTRIES = 17
MOST_BODY = 262144
# The greatest body of a reply: all output of an operation under a use limit, at its finish (docs/PROTOCOL.md).
MOST_REPLY = 1_048_603
WRONG, RUN_FULL, DENIED, NOT_FOUND = -30, 1001, 6, 7
# The acts on an operation, which ends with its connection.
STEPS = {6, 7, 8, 9}
FOREIGN = "what answers there is no such service"


class ServiceError(Exception):
    """A call that was refused."""

    def __init__(self, code, rule=None):
        self.code, self.rule, (self.name, self.meaning) = (
            code,
            rule,
            CODES.get(code, ("UNKNOWN", "no code of this client")),
        )
        super().__init__(f"{self.name} ({code})" + (f" by rule {rule}" if rule else "") + f": {self.meaning}")


class RunFull(ServiceError):
    """The service's run is full: the call added nothing, and the connection ends."""


class ConnectionEnded(Exception):
    """The service ended the connection, or what answers is no such service."""

    def __init__(self, text="the service ended the connection"):
        super().__init__(text)


class Withheld(ConnectionEnded):
    """The connection ended before the reply: whether the call was made is not known."""


class Busy(ConnectionEnded):
    """No service took a connection: nothing was asked."""


class Refused(Exception):
    """What the client does not ask for."""


class Changed(Exception):
    """A file that is not as it was sealed."""


def u32(value):
    return value.to_bytes(4, "big")


def u64(value):
    return value.to_bytes(8, "big")


def counted(data):
    return u32(len(data)) + data


def optional(data):
    return b"\x00" if data is None else b"\x01" + counted(data)


def text_bytes(text):
    return text.encode() if isinstance(text, str) else text


class Key:
    """What names a key: a domain (0 app, 1 grant, 2 SELinux, 3 blob, 4 key id), a namespace, an alias or a blob."""

    def __init__(self, alias=None, domain=0, nspace=0, blob=None):
        self.domain, self.nspace, self.alias, self.blob = domain, nspace, text_bytes(alias), blob

    def spelled(self):
        return u32(self.domain) + u64(self.nspace) + optional(self.alias) + optional(self.blob)


def value_bytes(kind, value):
    if kind == BYTES:
        return len(value).to_bytes(2, "big") + value
    if kind == BOOL:
        return b"\x01"
    return u64(value) if kind in (ULONG, ULONG_REP, DATE) else u32(value)


def parameters(**values):
    """An encoded authorization list, of tags by their names: a repeating tag takes a list of values, a flag takes
    True."""
    rows = []
    for name, value in values.items():
        kind, number = TAGS[name]
        for one in value if kind in REPEATING else [value]:
            rows.append((number, value_bytes(kind, one), u32(kind << 28 | number)))
    rows.sort()
    return len(rows).to_bytes(2, "big") + b"".join(tag + data for _, data, tag in rows)


class Reply:
    """The fields of an admitted call, by name; a field that is not there is None."""

    def __init__(self, fields):
        self.fields = fields

    def __getattr__(self, name):
        return self.fields.get(name)


class Reader:
    """Takes numbers and counted bytes off the front of what is read: a reply, or what else it is called."""

    def __init__(self, data, what="a reply"):
        self.data, self.what, self.place = data, what, 0

    def take(self, count):
        self.place += count
        if self.place > len(self.data):
            raise ValueError(f"{self.what} that is cut")
        return self.data[self.place - count : self.place]

    def number(self, count):
        return int.from_bytes(self.take(count), "big")

    def counted(self):
        return self.take(self.number(4))


def read_reply(body):
    """The fields of a reply's body; a refusal is raised."""
    reader = Reader(body)
    code = int.from_bytes(reader.take(4), "big", signed=True)
    letter, row = reader.take(2)
    if code:
        kind = RunFull if code == RUN_FULL else ServiceError
        raise kind(code, f"{chr(letter)}{row}" if letter else None)
    fields = {}
    while reader.place < len(body):
        number = reader.number(1)
        if number == ENTRIES:
            fields["entries"] = [(reader.counted(), reader.number(8)) for _ in range(reader.number(4))]
        elif number in FIELDS:
            name, width = FIELDS[number]
            fields[name] = reader.number(width) if width else reader.counted()
        else:
            raise ValueError(f"a reply with a field {number}, which is none")
    return Reply(fields)


def exactly(stream, count):
    """So many bytes of a stream; a ConnectionError where it ends before."""
    data, place = bytearray(count), 0
    while place < count:
        piece = stream.recv(min(count - place, 1 << 16))
        if not piece:
            raise ConnectionResetError("the peer has gone")
        data[place : place + len(piece)] = piece
        place += len(piece)
    return bytes(data)


def stream_to(host, port, timeout, patience):
    """A connection to a service. One that is refused or times out is tried again, for so many seconds, behind pauses of
    twice the length each."""
    end, pause = time.monotonic() + patience, SHORTEST_PAUSE
    while True:
        left = end - time.monotonic()
        try:
            stream = socket.create_connection(
                (host, port), timeout if patience == 0 else min(timeout or left, max(left, pause))
            )
            stream.settimeout(timeout)
            stream.setsockopt(socket.IPPROTO_TCP, socket.TCP_NODELAY, 1)
            return stream
        except OSError as error:
            if time.monotonic() + pause > end or not isinstance(error, (ConnectionError, TimeoutError)):
                raise
        time.sleep(pause)
        pause = min(2 * pause, LONGEST_PAUSE)


class Client:
    """A client of the service, over one connection at a time. Its methods are the acts, under the names that keystore2
    and KeyMint give them."""

    def __init__(self, stream, uid=None, where=None, idle=None):
        """Over a connection that is there, or over none yet: then it is made for calls of this uid, by what `stream_to`
        takes."""
        self.stream, self.uid, self.where, self.idle = stream, uid, where, idle
        self.lock, self.told, self.called = threading.Lock(), None, time.monotonic()

    @classmethod
    def connect(cls, uid, host="127.0.0.1", port=PORT, timeout=None, idle=IDLE, patience=PATIENCE):
        """A client for calls of this uid, which connects at its first call. A call may take `timeout` seconds, or as
        long as it takes where that is None; a connection ends behind `idle` seconds without a call, or never; and for
        one that is not to be had it is tried `patience` seconds."""
        return cls(None, uid, (host, port, timeout, patience), idle)

    def __enter__(self):
        return self

    def __exit__(self, *_):
        self.close()

    def close(self):
        """Ends the client for good, behind its last reply; with its connection its operations end."""
        with self.lock:
            self.where = None
            self.drop()

    def drop(self):
        """Ends the connection."""
        if self.stream is not None:
            self.stream.close()
            self.stream = None

    @property
    def number(self):
        """The number that the service gave this client; a client that is not connected connects for it."""
        self.open()
        return self.told

    def open(self):
        """Connects, where there is no connection."""
        with self.lock:
            self.join()

    def join(self):
        """The same, where no other call is under way."""
        if self.stream is not None:
            return
        if self.where is None:
            raise ConnectionEnded()
        host, port, timeout, patience = self.where
        end = time.monotonic() + patience
        while self.stream is None:
            try:
                self.stream = stream_to(host, port, timeout, max(end - time.monotonic(), 0))
                self.told = self.call_over(1, u32(self.uid)).client
            except OSError as error:
                self.drop()
                raise Busy(f"no service at {host} port {port}: {error}") from error
            except Withheld as error:
                if time.monotonic() + LONGEST_PAUSE > end:
                    raise Busy(str(error)) from error
                time.sleep(SHORTEST_PAUSE)
            except BaseException:
                self.drop()
                raise
        self.called = time.monotonic()
        if self.idle is not None:
            threading.Thread(target=self.watch, args=(self.stream,), daemon=True).start()

    def watch(self, stream):
        """Ends the connection once no call came for so long."""
        while True:
            time.sleep(max(self.called + self.idle - time.monotonic(), 0.001))
            with self.lock:
                if self.stream is not stream:
                    return
                if time.monotonic() >= self.called + self.idle:
                    self.drop()
                    return

    def exchange(self, body):
        """Sends the body of a request and gives that of its reply. Where that fails or takes too long, the
        connection ends: a reply that comes later would be taken for that of the next request."""
        try:
            self.stream.sendall(counted(body))
            size = int.from_bytes(exactly(self.stream, 4), "big")
            if size > MOST_REPLY:
                raise ConnectionEnded(FOREIGN)
            return exactly(self.stream, size)
        except ConnectionError as error:
            self.drop()
            raise Withheld() from error
        except BaseException:
            self.drop()
            raise

    def call_over(self, act, *fields):
        """Sends one request over the connection and reads its reply."""
        body = bytes([act]) + b"".join(fields)
        if len(body) > MOST_BODY:
            raise ValueError(f"a request of more than {MOST_BODY} bytes")
        reply = self.exchange(body)
        try:
            return read_reply(reply)
        except ValueError as error:
            self.drop()
            raise ConnectionEnded(FOREIGN) from error

    def call(self, act, *fields):
        """The same, over a connection that is made where there is none. Where the run is full the connection has
        ended, and a call that is no step of an operation is made once more over a new one, behind a pause."""
        with self.lock:
            try:
                return self.call_once(act, *fields)
            except RunFull:
                self.drop()
                if act in STEPS or self.where is None:
                    raise
            time.sleep(FULL_PAUSE)
            return self.call_once(act, *fields)

    def call_once(self, act, *fields):
        self.join()
        try:
            return self.call_over(act, *fields)
        finally:
            self.called = time.monotonic()

    def connect_as(self, uid):
        return self.call(1, u32(uid))

    # IKeystoreSecurityLevel

    def generateKey(self, key, params):
        return self.call(3, key.spelled(), counted(params))

    def importKey(self, key, params, material, form=3):
        return self.call(4, key.spelled(), counted(params), u32(form), counted(material))

    def importWrappedKey(self, key, params, wrapping, wrapped, unwrapping=parameters()):
        """Imports a key that comes wrapped under the key that `wrapping` names (`tools/wrap_key.py` wraps one);
        `unwrapping` has the application's id and data of that one, where it was made for any."""
        return self.call(25, key.spelled(), counted(params), wrapping.spelled(), counted(wrapped), counted(unwrapping))

    def createOperation(self, key, params, forced=False):
        return self.call(5, key.spelled(), counted(params), bytes([forced]))

    # IKeystoreOperation

    def updateAad(self, op, data):
        return self.call(6, u64(op), counted(data))

    def update(self, op, data):
        return self.call(7, u64(op), counted(data))

    def finish(self, op, data=b"", signature=None):
        return self.call(8, u64(op), counted(data), optional(signature))

    def abort(self, op):
        return self.call(9, u64(op))

    def upgradeKey(self, key, params=parameters()):
        """Seals a key anew for the system that the device runs now. The reply has `blob` where the key is handed in as
        one; `params` has the application's id and data, where the key was made for any."""
        return self.call(24, key.spelled(), counted(params))

    # IKeystoreService

    def getKeyEntry(self, key):
        return self.call(10, key.spelled())

    def deleteKey(self, key):
        return self.call(11, key.spelled())

    def grant(self, key, uid, bits):
        return self.call(12, key.spelled(), u32(uid), u32(bits))

    def ungrant(self, key, uid):
        return self.call(13, key.spelled(), u32(uid))

    def getNumberOfEntries(self, domain=0, nspace=0):
        return self.call(14, u32(domain), u64(nspace))

    def listEntriesBatched(self, domain=0, nspace=0, past=None):
        return self.call(15, u32(domain), u64(nspace), optional(text_bytes(past)))

    # IKeystoreAuthorization

    def addAuthToken(self, challenge, user, authenticator, kind, time, mac):
        return self.call(16, u64(challenge), u64(user), u64(authenticator), u32(kind), u64(time), mac)

    def deviceLocked(self, user):
        return self.call(17, u32(user))

    def deviceUnlocked(self, user):
        return self.call(18, u32(user))

    # IKeystoreMaintenance

    def earlyBootEnded(self):
        return self.call(19)

    def clearNamespace(self, domain, nspace):
        return self.call(20, u32(domain), u64(nspace))

    def userRemoved(self, user):
        return self.call(21, u32(user))


# ---- a file under a key

# A sealed file is four bytes that name its form, and a row of pieces. Each is four bytes of its length, twelve of its
# nonce, and the ciphertext with the tag of sixteen bytes behind it. The additional data of a piece is its number,
# whether it is the last one, and, behind the first piece, the first one's nonce, which no other file under the key has:
# so none can be moved, dropped, cut off or taken from another file unseen. A piece has as many bytes as one operation
# may take, with its additional data and its tag.
FRONT = b"KSF1"
NONCE, TAG = 12, 16
MOST_OPERATION = 1048576
PIECE = MOST_OPERATION - 9 - NONCE - TAG
SEALING = {"BLOCK_MODE": [32], "PADDING": [1], "MAC_LENGTH": 8 * TAG}


def taken(source, count):
    """So many bytes of a file, which is not to end before."""
    data = source.read(count)
    if len(data) != count:
        raise Changed("the file ends within a piece, or while it is read")
    return data


def worked(client, op, source, size, sink):
    """Puts all output of an operation on so many bytes of a file into another one."""
    for place in range(0, size, MOST_INPUT):
        sink.write(client.update(op, taken(source, min(MOST_INPUT, size - place))).out)
    sink.write(client.finish(op).out)


def place_of(first, number, last):
    """The additional data of a piece; `first` is the nonce of the first piece, or nothing for that piece itself."""
    return u64(number) + bytes([last]) + first


def at_once(client):
    """What makes each piece over one client, once."""
    return lambda work, source, sink: work(client)


def pieces_of(size):
    """In how many pieces a text of so many bytes is sealed."""
    return max(1, -(-size // PIECE))


def seal_file(each, key, source, size, sink):
    """Seals so many bytes of a file into another one; `each` makes the work on a piece, with a client."""
    first = b""
    sink.write(FRONT)

    def work(client):
        length = min(PIECE, size - number * PIECE)
        begun = client.createOperation(key, parameters(PURPOSE=[0], **SEALING))
        client.updateAad(begun.op, place_of(first, number, number + 1 == pieces_of(size)))
        sink.write(u32(length + TAG) + begun.nonce)
        worked(client, begun.op, source, length, sink)
        return begun.nonce

    for number in range(pieces_of(size)):
        nonce = each(work, source, sink)
        first = first or nonce


def pieces_in(source, size):
    """The sizes of a sealed file's pieces; it stands at their front then."""
    if source.read(len(FRONT)) != FRONT:
        raise Changed("this is no sealed file")
    sizes, place = [], len(FRONT)
    while place < size or not sizes:
        source.seek(place)
        sizes.append(int.from_bytes(taken(source, 4), "big"))
        place += 4 + NONCE + sizes[-1]
        if not TAG <= sizes[-1] <= PIECE + TAG or place > size:
            raise Changed("a sealed file that is cut or changed")
    source.seek(len(FRONT))
    return sizes


def open_file(each, key, source, sizes, sink):
    """Opens a sealed file of such pieces into another one, which is right where no error comes."""
    first = b""

    def work(client):
        nonce = taken(source, 4 + NONCE)[4:]
        op = client.createOperation(key, parameters(PURPOSE=[1], NONCE=nonce, **SEALING)).op
        client.updateAad(op, place_of(first, number, number + 1 == len(sizes)))
        worked(client, op, source, sizes[number], sink)
        return nonce

    for number in range(len(sizes)):
        nonce = each(work, source, sink)
        first = first or nonce


def seal(client, key, text):
    """A text as a sealed file."""
    sink = io.BytesIO()
    seal_file(at_once(client), key, io.BytesIO(text), len(text), sink)
    return sink.getvalue()


def unseal(client, key, sealed):
    """The text of a sealed file. A ServiceError -30 says that it is not what was sealed under this key, and so does
    `Changed`."""
    source, sink = io.BytesIO(sealed), io.BytesIO()
    open_file(at_once(client), key, source, pieces_in(source, len(sealed)), sink)
    return sink.getvalue()


# ---- the command line

KINDS = {
    "aes": {
        "ALGORITHM": 32,
        "PURPOSE": [0, 1],
        "BLOCK_MODE": [32],
        "PADDING": [1],
        "MIN_MAC_LENGTH": 8 * TAG,
        "NO_AUTH_REQUIRED": True,
    },
    "hmac": {"ALGORITHM": 128, "PURPOSE": [2, 3], "DIGEST": [4], "MIN_MAC_LENGTH": 64, "NO_AUTH_REQUIRED": True},
    "wrapping": {"ALGORITHM": 32, "PURPOSE": [5], "NO_AUTH_REQUIRED": True},
}
USE = 256
OWN, SYSTEM = 10001, 1000
STATUS_REFUSED, STATUS_USAGE, STATUS_NO_SERVICE, STATUS_WRONG = 1, 2, 3, 4


class Service:
    """The connection of a command, which is made when it is first wanted."""

    def __init__(self, words):
        self.words, self.client = words, None

    def connected(self):
        if self.client is None:
            words = self.words
            uid = words.uid if words.uid is not None else SYSTEM if words.of_system else OWN
            self.client = Client.connect(uid, words.host, words.port, words.timeout, idle=None, patience=0.0)
        self.client.open()
        return self.client

    def close(self):
        if self.client is not None:
            self.client.close()
            self.client = None

    def each(self, limited):
        """What makes the work on a piece. Where the run is full, or the service gone, it waits for the next one for
        as long as the words say, and makes the piece anew; under a key with a use limit, whose use may have counted,
        only where the run is full."""

        def work_on(work, source, sink):
            places, end = (source.tell(), sink.tell()), time.monotonic() + self.words.wait
            while True:
                try:
                    return work(self.connected())
                except (ServiceError, ConnectionEnded) as error:
                    is_full = isinstance(error, ServiceError) and error.code == RUN_FULL
                    may_go_on = is_full or not limited and isinstance(error, ConnectionEnded)
                    if not may_go_on or time.monotonic() > end:
                        raise
                self.close()
                time.sleep(FULL_PAUSE)
                source.seek(places[0])
                sink.seek(places[1])
                sink.truncate()

        return work_on


@contextlib.contextmanager
def opened(name):
    """A file and its size. What is no file of a disk, as standard input, is read to its end first, and kept in one."""
    with sys.stdin.buffer if name == "-" else open(name, "rb") as file:
        if stat.S_ISREG(os.fstat(file.fileno()).st_mode) and name != "-":
            yield file, os.fstat(file.fileno()).st_size
            return
        with tempfile.TemporaryFile() as kept:
            while piece := file.read(MOST_INPUT):
                kept.write(piece)
            size = kept.tell()
            kept.seek(0)
            yield kept, size


def copied(source, sink):
    source.seek(0)
    while piece := source.read(MOST_INPUT):
        sink.write(piece)
    sink.flush()


@contextlib.contextmanager
def whole(name):
    """A file that takes its place under a name when what is done with it is done, and else is gone."""
    place = os.path.realpath(name)
    if name == "-" or os.path.exists(place) and not os.path.isfile(place):
        with tempfile.TemporaryFile() as file:
            yield file
            if name == "-":
                copied(file, sys.stdout.buffer)
            else:
                with open(place, "wb") as sink:
                    copied(file, sink)
        return
    file = tempfile.NamedTemporaryFile(
        dir=os.path.dirname(place), prefix=f".{os.path.basename(place)[:200]}.", delete=False
    )
    try:
        with file:
            yield file
            file.flush()
            os.fchmod(
                file.fileno(),
                stat.S_IMODE(os.stat(place).st_mode) if os.path.exists(place) else 0o666 & ~current_mask(),
            )
            os.fsync(file.fileno())
        os.replace(file.name, place)
    except BaseException:
        with contextlib.suppress(FileNotFoundError):
            os.unlink(file.name)
        raise


def current_mask():
    mask = os.umask(0)
    os.umask(mask)
    return mask


def named_key(words):
    """The key of a command: the caller's own by its alias, or one that was granted by the grant's number."""
    return Key(domain=1, nspace=words.granted) if words.granted is not None else Key(alias=words.key)


def entry_of(client, key):
    """What the service tells of a key; None where there is none, or where the caller may not know."""
    try:
        return client.getKeyEntry(key)
    except ServiceError as error:
        if error.code in (NOT_FOUND, DENIED):
            return None
        raise


def check_uses(client, key, wanted):
    """Whether a key has a use limit; refused where it has fewer uses left than are wanted."""
    entry = entry_of(client, key)
    if entry is None or entry.uses is None:
        return False
    if entry.uses < wanted:
        raise Refused(f"{wanted} uses are wanted, one for each piece, and the key has {entry.uses} left: none was used")
    return True


def do_connect(service, _):
    return {"client": service.connected().number}


def limits(words):
    return {} if words.uses is None else {"USAGE_COUNT_LIMIT": words.uses}


def check_name(client, words):
    """A name that is there is not made anew unasked."""
    entry = None if words.replace else entry_of(client, Key(alias=words.key))
    if entry is not None:
        raise Refused(
            f"{words.key} is there, key {entry.key}: with --replace it ends, and all that is sealed under it with it"
        )


def do_generate(service, words):
    params, client = parameters(KEY_SIZE=words.bits, **KINDS[words.kind], **limits(words)), service.connected()
    check_name(client, words)
    return client.generateKey(Key(alias=words.key), params).fields


def given_bytes(data, name):
    """The bytes that the words give, or those of a file."""
    if data is not None:
        return data
    with opened(name) as (file, _):
        return file.read(MOST_INPUT)


def do_import(service, words):
    material = given_bytes(words.material, words.material_file)
    params, client = parameters(**KINDS[words.kind], **limits(words)), service.connected()
    check_name(client, words)
    return client.importKey(Key(alias=words.key), params, material).fields


def do_import_wrapped(service, words):
    wrapped = given_bytes(words.wrapped, words.wrapped_file)
    params, client = parameters(**KINDS[words.kind], **limits(words)), service.connected()
    check_name(client, words)
    return client.importWrappedKey(Key(alias=words.key), params, Key(alias=words.wrapping), wrapped).fields


def do_mac(service, words):
    key = named_key(words)
    with opened(words.file) as (source, size):
        if size > MOST_OPERATION:
            raise Refused(
                f"{words.file} has {size} bytes, and an operation takes {MOST_OPERATION}: the key was not used"
            )
        client, out = service.connected(), io.BytesIO()
        check_uses(client, key, 1)
        if words.verify is None:
            op = client.createOperation(key, parameters(PURPOSE=[2], DIGEST=[4], MAC_LENGTH=words.bits)).op
            worked(client, op, source, size, out)
            return {"mac": out.getvalue()}
        op = client.createOperation(key, parameters(PURPOSE=[3], DIGEST=[4])).op
        for place in range(0, size, MOST_INPUT):
            client.update(op, taken(source, min(MOST_INPUT, size - place)))
        client.finish(op, signature=words.verify)
        return {"verified": True}


def do_seal(service, words):
    key = named_key(words)
    with opened(words.file) as (source, size), whole(words.out) as sink:
        limited = check_uses(service.connected(), key, pieces_of(size))
        seal_file(service.each(limited), key, source, size, sink)
        return None if words.out == "-" else {"sealed": sink.tell()}


def do_open(service, words):
    key = named_key(words)
    with opened(words.file) as (source, size), whole(words.out) as sink:
        sizes = pieces_in(source, size)
        limited = check_uses(service.connected(), key, len(sizes))
        open_file(service.each(limited), key, source, sizes, sink)
        return None if words.out == "-" else {"opened": sink.tell()}


def do_list(service, _):
    client, entries, more = service.connected(), [], [None]
    while more:
        more = client.listEntriesBatched(past=entries[-1][0] if entries else None).entries
        entries += more
    return {"entries": entries}


def do_entry(service, words):
    return service.connected().getKeyEntry(named_key(words)).fields


def do_count(service, _):
    return service.connected().getNumberOfEntries().fields


def upgraded(client, alias):
    """Upgrades a key; an entry of it where that changed its list."""
    key = Key(alias=alias)
    before = client.getKeyEntry(key)
    client.upgradeKey(key)
    return [] if client.getKeyEntry(key).list == before.list else [(text_bytes(alias), before.key)]


def do_upgrade(service, words):
    """Upgrades a key, or all of the caller's, and tells those that were changed; what is refused of all of them stops
    no other."""
    if words.all == (words.key is not None):
        raise ValueError("a key is named, or --all is given")
    if not words.all:
        return {"entries": upgraded(service.connected(), words.key)}
    entries, refused = [], []
    for alias, _ in do_list(service, None)["entries"]:
        try:
            entries += upgraded(service.connected(), alias)
        except ServiceError as error:
            refused.append(f"{alias.decode(errors='replace')}: {error}")
    show({"entries": entries}, words.json)
    if refused:
        raise Refused("; ".join(refused))
    return None


def do_grant(service, words):
    return service.connected().grant(Key(alias=words.key), words.grantee, words.bits).fields


def do_ungrant(service, words):
    return service.connected().ungrant(Key(alias=words.key), words.grantee).fields


def do_delete(service, words):
    return service.connected().deleteKey(Key(alias=words.key)).fields


def do_token(service, words):
    """Brings the token of a line, as tools/make_token.py prints it."""
    with opened(words.file) as (source, _):
        try:
            line = json.loads(source.read(MOST_INPUT))
            token = [line[it] for it in ("challenge", "user", "authenticator", "kind", "time")] + [
                bytes.fromhex(line["mac"])
            ]
        except (ValueError, KeyError, TypeError):
            raise ValueError(f"{words.file} has no line of a token") from None
    return service.connected().addAuthToken(*token).fields


def do_lock(service, words):
    return service.connected().deviceLocked(words.user).fields


def do_unlock(service, words):
    return service.connected().deviceUnlocked(words.user).fields


def tags_in(data):
    """An encoded authorization list in words."""
    reader, words, names = Reader(data, "a list"), [], {number: (name, kind) for name, (kind, number) in TAGS.items()}
    for _ in range(reader.number(2)):
        name, kind = names[reader.number(4) & 0x0FFFFFFF]
        if kind == BYTES:
            words.append(f"{name} {reader.take(reader.number(2)).hex()}")
        elif kind == BOOL:
            reader.take(1)
            words.append(name)
        else:
            words.append(f"{name} {reader.number(8 if kind in (ULONG, ULONG_REP, DATE) else 4)}")
    return ", ".join(words)


def plain(value):
    """Bytes as text: an alias where it is UTF-8, and else hex."""
    if isinstance(value, bytes):
        return value.hex()
    if isinstance(value, (list, tuple)):
        return [[one[0].decode(errors="replace"), one[1]] for one in value]
    return value


def show(result, as_json):
    if result is None:
        return
    spelled = {"alias": lambda it: it.decode(errors="replace"), "list": plain if as_json else tags_in}
    result = {name: spelled.get(name, plain)(value) for name, value in result.items()}
    if as_json:
        print(json.dumps(result))
        return
    for name, value in result.items():
        if name == "entries":
            for alias, key in value:
                print(f"{key}\t{alias}")
        else:
            print(value if name == "mac" else f"{name} {value}")


def number(bits):
    """What reads a word as a number of so many bits."""

    def read(word):
        value = int(word)
        if not 0 <= value < 1 << bits:
            raise ValueError
        return value

    read.__name__ = f"number of {bits} bits"
    return read


def hex_bytes(word):
    return bytes.fromhex(word)


def seconds(word):
    value = float(word)
    if not 0 <= value < 1e9:
        raise ValueError
    return value


hex_bytes.__name__, seconds.__name__ = "hex text", "number of seconds"


def options(parser, absent):
    """The options that each command has; they may stand before it too."""

    def add(name, default, **form):
        parser.add_argument(name, default=default if absent is None else absent, **form)

    add(
        "--uid",
        None,
        type=number(32),
        help=f"the uid that calls ({OWN}; {SYSTEM}, the system, for token, lock and unlock)",
    )
    add("--host", "127.0.0.1", help="the service's machine (this one)")
    add("--port", PORT, type=number(16), help=f"the service's port ({PORT})")
    add("--timeout", 60.0, type=seconds, metavar="SECONDS", help="how long a call may take (60)")
    add(
        "--wait",
        0.0,
        type=seconds,
        metavar="SECONDS",
        help="how long a piece waits for the next run of a service that is full or gone (0)",
    )
    add("--json", False, action="store_true", help="write one JSON object")


def words_of(words):
    common = argparse.ArgumentParser(add_help=False)
    options(common, argparse.SUPPRESS)
    parser = argparse.ArgumentParser(description=__doc__.split("\n\n", maxsplit=1)[0])
    options(parser, None)
    commands = parser.add_subparsers(dest="command", required=True, metavar="COMMAND")

    def command(name, does, text, *places, of_system=False):
        one = commands.add_parser(name, help=text, description=text, parents=[common])
        for place in places:
            one.add_argument(place)
        one.set_defaults(does=does, of_system=of_system)
        return one

    command("connect", do_connect, "connect, and tell the client's number")
    made = [
        command("generate", do_generate, "let the service draw a key", "key"),
        command("import", do_import, "bring a key's bytes", "key"),
        command("import_wrapped", do_import_wrapped, "bring a key wrapped under another one", "key", "wrapping"),
    ]
    made[0].add_argument("--bits", type=number(32), default=256, help="the key's size (256)")
    material = made[1].add_mutually_exclusive_group(required=True)
    material.add_argument(
        "--material", type=hex_bytes, metavar="HEX", help="the key's bytes, for all to see who may list processes"
    )
    material.add_argument("--material-file", metavar="FILE", help="a file of the key's bytes (- for standard input)")
    wrapped = made[2].add_mutually_exclusive_group(required=True)
    wrapped.add_argument("--wrapped", type=hex_bytes, metavar="HEX", help="the wrapped bytes")
    wrapped.add_argument("--wrapped-file", metavar="FILE", help="a file of the wrapped bytes (- for standard input)")
    for one in made:
        one.add_argument("--kind", choices=sorted(KINDS), default="aes")
        one.add_argument("--uses", type=number(32), metavar="N", help="the key works N times")
        one.add_argument("--replace", action="store_true", help="a key that has the name ends")
    used = [
        command("mac", do_mac, "HMAC-SHA256 of a file (- for standard input)", "key", "file"),
        command("seal", do_seal, "seal a file with AES-GCM (- for standard input, or output)", "key", "file", "out"),
        command("open", do_open, "open a sealed file", "key", "file", "out"),
        command("entry", do_entry, "what is known of a key", "key"),
    ]
    used[0].add_argument("--bits", type=number(32), default=256, help="the mac's length (256)")
    used[0].add_argument("--verify", type=hex_bytes, metavar="HEX", help="verify this mac instead")
    for one in used:
        one.add_argument("--granted", type=number(64), metavar="N", help="the key of this grant, whatever KEY says")
    command("list", do_list, "the caller's keys")
    command("count", do_count, "how many keys the caller has")
    granted = command("grant", do_grant, "let another uid use a key", "key")
    granted.add_argument("grantee", type=number(32), metavar="uid")
    granted.add_argument("--bits", type=number(32), default=USE, help=f"what it may do ({USE}, use)")
    command("ungrant", do_ungrant, "take a grant back", "key").add_argument("grantee", type=number(32), metavar="uid")
    command("delete", do_delete, "delete a key", "key")
    anew = command("upgrade", do_upgrade, "seal a key anew for the device's system, and tell it where it changed")
    anew.add_argument("key", nargs="?")
    anew.add_argument("--all", action="store_true", help="all of the caller's keys")
    command("token", do_token, "bring a token, as tools/make_token.py prints it", "file", of_system=True)
    for name, does, text in (
        ("lock", do_lock, "the device is locked for a user"),
        ("unlock", do_unlock, "the device is unlocked for a user"),
    ):
        command(name, does, text, of_system=True).add_argument("user", type=number(32))
    return parser.parse_args(words)


def ended(text, status):
    """Tells why a command was not done, and gives its status."""
    with contextlib.suppress(OSError):
        print(f"keystore_client: {text}", file=sys.stderr)
    return status


def run(words):
    service = Service(words)
    try:
        show(words.does(service, words), words.json)
        sys.stdout.flush()
        return 0
    except ServiceError as error:
        if words.json:
            print(json.dumps({"code": error.code, "rule": error.rule, "name": error.name}))
        return ended(error, STATUS_WRONG if error.code == WRONG else STATUS_REFUSED)
    except Changed as error:
        return ended(error, STATUS_WRONG)
    except Refused as error:
        return ended(error, STATUS_REFUSED)
    except TimeoutError:
        return ended(f"no reply within {words.timeout:g} seconds", STATUS_NO_SERVICE)
    except ConnectionEnded as error:
        return ended(error, STATUS_NO_SERVICE)
    except BrokenPipeError:
        os.dup2(os.open(os.devnull, os.O_WRONLY), 1)
        return ended("nobody reads what it writes", STATUS_USAGE)
    except (OSError, ValueError) as error:
        return ended(error, STATUS_USAGE)
    except KeyboardInterrupt:
        return ended("interrupted", 128 + signal.SIGINT)
    finally:
        service.close()


def main():
    def stopped(number, _):
        raise SystemExit(128 + number)

    signal.signal(signal.SIGTERM, stopped)
    sys.exit(run(words_of(sys.argv[1:])))


if __name__ == "__main__":
    main()
