"""Other makers of a short mac on this machine, for `tools/measure/service_speed.py`: swtpm, which is asked over a
socket, and SoftHSM, a library in the caller's process. Each has the same key, and as context managers both give a value
with `mac(text)`.

`TpmServer` and `Token` make what several of them share; `is_there` of each says whether the machine has it (Debian's
packages are `swtpm` and `softhsm2`). Neither needs a package of Python."""
import contextlib
import ctypes
import os
import pathlib
import shutil
import socket
import subprocess
import time

from keystore_client import exactly

# SoftHSM takes no key of HMAC-SHA256 that is shorter.
KEY = b"\x0b" * 32
PATIENCE = 10.0

# TPM 2.0 Library, Part 2: numbers of structures, handles, algorithms and commands.
SESSIONS, NO_SESSIONS, RETRY = b"\x80\x02", b"\x80\x01", bytes.fromhex("00000922")
OWNER, PASSWORD = bytes.fromhex("40000001"), bytes.fromhex("40000009")
SHA256, HMAC, KEYED_HASH = b"\x00\x0b", b"\x00\x05", b"\x00\x08"
CREATE_PRIMARY, TPM2_HMAC, FLUSH_CONTEXT = (
    bytes.fromhex("00000131"),
    bytes.fromhex("00000155"),
    bytes.fromhex("00000165"),
)
# fixedTPM, fixedParent, userWithAuth, sign
ATTRIBUTES = bytes.fromhex("00040052")

# PKCS #11, version 2.40.
LIBRARIES = (
    "/usr/lib/softhsm/libsofthsm2.so",
    "/usr/lib64/pkcs11/libsofthsm2.so",
    "/usr/local/lib/softhsm/libsofthsm2.so",
)
USER, PIN = 1, b"1234"
SERIAL, READ_WRITE = 4, 2
CLASS, TOKEN, VALUE, KEY_TYPE, SIGN = 0x000, 0x001, 0x011, 0x100, 0x108
SECRET_KEY, GENERIC_SECRET, SHA256_HMAC = 4, 0x10, 0x251


def counted(data):
    return len(data).to_bytes(2, "big") + data


def connected(port):
    """A connection to this port, as soon as somebody listens."""
    end = time.monotonic() + PATIENCE
    while True:
        try:
            stream = socket.create_connection(("127.0.0.1", port), PATIENCE)
            stream.setsockopt(socket.IPPROTO_TCP, socket.TCP_NODELAY, 1)
            return stream
        except ConnectionRefusedError:
            if time.monotonic() > end:
                raise
            time.sleep(0.05)


class TpmServer:
    """A swtpm of its own in a folder, which serves one connection."""

    @staticmethod
    def is_there():
        return shutil.which("swtpm") is not None

    def __init__(self, folder, port):
        self.port = port
        words = [
            "--tpmstate",
            f"dir={folder}",
            "--server",
            f"type=tcp,port={port},bindaddr=127.0.0.1",
            "--ctrl",
            f"type=unixio,path={folder}/control",
        ]
        self.process = subprocess.Popen(["swtpm", "socket", "--tpm2", *words, "--flags", "not-need-init,startup-clear"])

    def __enter__(self):
        return self.port

    def __exit__(self, *_):
        self.process.kill()
        self.process.wait()


class Tpm:
    """A connection to a swtpm, with the key loaded; at its end the key goes, since a swtpm has place for three."""

    def __init__(self, port):
        self.port = port

    def __enter__(self):
        self.stream = connected(self.port)
        sensitive = counted(b"") + counted(KEY)
        public = KEYED_HASH + SHA256 + ATTRIBUTES + counted(b"") + HMAC + SHA256 + counted(b"")
        fields = counted(sensitive) + counted(public) + counted(b"") + bytes(4)
        self.key = self.asked(CREATE_PRIMARY, OWNER, fields)[:4]
        return self

    def __exit__(self, *_):
        self.stream.sendall(NO_SESSIONS + (14).to_bytes(4, "big") + FLUSH_CONTEXT + self.key)
        exactly(self.stream, 10)
        self.stream.close()

    def asked(self, command, handle, fields):
        """What a command answers behind its code; it is sent again while the answer is to do so."""
        session = PASSWORD + counted(b"") + b"\x00" + counted(b"")
        body = command + handle + len(session).to_bytes(4, "big") + session + fields
        code = RETRY
        while code == RETRY:
            self.stream.sendall(SESSIONS + (6 + len(body)).to_bytes(4, "big") + body)
            head = exactly(self.stream, 10)
            code, rest = head[6:], exactly(self.stream, int.from_bytes(head[2:6], "big") - 10)
        if code != bytes(4):
            raise ValueError(f"swtpm answered {code.hex()}")
        return rest

    def mac(self, text):
        answer = self.asked(TPM2_HMAC, self.key, counted(text) + SHA256)
        return answer[6 : 6 + int.from_bytes(answer[4:6], "big")]


class Attribute(ctypes.Structure):
    _fields_ = [("kind", ctypes.c_ulong), ("value", ctypes.c_void_p), ("length", ctypes.c_ulong)]


class Mechanism(ctypes.Structure):
    _fields_ = [("kind", ctypes.c_ulong), ("parameter", ctypes.c_void_p), ("length", ctypes.c_ulong)]


def library():
    """SoftHSM's library, where it is there."""
    return next((path for path in LIBRARIES if os.path.exists(path)), None)


class Token:
    """A token of SoftHSM in a folder; what is started while it is there uses it."""

    @staticmethod
    def is_there():
        return library() is not None and shutil.which("softhsm2-util") is not None

    def __init__(self, folder):
        tokens, settings = pathlib.Path(folder) / "tokens", pathlib.Path(folder) / "softhsm2.conf"
        tokens.mkdir()
        settings.write_text(f"directories.tokendir = {tokens}\nlog.level = ERROR\n", encoding="utf-8")
        os.environ["SOFTHSM2_CONF"] = str(settings)
        words = ["--init-token", "--free", "--label", "speed", "--pin", PIN.decode(), "--so-pin", PIN.decode()]
        subprocess.run(["softhsm2-util", *words], check=True, stdout=subprocess.DEVNULL)

    def __enter__(self):
        return self

    def __exit__(self, *_):
        del os.environ["SOFTHSM2_CONF"]


class SoftHsm:
    """A session with the token, in this process, and the key in it."""

    def __enter__(self):
        self.calls = ctypes.CDLL(library())
        self.session, self.key = ctypes.c_ulong(), ctypes.c_ulong()
        self.mechanism = Mechanism(SHA256_HMAC, None, 0)
        self.done("C_Initialize", None)
        count, slots = ctypes.c_ulong(8), (ctypes.c_ulong * 8)()
        self.done("C_GetSlotList", ctypes.c_ubyte(1), slots, ctypes.byref(count))
        self.done(
            "C_OpenSession",
            ctypes.c_ulong(slots[0]),
            ctypes.c_ulong(SERIAL | READ_WRITE),
            None,
            None,
            ctypes.byref(self.session),
        )
        self.done("C_Login", self.session, ctypes.c_ulong(USER), PIN, ctypes.c_ulong(len(PIN)))
        self.bring_key()
        return self

    def __exit__(self, *_):
        with contextlib.suppress(ValueError):
            self.done("C_Finalize", None)

    def done(self, name, *fields):
        answer = getattr(self.calls, name)(*fields)
        if answer:
            raise ValueError(f"{name} answered {answer:#x}")

    def bring_key(self):
        number, flag = ctypes.c_ulong, ctypes.c_ubyte
        values = [
            (CLASS, number(SECRET_KEY)),
            (KEY_TYPE, number(GENERIC_SECRET)),
            (TOKEN, flag(0)),
            (SIGN, flag(1)),
            (VALUE, ctypes.create_string_buffer(KEY, len(KEY))),
        ]
        rows = [
            Attribute(kind, ctypes.cast(ctypes.byref(value), ctypes.c_void_p), ctypes.sizeof(value))
            for kind, value in values
        ]
        self.done(
            "C_CreateObject",
            self.session,
            (Attribute * len(rows))(*rows),
            ctypes.c_ulong(len(rows)),
            ctypes.byref(self.key),
        )

    def mac(self, text):
        out, length = ctypes.create_string_buffer(32), ctypes.c_ulong(32)
        self.done("C_SignInit", self.session, ctypes.byref(self.mechanism), self.key)
        self.done("C_Sign", self.session, text, ctypes.c_ulong(len(text)), out, ctypes.byref(length))
        return out.raw[: length.value]
