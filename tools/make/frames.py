"""The frames of one request of each act, and of a few replies, written from the format alone (docs/FORMATS.md).

    tools/ks make frames

prints the tables that stand in `crates/frame_tests/src/frames.rt`: beside each frame its act, as Rust's `Debug`
writes it. It shares no code with the crate: it is the independent writer that the tests of `wire_frames` compare
with."""
from keystore.harness import parser_of
from keystore.spelling import counted, optional, u32, u64


def frame(body):
    return counted(body)


def owned(text):
    return f"Bytes {{ bytes: {list(text)} }}"


def maybe(text):
    return "None" if text is None else f"Some({owned(text)})"


# The fields of an act: what a frame has of each, and how Rust writes it.


def short(name, value):
    return u32(value), f"{name}: {value}"


def long(name, value):
    return u64(value), f"{name}: {value}"


def flag(name, value):
    return bytes([value]), f"{name}: {str(value).lower()}"


def text(name, value):
    return counted(value), f"{name}: {owned(value)}"


def material(value):
    """The bytes of a key, which Rust does not print."""
    return counted(value), "material: Material"


def given(name, value):
    return optional(value), f"{name}: {maybe(value)}"


def raw(name, value):
    return value, f"{name}: {list(value)}"


def descriptor(name, domain, nspace, alias, blob):
    parts = [short("domain", domain), long("nspace", nspace), given("alias", alias), given("blob", blob)]
    spelled = ", ".join(spelled for _, spelled in parts)
    return b"".join(part for part, _ in parts), f"{name}: Descriptor {{ {spelled} }}"


def key(*fields):
    return descriptor("key", *fields)


def act(number_of_act, name, *fields):
    """The frame of an act, and the act in words."""
    body = bytes([number_of_act]) + b"".join(part for part, _ in fields)
    words = ", ".join(spelled for _, spelled in fields)
    return frame(body), f"{name} {{ {words} }}" if fields else name


ALIAS = key(0, 10001, b"m", None)
BLOB = key(3, 0, None, b"\xaa\xbb")
BOTH = key(4294967295, 18446744073709551615, b"", b"\x00")

REQUESTS = [
    act(1, "Connect", short("uid", 10001)),
    act(3, "GenerateKey", ALIAS, text("params", b"\x00\x00")),
    act(4, "ImportKey", BLOB, text("params", b"\x00\x01\x02"), short("format", 3), material(b"\x11" * 16)),
    act(5, "CreateOperation", BOTH, text("params", b""), flag("forced", True)),
    act(6, "EnterAad", long("op", 7), text("input", b"ad")),
    act(7, "EnterUpdate", long("op", 8), text("input", b"text")),
    act(8, "EnterFinish", long("op", 9), text("input", b""), given("signature", b"\x5a\x5b")),
    act(9, "Abort", long("op", 72623859790382856)),
    act(10, "GetKeyEntry", ALIAS),
    act(11, "DeleteKey", BLOB),
    act(12, "Grant", ALIAS, short("uid", 10002), short("bits", 260)),
    act(13, "Ungrant", ALIAS, short("uid", 10003)),
    act(14, "GetNumberOfEntries", short("domain", 2), long("nspace", 101)),
    act(15, "ListEntriesBatched", short("domain", 0), long("nspace", 5), given("past", b"a")),
    act(
        16,
        "AddAuthToken",
        long("challenge", 1),
        long("user", 2),
        long("authenticator", 3),
        short("kind", 4),
        long("time", 5),
        raw("mac", bytes(range(32))),
    ),
    act(17, "DeviceLocked", short("user", 0)),
    act(18, "DeviceUnlocked", short("user", 42949)),
    act(19, "EarlyBootEnded"),
    act(20, "ClearNamespace", short("domain", 2), long("nspace", 100)),
    act(21, "UserRemoved", short("user", 10)),
    act(24, "UpgradeKey", ALIAS, text("params", b"\x00\x03")),
    act(
        25,
        "ImportWrappedKey",
        ALIAS,
        text("params", b"\x00\x04"),
        descriptor("wrapping", 4, 9, None, None),
        text("wrapped", b"\x22" * 24),
        text("unwrapping", b"\x00\x05\x06"),
    ),
]


def reply(code, rule, *fields):
    letter, row = rule if rule else (None, 0)
    head = code.to_bytes(4, "big", signed=True) + (bytes([ord(letter), row]) if letter else b"\x00\x00")
    return frame(head + b"".join(bytes([n]) + value for n, value in fields))


REPLIES = [
    reply(0, None),
    reply(-28, ("S", 1)),
    reply(-41, None),
    reply(1001, None),
    reply(
        0,
        None,
        (1, u64(1)),
        (2, u64(2)),
        (3, u64(3)),
        (4, u64(4)),
        (5, u64(5)),
        (6, u64(6)),
        (7, u64(7)),
        (8, u64(8)),
        (9, u32(9)),
        (10, u32(10)),
        (11, u64(11)),
        (12, counted(b"m")),
        (13, counted(b"nonce")),
        (14, counted(b"")),
        (15, counted(b"\x4b")),
        (16, counted(b"\x00\x00")),
        (17, u32(2) + counted(b"a") + u64(1) + counted(b"bc") + u64(2)),
    ),
]


def literal(text):
    return 'b"' + "".join(f"\\x{byte:02x}" for byte in text) + '"'


def main():
    parser_of(__doc__).parse_args()
    print(f"static FRAMES: [(&[u8], &str); {len(REQUESTS)}] = [")
    for row, words in REQUESTS:
        print(f'    ({literal(row)}, "{words}"),')
    print(f"];\n\nstatic REPLIES: [&[u8]; {len(REPLIES)}] = [")
    for row in REPLIES:
        print(f"    {literal(row)},")
    print("];")
