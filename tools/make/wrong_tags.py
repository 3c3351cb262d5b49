"""Writes checks/wrong-tags.jsonl and its expected replies: the fourth case of the GCM specification, cut after every
length.

Each front of the ciphertext with its tag is opened in two pieces. A front shorter than a tag has no length that may
be opened, each longer one ends in bytes that are no tag of what stands before them, and the whole opens. No
operation goes on behind its finish."""
from keystore.lines import OK, Rows, begin, broken, call, folder_of, named, write

KEY = "feffe9928665731c6d6a8f9467308308"
NONCE = "cafebabefacedbaddecaf888"
DATA = "feedfacedeadbeeffeedfacedeadbeefabaddad2"
TEXT = bytes.fromhex(
    "d9313225f88406e5a55909c5aff5269a86a7a9531534f7da2e4c303d8a318a721c3c0c95956809532fcf0e2449a6b525b16aedf5"
    "aa0de657ba637b39"
)
SEALED = bytes.fromhex(
    "42831ec2217774244b7221b784d0d49ce3aa212f2c02a4e035c17e2329aca12e21d514b25466931c7d8f6a5aac84aa051ba30b39"
    "6a0aac973d58e091"
    "5bc94fbc3221a5db94fae95ae7121a47"
)
TAG = 16
PARAMS = [
    ["PURPOSE", 1],
    ["ALGORITHM", 32],
    ["BLOCK_MODE", 32],
    ["PADDING", 1],
    ["MIN_MAC_LENGTH", 128],
    ["NO_AUTH_REQUIRED", True],
]
ASKED = [["PURPOSE", 1], ["BLOCK_MODE", 32], ["PADDING", 1], ["MAC_LENGTH", 128], ["NONCE", NONCE]]


def out(start, end):
    return {"code": 0, "out": TEXT[start:end].hex()}


def ending(length, given):
    if length < TAG:
        return broken(-21, "S8")
    if length < len(SEALED):
        return {"code": -30}
    return out(given, len(TEXT))


def opening(rows, length):
    """An opening of the first bytes."""
    half = length // 2
    given = max(0, half - TAG)
    number = rows.begins(begin(1, named("k"), ASKED))
    rows.put(call(1, "updateAad", op=number, input=DATA), OK)
    rows.put(call(1, "update", op=number, input=SEALED[:half].hex()), out(0, given))
    rows.put(call(1, "finish", op=number, input=SEALED[half:length].hex()), ending(length, given))
    rows.put(call(1, "update", op=number), broken(-28, "S1"))


def wrong_tags():
    rows = Rows([10001])
    rows.key(1, "k", PARAMS, material=KEY)
    for length in range(len(SEALED) + 1):
        opening(rows, length)
    return rows.rows


def main():
    write(folder_of(__doc__), "wrong-tags", wrong_tags())
