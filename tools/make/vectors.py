"""Writes checks/vectors.jsonl, checks/macs.jsonl and checks/paddings.jsonl and their expected replies: published
vectors, whose texts are handed in as pieces of one byte, of fifteen, of a block and of more than all.

The vectors are those of SP 800-38A, appendix F (ECB, CBC and CTR), of the Galois/Counter Mode of Operation (McGrew and
Viega), appendix B (cases 1 to 4, 7 to 10 and 13 to 16, and case 4 with a tag of 96 bits), and of RFC 4231 (cases 1, 3,
4 and 5, since the keys of the others have fewer than 64 bits, or more than 512). What an update tells is the front of
the output that its mode gives by then, less what came before.

With --wrapped it writes no file and prints, by the program `openssl`, the table of wrapped keys that stands in
crates/library_tests/src/wrapped.rt: the vectors of RFC 3394 section 4, which it holds against those that are
published, and every other length of a key and of a text."""
import subprocess

from keystore.lines import FOLDER, OK, Rows, begin, call, named, write
from keystore.harness import check, folder_at, parser_of

ECB, CBC, CTR, GCM = 1, 2, 3, 32
NO_PADDING, PKCS7 = 1, 64
AES_LIST = [
    ["PURPOSE", 0],
    ["PURPOSE", 1],
    ["ALGORITHM", 32],
    *(["BLOCK_MODE", mode] for mode in (ECB, CBC, CTR, GCM)),
    ["PADDING", NO_PADDING],
    ["PADDING", PKCS7],
    ["MIN_MAC_LENGTH", 96],
    ["CALLER_NONCE", True],
    ["NO_AUTH_REQUIRED", True],
]
PIECES = [1, 15, 16, 256]
BLOCKS = (
    "6bc1bee22e409f96e93d7e117393172aae2d8a571e03ac9c9eb76fac45af8e51"
    "30c81c46a35ce411e5fbc1191a0a52eff69f2445df4f9b17ad2b417be66c3710"
)
KEYS = [
    "2b7e151628aed2a6abf7158809cf4f3c",
    "8e73b0f7da0e6452c810f32b809079e562f8ead2522c6b7b",
    "603deb1015ca71be2b73aef0857d77811f352c073b6108d72d9810a30914dff4",
]
FIRST_BLOCKS = {ECB: None, CBC: "000102030405060708090a0b0c0d0e0f", CTR: "f0f1f2f3f4f5f6f7f8f9fafbfcfdfeff"}
# For each mode what it makes of the blocks under each key.
MODES = {
    ECB: [
        "3ad77bb40d7a3660a89ecaf32466ef97f5d3d58503b9699de785895a96fdbaaf"
        "43b1cd7f598ece23881b00e3ed0306887b0c785e27e8ad3f8223207104725dd4",
        "bd334f1d6e45f25ff712a214571fa5cc974104846d0ad3ad7734ecb3ecee4eef"
        "ef7afd2270e2e60adce0ba2face6444e9a4b41ba738d6c72fb16691603c18e0e",
        "f3eed1bdb5d2a03c064b5a7e3db181f8591ccb10d410ed26dc5ba74a31362870"
        "b6ed21b99ca6f4f9f153e7b1beafed1d23304b7a39f9f3ff067d8d8f9e24ecc7",
    ],
    CBC: [
        "7649abac8119b246cee98e9b12e9197d5086cb9b507219ee95db113a917678b2"
        "73bed6b8e3c1743b7116e69e222295163ff1caa1681fac09120eca307586e1a7",
        "4f021db243bc633d7178183a9fa071e8b4d9ada9ad7dedf4e5e738763f69145a"
        "571b242012fb7ae07fa9baac3df102e008b0e27988598881d920a9e64f5615cd",
        "f58c4c04d6e5f1ba779eabfb5f7bfbd69cfc4e967edb808d679f777bc6702c7d"
        "39f23369a9d9bacfa530e26304231461b2eb05e2c39be9fcda6c19078c6a9d1b",
    ],
    CTR: [
        "874d6191b620e3261bef6864990db6ce9806f66b7970fdff8617187bb9fffdff"
        "5ae4df3edbd5d35e5b4f09020db03eab1e031dda2fbe03d1792170a0f3009cee",
        "1abc932417521ca24f2b0459fe7e6e0b090339ec0aa6faefd5ccc2c6f4ce8e94"
        "1e36b26bd1ebc670d1bd1d665620abf74f78a7f6d29809585a97daec58c6b050",
        "601ec313775789a5b7a7f504bbf3d228f443e3ca4d62b59aca84e990cacaf5c5"
        "2b0930daa23de94ce87017ba2d84988ddfc9c58db67aada613c2dd08457941a6",
    ],
}
NO_NONCE, NONCE = "00" * 12, "cafebabefacedbaddecaf888"
GCM_KEY = "feffe9928665731c6d6a8f9467308308"
TEXT = (
    "d9313225f88406e5a55909c5aff5269a86a7a9531534f7da2e4c303d8a318a72"
    "1c3c0c95956809532fcf0e2449a6b525b16aedf5aa0de657ba637b391aafd255"
)
DATA = "feedfacedeadbeeffeedfacedeadbeefabaddad2"
# The ciphertexts of TEXT under each key, and for each case of a key of so many bytes its tag: no text, a block 00,
# TEXT, and the first 60 bytes of it with DATA.
SEALED = {
    16: "42831ec2217774244b7221b784d0d49ce3aa212f2c02a4e035c17e2329aca12e"
    "21d514b25466931c7d8f6a5aac84aa051ba30b396a0aac973d58e091473f5985",
    24: "3980ca0b3c00e841eb06fac4872a2757859e1ceaa6efd984628593b40ca1e19c"
    "7d773d00c144c525ac619d18c84a3f4718e2448b2fe324d9ccda2710acade256",
    32: "522dc1f099567d07f47f37a32a84427d643a8cdcbfe5c0c97598a2bd2555d1aa"
    "8cb08e48590dbb3da7b08b1056828838c5f61e6393ba7a0abcc9f662898015ad",
}
SEALED_BLOCKS = {
    16: "0388dace60b6a392f328c2b971b2fe78",
    24: "98e7247c07f0fe411c267e4384b0f600",
    32: "cea7403d4d606b6e074ec5d3baf39d18",
}
TAGS = {
    16: (
        "58e2fccefa7e3061367f1d57a4e7455a",
        "ab6e47d42cec13bdf53a67b21257bddf",
        "4d5c2af327cd64a62cf35abd2ba6fab4",
        "5bc94fbc3221a5db94fae95ae7121a47",
    ),
    24: (
        "cd33b28ac773f74ba00ed1f312572435",
        "2ff58d80033927ab8ef4d4587514f0fb",
        "9924a7c8587336bfb118024db8674a14",
        "2519498e80f1478f37ba55bd6d27618c",
    ),
    32: (
        "530f8afbc74536b9a963b4f1c4cb738b",
        "d0d1c8a799996bf0265b98b5d48ab919",
        "b094dac5d93471bdec1a502270e3cc6c",
        "76fc6ece0f4e1768cddf8853bb2d551b",
    ),
}
SHORT = 120
# RFC 4231: a key, a text, and the macs by the digests 3 to 6.
MACS = [
    (
        "0b" * 20,
        b"Hi There".hex(),
        [
            "896fb1128abbdf196832107cd49df33f47b4b1169912ba4f53684b22",
            "b0344c61d8db38535ca8afceaf0bf12b881dc200c9833da726e9376c2e32cff7",
            "afd03944d84895626b0825f4ab46907f15f9dadbe4101ec682aa034c7cebc59cfaea9ea9076ede7f4af152e8b2fa9cb6",
            "87aa7cdea5ef619d4ff0b4241a1d6cb02379f4e2ce4ec2787ad0b30545e17cde"
            "daa833b7d6b8a702038b274eaea3f4e4be9d914eeb61f1702e696c203a126854",
        ],
    ),
    (
        "aa" * 20,
        "dd" * 50,
        [
            "7fb3cb3588c6c1f6ffa9694d7d6ad2649365b0c1f65d69d1ec8333ea",
            "773ea91e36800e46854db8ebd09181a72959098b3ef8c122d9635514ced565fe",
            "88062608d3e6ad8a0aa2ace014c8a86f0aa635d947ac9febe83ef4e55966144b2a5ab39dc13814b94e3ab6e101a34f27",
            "fa73b0089d56a284efb0f0756c890be9b1b5dbdd8ee81a3655f83e33b2279d39"
            "bf3e848279a722c806b485a47e67c807b946a337bee8942674278859e13292fb",
        ],
    ),
    (
        bytes(range(1, 26)).hex(),
        "cd" * 50,
        [
            "6c11506874013cac6a2abc1bb382627cec6a90d86efc012de7afec5a",
            "82558a389a443c0ea4cc819899f2083a85f0faa3e578f8077a2e3ff46729665b",
            "3e8a69b7783c25851933ab6290af6ca77a9981480850009cc5577c6e1f573b4e6801dd23c4a7d679ccf8a386c674cffb",
            "b0ba465637458c6990e5a8c5f61d4af7e576d97ff94b872de76f8050361ee3db"
            "a91ca5c11aa25eb4d679275cc5788063a5f19741120c4f2de2adebeb10a298dd",
        ],
    ),
    (
        "0c" * 20,
        b"Test With Truncation".hex(),
        [
            "0e2aea68a90c8d37c988bcdb9fca6fa8",
            "a3b6167473100ee06e0c796c2955552b",
            "3abf34c3503b2a23a46efc619baef897",
            "415fad6271580a531d4179bc891d87a6",
        ],
    ),
]
# A block under the key 00 01 .. 0f, and the text that it opens to, or None where that ends as no padding does: in 00,
# in 0102, in 11, in 020303; and, as paddings do, in 0202, and in 10 sixteen times.
PADDED = [
    ("c6a13b37878f5b826f4f8162a1c8d879", None),
    ("f662388a8a33596227d688d904beac4c", None),
    ("4493ada3306ce110f48157d8668959d7", None),
    ("b89774b2d029078dd3433173fe5687ec", None),
    ("cba7320d6382b39eb56248f2e6e897ee", "00" * 14),
    ("954f64f2e4e86e9eee82d20216684899", ""),
]

# RFC 3394 sections 4.1 to 4.6: the bytes of the key, which is 00 01 02 .., and of the text, which is a front of
# WRAPPABLE; and what is wrapped so.
WRAPPABLE = (
    bytes.fromhex("00112233445566778899aabbccddeeff")
    + bytes(range(16))
    + bytes(range(0xF0, 0x100))
    + bytes(range(0x20, 0x30))
)
WRAPPED = {
    (16, 16): "1fa68b0a8112b447aef34bd8fb5a7b829d3e862371d2cfe5",
    (24, 16): "96778b25ae6ca435f92b5b97c050aed2468ab8a17ad84e5d",
    (32, 16): "64e8c3f9ce0f5ba263e9777905818a2a93c8191e7d6e8ae7",
    (24, 24): "031d33264e15d33268f24ec260743edce1c6c7ddee725a936ba814915c6762d2",
    (32, 24): "a8f9bc1612c68b3ff6e6f4fbe30e71e4769c8b80a32cb8958cd5d17d6b254da1",
    (32, 32): "28c9f404c4b810f4cbccb35cfb87f8263f5786e2d80ed326cbc7f0e71a99f43bfb988b9b7a02dd21",
}


def out(hex_digits):
    return {"code": 0, "out": hex_digits}


def pieces(text, size):
    """A text's pieces of so many bytes, each with how much of the text there is behind it."""
    for start in range(0, len(text), 2 * size):
        yield text[start : start + 2 * size], min(len(text), start + 2 * size)


def front(mode, tag, opens, given):
    """How many digits a mode gives of its output once so many of the text are there."""
    if mode in (ECB, CBC):
        return given // 32 * 32
    return max(0, given - 2 * tag) if mode == GCM and opens else given


def operation(rows, alias, mode, nonce, tag, opens, data, text, output, size):
    """One operation whose text comes in pieces of so many bytes."""
    asked = [["PURPOSE", int(opens)], ["BLOCK_MODE", mode], ["PADDING", NO_PADDING]]
    asked += [["MAC_LENGTH", 8 * tag]] if mode == GCM else []
    asked += [["NONCE", nonce]] if nonce else []
    number = rows.begins(begin(1, named(alias), asked))
    for piece, _ in pieces(data, size):
        rows.put(call(1, "updateAad", op=number, input=piece), OK)
    told = 0
    for piece, given in pieces(text, size):
        end = front(mode, tag, opens, given)
        rows.put(call(1, "update", op=number, input=piece), out(output[told:end]))
        told = end
    rows.put(call(1, "finish", op=number), out(output[told:]))


def gcm_cases():
    """A key, a nonce, additional data, a text, its ciphertext and a tag."""
    for size, tags in TAGS.items():
        key = (GCM_KEY * 2)[: 2 * size]
        yield "00" * size, NO_NONCE, "", "", "", tags[0]
        yield "00" * size, NO_NONCE, "", "00" * 16, SEALED_BLOCKS[size], tags[1]
        yield key, NONCE, "", TEXT, SEALED[size], tags[2]
        yield key, NONCE, DATA, TEXT[:SHORT], SEALED[size][:SHORT], tags[3]
    yield GCM_KEY, NONCE, DATA, TEXT[:SHORT], SEALED[16][:SHORT], TAGS[16][3][:24]


def vectors():
    """A key, a mode, its nonce, the bytes of its tag, additional data, a text, and the output."""
    for mode, outputs in MODES.items():
        for key, output in zip(KEYS, outputs):
            yield key, mode, FIRST_BLOCKS[mode], 0, "", BLOCKS, output
    for key, nonce, data, text, sealed, tag in gcm_cases():
        yield key, GCM, nonce, len(tag) // 2, data, text, sealed + tag


def both_ways():
    rows, known = Rows([10001]), {}
    for key, mode, nonce, tag, data, text, output in vectors():
        if key not in known:
            known[key] = f"k{len(known) + 1}"
            rows.key(1, known[key], AES_LIST, material=key)
        for size in PIECES:
            operation(rows, known[key], mode, nonce, tag, False, data, text, output, size)
            operation(rows, known[key], mode, nonce, tag, True, data, output, text, size)
    return rows.rows


def mac_list(digest):
    return [
        ["PURPOSE", 2],
        ["PURPOSE", 3],
        ["ALGORITHM", 128],
        ["DIGEST", digest],
        ["MIN_MAC_LENGTH", 64],
        ["NO_AUTH_REQUIRED", True],
    ]


def macs():
    rows = Rows([10001])
    for key, text, known in MACS:
        for digest, mac in enumerate(known, 3):
            alias = f"m{rows.keys + 1}"
            rows.key(1, alias, mac_list(digest), material=key)
            for size in (1, 100):
                number = rows.begins(begin(1, named(alias), [["PURPOSE", 2], ["MAC_LENGTH", 4 * len(mac)]]))
                for piece, _ in pieces(text, size):
                    rows.put(call(1, "update", op=number, input=piece), out(""))
                rows.put(call(1, "finish", op=number), out(mac))
            number = rows.begins(begin(1, named(alias), [["PURPOSE", 3]]))
            rows.put(call(1, "finish", op=number, input=text, signature=mac), out(""))
    return rows.rows


def padded(opens):
    return [["PURPOSE", int(opens)], ["BLOCK_MODE", ECB], ["PADDING", PKCS7]]


def paddings():
    rows, key = Rows([10001]), named("a")
    rows.key(1, "a", AES_LIST, material=bytes(range(16)).hex())
    for block, text in PADDED:
        number = rows.begins(begin(1, key, padded(True)))
        rows.put(call(1, "finish", op=number, input=block), {"code": -38} if text is None else out(text))
    # the whole block of FIPS 197, appendix C.1, is padded by another one, and opened in pieces of 16 bytes, 1 and 15
    text, sealed = "00112233445566778899aabbccddeeff", "69c4e0d86a7b0430d8cdb78070b4c55a" + PADDED[5][0]
    number = rows.begins(begin(1, key, padded(False)))
    rows.put(call(1, "finish", op=number, input=text), out(sealed))
    number = rows.begins(begin(1, key, padded(True)))
    for piece, told in [(sealed[:32], ""), (sealed[32:34], text), (sealed[34:], "")]:
        rows.put(call(1, "update", op=number, input=piece), out(told))
    rows.put(call(1, "finish", op=number), out(""))
    return rows.rows


def wrapped(key_size, text_size):
    """A front of the text under the key of so many bytes, by openssl."""
    words = ["openssl", "enc", f"-id-aes{8 * key_size}-wrap", "-iv", "a6" * 8, "-K", bytes(range(key_size)).hex()]
    return subprocess.run(words, input=WRAPPABLE[:text_size], capture_output=True, check=True).stdout.hex()


def wrapped_rows():
    """The rows of the table, those of the RFC first and in its order."""
    sizes = [(key, text) for key in (16, 24, 32) for text in range(16, 65, 8)]
    for key, text in [*WRAPPED, *(pair for pair in sizes if pair not in WRAPPED)]:
        made = wrapped(key, text)
        check(f"openssl, {text} bytes under {key}", made, WRAPPED.get((key, text), made))
        spelled = "".join(rf"\x{byte:02x}" for byte in bytes.fromhex(made))
        yield f'({key}, {text}, b"{spelled}"),'


def main():
    parser = parser_of(__doc__)
    parser.add_argument("--folder", type=folder_at, default=FOLDER, help="where it writes in place of checks/")
    parser.add_argument("--wrapped", action="store_true", help="print the table of wrapped keys in place of all that")
    asked = parser.parse_args()
    if asked.wrapped:
        print("\n".join(wrapped_rows()))
        return
    write(asked.folder, "vectors", both_ways())
    write(asked.folder, "macs", macs())
    write(asked.folder, "paddings", paddings())
