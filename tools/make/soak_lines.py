"""The lines of a load, made apart from the service: `tools/ks make soak_lines SEED N`. It needs Python alone.

The words are those of ChaCha with 20 rounds (RFC 8439, section 2.3), as `rand_chacha` gives them: block after block
of stream 0."""
from keystore.harness import parser_of

IMPORT = (
    '{{"t":[{n},{w}],"c":1,"do":"importKey","key":{{"domain":0,"alias":"{alias}"}},"params":[{params}],'
    '"format":3,"material":"{material}"}}'
)
MAC = '["PURPOSE",2],["PURPOSE",3],["ALGORITHM",128],["DIGEST",4],["MIN_MAC_LENGTH",64],["NO_AUTH_REQUIRED",true]'
AES = (
    '["PURPOSE",0],["PURPOSE",1],["ALGORITHM",32],["BLOCK_MODE",1],["BLOCK_MODE",2],["BLOCK_MODE",3],["BLOCK_MODE",32],'
    '["PADDING",1],["PADDING",64],["MIN_MAC_LENGTH",96],["CALLER_NONCE",true],["NO_AUTH_REQUIRED",true]'
)


def words(seed, which):
    """The 32-bit words of the generator, one after another."""
    key = seed.to_bytes(8, "little") + bytes([which]) + bytes(23)
    head = [0x61707865, 0x3320646E, 0x79622D32, 0x6B206574] + [
        int.from_bytes(key[i : i + 4], "little") for i in range(0, 32, 4)
    ]
    mask = 0xFFFFFFFF

    def quarter(s, a, b, c, d):
        for x, y, z, turn in ((a, b, d, 16), (c, d, b, 12), (a, b, d, 8), (c, d, b, 7)):
            s[x] = (s[x] + s[y]) & mask
            v = s[z] ^ s[x]
            s[z] = ((v << turn) | (v >> (32 - turn))) & mask

    block = 0
    while True:
        start = head + [block & mask, block >> 32, 0, 0]
        state = list(start)
        for _ in range(10):
            for i in range(4):
                quarter(state, i, 4 + i, 8 + i, 12 + i)
            for i in range(4):
                quarter(state, i, 4 + (i + 1) % 4, 8 + (i + 2) % 4, 12 + (i + 3) % 4)
        for a, b in zip(start, state):
            yield (a + b) & mask
        block += 1


def opening():
    def at(n):
        return {"n": n, "w": 1000 + n}

    for n, uid in enumerate((10001, 10002, 1000), 1):
        yield f'{{"t":[{n},{1000 + n}],"do":"connect","uid":{uid}}}'
    yield IMPORT.format(alias="h", params=MAC, material="11" * 32, **at(4))
    yield IMPORT.format(alias="a", params=AES, material="22" * 16, **at(5))
    yield IMPORT.format(alias="u", params=MAC + ',["USAGE_COUNT_LIMIT",50]', material="33" * 32, **at(6))
    yield '{"t":[7,1007],"c":1,"do":"grant","key":{"domain":0,"alias":"a"},"uid":10002,"bits":260}'


def lines(seed, count):
    yield from opening()
    draws, begins = words(seed, 0), 0
    for n in range(8, 8 + count):
        w0, w1, w2, w3 = (next(draws) for _ in range(4))
        kind, client, op = w0 % 10, 1 + w1 % 2, 1 + w2 % (begins + 1)
        word, data = f"{w3:08x}", f"{w3 % 256:02x}" * (w3 % 64)
        begin = '"do":"createOperation","key":%s,"params":[%s]'
        if kind in (0, 3):
            client, act = 1, begin % (
                '{"domain":0,"alias":"%s"}' % ("h" if kind == 0 else "u"),
                '["PURPOSE",2],["MAC_LENGTH",256]',
            )
        elif kind == 1:
            client, act = 1, begin % (
                '{"domain":0,"alias":"a"}',
                f'["PURPOSE",0],["BLOCK_MODE",2],["PADDING",64],["NONCE","{word * 4}"]',
            )
        elif kind == 2:
            client, act = 2, begin % (
                '{"domain":1,"nspace":1}',
                f'["PURPOSE",0],["BLOCK_MODE",32],["PADDING",1],["MAC_LENGTH",128],["NONCE","{word * 3}"]',
            )
        elif kind < 8:
            act = f'"do":"{"update" if kind < 7 else "finish"}","op":{op},"input":"{data}"'
        elif kind == 8:
            act = f'"do":"abort","op":{op}'
        else:
            act = '"do":"getNumberOfEntries","domain":0'
        begins += kind < 4
        yield f'{{"t":[{n},{1000 + n}],"c":{client},{act}}}'


def main():
    parser = parser_of(__doc__)
    parser.add_argument("seed", type=int, metavar="SEED")
    parser.add_argument("count", type=int, metavar="N")
    given = parser.parse_args()
    for line in lines(given.seed, given.count):
        print(line)
