"""Writes a script of N lines: a connect, an import, and then begins and finishes in turn."""
import json

from keystore.harness import parser_of

IMPORT_LIST = [
    ["PURPOSE", 2],
    ["PURPOSE", 3],
    ["ALGORITHM", 128],
    ["DIGEST", 4],
    ["MIN_MAC_LENGTH", 64],
    ["NO_AUTH_REQUIRED", True],
]


def lines(count):
    key = {"domain": 0, "alias": "m"}
    yield {"t": [0, 0], "do": "connect", "uid": 10001}
    yield {
        "t": [0, 0],
        "c": 1,
        "do": "importKey",
        "key": key,
        "params": IMPORT_LIST,
        "format": 3,
        "material": "0b" * 20,
    }
    for i in range(count - 2):
        if i % 2 == 0:
            yield {
                "t": [i, i],
                "c": 1,
                "do": "createOperation",
                "key": key,
                "params": [["PURPOSE", 2], ["MAC_LENGTH", 256]],
            }
        else:
            yield {"t": [i, i], "c": 1, "do": "finish", "op": i // 2 + 1, "input": "4869205468657265"}


def main():
    parser = parser_of(__doc__)
    parser.add_argument("count", type=int, metavar="N")
    for line in lines(parser.parse_args().count):
        print(json.dumps(line, separators=(",", ":")))
