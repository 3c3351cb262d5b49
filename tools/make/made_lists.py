"""Reads made-up bytes as encoded authorization lists, by the format's description alone, and prints what the proved
test of lists expects: after each 500 of 4,000 drawn byte strings the digest of all that was read, and how many were
lists.

    tools/ks make made_lists

The draws are those of the test (`crates/library_tests/src/lists.rt`): a xorshift generator, tags of the format with
now and then another type, short values, a byte too few or too many. The digest is FNV-1a of 64 bits over, for each
byte string, a 0 and the canonical spelling, or the number of the fault (1 cut, 2 unknown tag, 3 wrong kind, 4
repeated, 5 trailing) and its offset as eight bytes."""
from keystore.harness import parser_of

# The format's tags: the 28 low bits and the type.
TAGS = [
    (1, 2),
    (2, 1),
    (3, 3),
    (4, 2),
    (5, 2),
    (6, 2),
    (7, 7),
    (8, 3),
    (305, 7),
    (400, 6),
    (401, 6),
    (402, 6),
    (404, 3),
    (405, 3),
    (501, 3),
    (502, 10),
    (503, 7),
    (504, 1),
    (505, 3),
    (509, 7),
    (601, 9),
    (700, 9),
    (701, 6),
    (702, 1),
    (705, 3),
    (706, 3),
    (1001, 9),
    (1003, 3),
]
KINDS = dict(TAGS)
CUT, UNKNOWN, WRONG, REPEATED, TRAILING = 1, 2, 3, 4, 5
REPEATABLE = (2, 4, 10)
MASK = (1 << 64) - 1


class Fault(Exception):
    def __init__(self, kind, at):
        super().__init__(kind, at)
        self.kind, self.at = kind, at


def value_at(kind, at, data):
    """The bytes of a value of this type, or None where they are cut."""
    size = 4 if kind in (1, 2, 3, 4) else 8 if kind in (5, 6, 10) else 1 if kind == 7 else None
    if size is None:
        if len(data) < at + 2:
            return None
        size = 2 + int.from_bytes(data[at : at + 2], "big")
    return data[at : at + size] if at + size <= len(data) else None


def param_at(at, data, rows):
    if len(data) < at + 4:
        raise Fault(CUT, at)
    tag = int.from_bytes(data[at : at + 4], "big")
    low, kind = tag % (1 << 28), tag >> 28
    if low not in KINDS:
        raise Fault(UNKNOWN, at)
    value = value_at(KINDS[low], at + 4, data)
    if kind != KINDS[low] or (kind == 7 and value is not None and value != b"\x01"):
        raise Fault(WRONG, at)
    if kind not in REPEATABLE and any(row[0] == low for row in rows):
        raise Fault(REPEATED, at)
    if value is None:
        raise Fault(CUT, at)
    return low, tag, value


def canonical(data):
    """The canonical spelling of the list that the bytes spell."""
    if len(data) < 2:
        raise Fault(CUT, 0)
    rows, at = [], 2
    for _ in range(int.from_bytes(data[:2], "big")):
        rows.append(param_at(at, data, rows))
        at += 4 + len(rows[-1][2])
    if at < len(data):
        raise Fault(TRAILING, at)
    rows = sorted(set(rows))
    return len(rows).to_bytes(2, "big") + b"".join(tag.to_bytes(4, "big") + value for _low, tag, value in rows)


class Draws:
    def __init__(self, state):
        self.state = state

    def next(self):
        x = self.state
        x ^= (x << 13) & MASK
        x ^= x >> 7
        x ^= (x << 17) & MASK
        self.state = x
        return x


def made_up_param(draws):
    low, own = TAGS[draws.next() % 28]
    kind = draws.next() % 16 if draws.next() % 32 == 0 else own
    head = ((kind << 28) + low % 1024).to_bytes(4, "big")
    if kind in (5, 6, 10):
        return head + (draws.next() % 3).to_bytes(8, "big")
    if kind == 7:
        return head + bytes([draws.next() % 8 // 2 % 2])
    if kind == 9:
        size = draws.next() % 4
        return head + size.to_bytes(2, "big") + bytes(draws.next() % 256 for _ in range(size))
    return head + (draws.next() % 3).to_bytes(4, "big")


def made_up(draws):
    """Bytes that are often, and not always, a list."""
    count = draws.next() % 6
    data = count.to_bytes(2, "big") + b"".join(made_up_param(draws) for _ in range(count))
    last = draws.next() % 8
    return data[:-1] if last == 0 else data + b"\x01" if last == 1 else data


def digest(total, data):
    for byte in data:
        total = (total ^ byte) * 0x100000001B3 & MASK
    return total


def main():
    parser_of(__doc__).parse_args()
    draws, total, lists = Draws(88172645463325252), 0xCBF29CE484222325, 0
    for number in range(1, 4001):
        try:
            total = digest(total, b"\x00" + canonical(made_up(draws)))
            lists += 1
        except Fault as fault:
            total = digest(total, bytes([fault.kind]) + fault.at.to_bytes(8, "big"))
        if number % 500 == 0:
            print(f"{total:#018x}")
    print(f"{lists} lists")
