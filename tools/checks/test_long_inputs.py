"""The longest inputs, and one byte more.

An input and a signature have at most 32,768 bytes: a longer one is refused and ends nothing, whichever step it comes
with, and where the operation is not the client's own or its key has ended, that is told. All input of an operation
has at most 1,048,576 bytes, additional data with the text: what passes them ends the operation."""
import hmac

from keystore.cases import Case, each
from keystore.lines import OK, Rows, begin, broken, call, named
from keystore.runs import check_rows
from make.vectors import AES_LIST, mac_list

SECRET, NO_MAC = "0b" * 20, {"code": -30}
MOST, OVER = "00" * 32_768, "00" * 32_769
TOO_LONG, TOO_MUCH = broken(21, "S3"), broken(-21, "S7")
NO_AAD, GONE = broken(-40, "S6"), broken(-28, "S1")
ECB = [["PURPOSE", 0], ["BLOCK_MODE", 1], ["PADDING", 1]]
GCM = [["PURPOSE", 0], ["BLOCK_MODE", 32], ["PADDING", 1], ["MAC_LENGTH", 128], ["NONCE", "00" * 12]]
# The key 00 16 times makes this of the block 00, and that is the first byte of its key stream in GCM with the nonce 00.
CIPHER, STREAM = "66e94bd4ef8a2c3b884cfa59ca342b2e", "03"


def out(hex_digits=""):
    return {"code": 0, "out": hex_digits}


def mac_of(size):
    return hmac.digest(bytes.fromhex(SECRET), bytes(size), "sha256").hex()


def single_inputs():
    rows, key = Rows([10001]), named("m")
    rows.key(1, "m", mac_list(4))
    op = rows.begins(begin(1, key))
    rows.put(call(2, "update", op=op, input=OVER), GONE)
    for line in (call(1, name, op=op, input=OVER) for name in ("update", "updateAad", "finish")):
        rows.put(line, TOO_LONG)
    rows.put(call(1, "finish", op=op, signature=OVER), TOO_LONG)
    rows.put(call(1, "update", op=op, input=MOST), out())
    rows.put(call(1, "finish", op=op), out(mac_of(32_768)))
    op = rows.begins(begin(1, key, [["PURPOSE", 3]]))
    rows.put(call(1, "finish", op=op, input=MOST, signature=MOST), NO_MAC)
    op = rows.begins(begin(1, key))
    rows.key(1, "m", mac_list(4))
    rows.put(call(1, "update", op=op, input=OVER), TOO_LONG)
    rows.put(call(1, "update", op=op), broken(-33, "S4"))
    rows.begins(begin(1, key))
    return rows.rows


def whole_operations():
    rows = Rows([10001])
    rows.key(1, "m", mac_list(4))
    rows.key(1, "z", AES_LIST, material="00" * 16)
    steps = 1_048_576 // 32_768
    op = rows.begins(begin(1, named("m")))
    for _ in range(steps):
        rows.put(call(1, "update", op=op, input=MOST), out())
    rows.put(call(1, "finish", op=op), out(mac_of(1_048_576)))
    op = rows.begins(begin(1, named("m")))
    for _ in range(steps):
        rows.put(call(1, "update", op=op, input=MOST), out())
    rows.put(call(1, "updateAad", op=op, input="00"), NO_AAD)
    op = rows.begins(begin(1, named("z"), ECB))
    for _ in range(steps):
        rows.put(call(1, "update", op=op, input=MOST), out(CIPHER * 2_048))
    rows.put(call(1, "finish", op=op, input="00"), TOO_MUCH)
    # all but one byte as additional data
    op = rows.begins(begin(1, named("z"), GCM))
    for piece in [MOST] * (steps - 1) + [MOST[2:]]:
        rows.put(call(1, "updateAad", op=op, input=piece), OK)
    rows.put(call(1, "update", op=op, input="00"), out(STREAM))
    rows.put(call(1, "update", op=op), out())
    rows.put(call(1, "update", op=op, input="00"), TOO_MUCH)
    rows.put(call(1, "finish", op=op), GONE)
    return rows.rows


@each([("an input and a signature", single_inputs), ("all input of an operation", whole_operations)])
class LongInputs(Case):
    def show(self, rows):
        check_rows(self.program, rows())
