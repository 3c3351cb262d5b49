"""Measures a file that is sealed through a script: `script_speed.py [ROUNDS] [--program PATH]` prints bytes of text a
second, and where the time goes.

The program runs `run --fresh` over scripts of 384 lines that each hold 32 KiB as hex, by turns, 32 lines an operation,
since no operation takes more than 1 MiB. The time is that of its own processor, without that of a run that has the
other lines alone. The scripts differ in how far a line's text goes:

    seal    updates of an AES-GCM operation: read, JSON, hex, cipher, and the reply as hex and JSON
    aad     additional data of such an operation: the same without a cipher over the text, and with short replies
    hex     updates of an operation that is not there: read, JSON, hex
    json    a text in a member that no act has: read, JSON
    read    lines that are not JSON from their first byte on: read

What is between two rows is the part that the second lacks. Between seal and hex lie the cipher and the reply: the
part of the cipher is what tools/measure/cipher_speed.py tells of GCM, 32 KiB a line."""
import os
import statistics
import sys
from pathlib import Path

from keystore.harness import add_program, parser_of, processor_seconds
from keystore.scratch import scratch_folder

OPERATIONS = 12
LINES = 32 * OPERATIONS
SIZE = 32768
AT = '"t":[0,1700000000000]'
TEXT = bytes(range(256)).hex() * (SIZE // 256)
KEY = [
    f'{{{AT},"do":"connect","uid":10001}}',
    f'{{{AT},"c":1,"do":"importKey","key":{{"domain":0,"alias":"k"}},"params":[["PURPOSE",0],["ALGORITHM",32],'
    '["BLOCK_MODE",32],["PADDING",1],["MIN_MAC_LENGTH",128],["NO_AUTH_REQUIRED",true]],"format":3,'
    '"material":"603deb1015ca71be2b73aef0857d7781"}}',
]
BEGIN = (
    f'{{{AT},"c":1,"do":"createOperation","key":{{"domain":0,"alias":"k"}},"params":[["PURPOSE",0],'
    '["BLOCK_MODE",32],["PADDING",1],["MAC_LENGTH",128]]}}'
)
# what stands before the operation's number and the text, what the operation is (none has the number 999), and the end
# of a reply
ROWS = {
    "seal": ('"c":1,"do":"update"', None, b'"}'),
    "aad": ('"c":1,"do":"updateAad"', None, b'{"code":0}'),
    "hex": ('"c":1,"do":"update"', 999, b'"S1"}'),
    "json": ('"c":1,"do":"abort"', 999, b'"S1"}'),
    "read": ("!", 999, b'"L1"}'),
}


def script_of(name):
    """The lines of a script; of none, those without a text."""
    lines = list(KEY)
    for op in range(1, OPERATIONS + 1):
        lines.append(BEGIN)
        if name in ROWS:
            act, other, _ = ROWS[name]
            line = (
                f'{{{AT},{act},"op":{other or op},"input":"{TEXT}"}}'
                if act != "!"
                else f'!{AT},"op":1,"input":"{TEXT}"'
            )
            lines += [line] * 32
        lines.append(f'{{{AT},"c":1,"do":"abort","op":{op}}}')
    return "\n".join(lines) + "\n"


def main():
    ask = parser_of(__doc__)
    ask.add_argument("rounds", nargs="?", type=int, default=7)
    add_program(ask)
    ask = ask.parse_args()
    with scratch_folder("script-speed-") as place:
        scripts = {name: os.path.join(place, name) for name in [*ROWS, "none"]}
        for name, script in scripts.items():
            Path(script).write_text(script_of(name), encoding="ascii")
        times = {name: [] for name in scripts}
        for _ in range(ask.rounds):
            for name, script in scripts.items():
                seconds, said = processor_seconds([ask.program, "run", "--fresh"], script, place)
                replies = said.splitlines()
                if name in ROWS and not all(reply.endswith(ROWS[name][2]) for reply in replies[3:35]):
                    sys.exit(f"script_speed.py: {name} has another reply than it should: {replies[3][:80]}")
                times[name].append(seconds)
    none = statistics.median(times["none"])
    a_line = {name: (statistics.median(times[name]) - none) / LINES for name in ROWS}
    print(f"{'script':<6} {'us a line':>10} {'MB of text a second':>20}")
    for name in ROWS:
        print(f"{name:<6} {a_line[name] * 1e6:10.1f} {SIZE / a_line[name] / 1e6:20.1f}")
    whole = a_line["seal"]
    parts = {
        "reading": a_line["read"],
        "JSON in": a_line["json"] - a_line["read"],
        "hex in": a_line["hex"] - a_line["json"],
        "cipher, hex out, JSON out, writing": whole - a_line["hex"],
    }
    for part, seconds in parts.items():
        print(f"{part}: {100 * seconds / whole:.0f} % of a sealed line")
