"""Shows that wrapped keys are those of the Python package `cryptography`: 10,000 random texts of each length are
wrapped and unwrapped under random keys of 16, 24 and 32 bytes, and each, with a bit changed, opens nowhere. It says
nothing where all is well.

    tools/ks compare key_wraps [--texts N] [--seed N]
    tools/ks compare key_wraps --speed

With --speed it prints what a wrapping of 32 bytes takes against the 24 blocks of the same cipher that it has: the
two take turns, each side's time is that of its processor, and the ratio is the middle one. The calls run in a
program of their own (tools/compare/key_wraps/main.rt.in), which is proved and built in a folder for the time of the
run, over copies of the crates."""
import os
import random
import resource
import statistics
import subprocess
import sys
import tempfile

from cryptography.hazmat.primitives.keywrap import InvalidUnwrap, aes_key_unwrap, aes_key_wrap

from keystore.harness import check, parser_of
from measure.own_program import run_over

KEY_SIZES, TEXT_SIZES = (16, 24, 32), range(16, 65, 8)
WRAP, UNWRAP = 0, 1
ANSWER, TURNS = 73, 11


def order(act, key, given):
    return bytes([act, len(key), len(given)]) + key.ljust(32, b"\0") + given.ljust(72, b"\0")


def answer(found):
    """The answer in which these bytes come; where there are none, all is 00."""
    return bytes([len(found)]) + found.ljust(72, b"\0")


def opened(key, wrapped):
    try:
        return aes_key_unwrap(key, wrapped)
    except InvalidUnwrap:
        return b""


def orders_of(draw, size):
    """A text of so many bytes both ways, and with a bit changed: three orders, each with its answer."""
    key, text = draw.randbytes(draw.choice(KEY_SIZES)), draw.randbytes(size)
    wrapped = aes_key_wrap(key, text)
    changed = bytearray(wrapped)
    changed[draw.randrange(len(changed))] ^= 1 << draw.randrange(8)
    yield order(WRAP, key, text), answer(wrapped)
    yield order(UNWRAP, key, wrapped), answer(text)
    yield order(UNWRAP, key, bytes(changed)), answer(opened(key, bytes(changed)))


def compare(program, texts, seed):
    draw = random.Random(seed)
    for size in TEXT_SIZES:
        rows = [row for _ in range(texts) for row in orders_of(draw, size)]
        said = subprocess.run(
            [program], input=b"".join(asked for asked, _ in rows), capture_output=True, check=True
        ).stdout
        check(f"{size} bytes: the answers' length", len(said), ANSWER * len(rows))
        for row, (asked, wanted) in enumerate(rows):
            found = said[ANSWER * row : ANSWER * (row + 1)]
            check(f"seed {seed}, order {row}: {asked.hex()}", found.hex(), wanted.hex())


def taken(program, part):
    """Nanoseconds of processor of a turn of a part."""
    before = resource.getrusage(resource.RUSAGE_CHILDREN).ru_utime
    said = subprocess.run([program, part], stdin=subprocess.DEVNULL, capture_output=True, text=True, check=True).stdout
    spent = resource.getrusage(resource.RUSAGE_CHILDREN).ru_utime - before
    return spent * 1e9 / int(said.split()[0])


def measure(program):
    turns = [(taken(program, "wraps"), taken(program, "blocks")) for _ in range(TURNS)]
    ratios = sorted(wraps / blocks for wraps, blocks in turns)
    wraps, blocks = (statistics.median(side) for side in zip(*turns))
    print(
        f"wrapping 32 bytes {wraps:.0f} ns, 24 blocks {blocks:.0f} ns, ratio {statistics.median(ratios):.2f},"
        f" {ratios[0]:.2f} to {ratios[-1]:.2f}"
    )


def main():
    parser = parser_of(__doc__)
    parser.add_argument(
        "--texts",
        type=int,
        default=10_000,
        metavar="N",
        help="how many texts of each length; 10,000 where it is not said",
    )
    parser.add_argument(
        "--seed", type=int, default=random.randrange(1 << 32), metavar="N", help="what the draws come from"
    )
    parser.add_argument("--speed", action="store_true", help="measure in place of comparing")
    asked = parser.parse_args()
    with tempfile.TemporaryDirectory(prefix="key-wraps-") as place:
        program, built = run_over(["aes_core", "key_wrap"], __file__, {"src/main.rt": "main.rt.in"}, place)
        if not os.access(program, os.X_OK):
            sys.exit("key_wraps.py: the program was not built:\n" + (built.stdout + built.stderr)[-2000:])
        if asked.speed:
            measure(program)
        else:
            compare(program, asked.texts, asked.seed)
