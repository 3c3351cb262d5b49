"""Measures the ciphers beside OpenSSL without AES-NI and PCLMUL: `cipher_speed.py [ROUNDS]` prints ratios of bytes a
second.

The ciphers run in a program of their own (tools/measure/cipher_speed/main.rt.in), which is proved and built in a
folder for the time of the run, over copies of the crates. Each side's time is that of its processor, and the two
sides take turns, since other work on the machine slows both. With one round more the median is steadier; the default
is five."""
import os
import re
import resource
import statistics
import subprocess
import sys
import tempfile

from keystore.harness import parser_of
from measure.own_program import run_over

CRATES = ["tags", "byte_strings", "aes_core", "aes_wide", "block_modes", "ghash", "gcm_mode", "hmac_core"]
# bits 33 and 57 of the processor's words: carry-less products and AES
PORTABLE = dict(os.environ, OPENSSL_ia32cap="~0x200000200000000")
# our part, what openssl is asked for, and the bytes of a piece
ROWS = [
    ("ctr", ["-evp", "aes-128-ctr"], 16384),
    ("cbc-seal", ["-evp", "aes-128-cbc"], 16384),
    ("cbc-open", ["-decrypt", "-evp", "aes-128-cbc"], 16384),
    ("ecb-seal", ["-evp", "aes-128-ecb"], 16384),
    ("gcm-seal", ["-evp", "aes-128-gcm"], 16384),
    ("ghash-16384", ["ghash"], 16384),
    ("ghash-4096", ["ghash"], 4096),
    ("ghash-1024", ["ghash"], 1024),
    ("hmac", ["-hmac", "sha256"], 16),
]
ALONE = ["ghash-768", "ghash-512", "ghash-256", "ghash-new", "lanes", "plain", "new-key"]


def ours(program, part):
    """Bytes in a microsecond of processor."""
    before = resource.getrusage(resource.RUSAGE_CHILDREN).ru_utime
    said = subprocess.run([program, part], capture_output=True, text=True, check=True).stdout.split()
    taken = resource.getrusage(resource.RUSAGE_CHILDREN).ru_utime - before
    return int(said[1]) * int(said[2]) / taken / 1e6


def theirs(words, size):
    said = subprocess.run(
        ["openssl", "speed", "-seconds", "1", "-bytes", str(size), *words],
        capture_output=True,
        text=True,
        env=PORTABLE,
        check=True,
    ).stdout
    return float(re.findall(r"([\d.]+)k", said.splitlines()[-1])[-1]) / 1000


def main():
    parser = parser_of(__doc__)
    parser.add_argument("rounds", nargs="?", type=int, default=5, metavar="ROUNDS")
    rounds = parser.parse_args().rounds
    with open("/proc/cpuinfo", encoding="utf-8") as lines:
        print(
            next((line.split(":")[1].strip() for line in lines if line.startswith("model name")), "processor not told")
        )
    print(f"{'part':<12} {'MB/s':>7} {'OpenSSL':>8} {'ratio':>6}   least to greatest")
    with tempfile.TemporaryDirectory(prefix="cipher-speed-") as place:
        program, _ = run_over(CRATES, __file__, {"src/main.rt": "main.rt.in"}, place)
        if not os.access(program, os.X_OK):
            sys.exit("cipher_speed.py: the program was not built")
        for part, words, size in ROWS:
            pairs = [(ours(program, part), theirs(words, size)) for _ in range(rounds)]
            ratios = sorted(a / b for a, b in pairs)
            fast, other = (statistics.median(side) for side in zip(*pairs))
            print(
                f"{part:<12} {fast:7.1f} {other:8.1f} {statistics.median(ratios):6.2f}   {ratios[0]:.2f} "
                f"to {ratios[-1]:.2f}",
                flush=True,
            )
        for part in ALONE:
            print(f"{part:<12} {statistics.median(ours(program, part) for _ in range(rounds)):7.1f}", flush=True)
