"""`tools/wrap_key.py` wraps and opens the vectors of RFC 3394 section 4, whose texts have 16 to 32 bytes, and says what
is wrong with other words."""
import subprocess
import sys

from keystore.cases import Case, each, needs_ciphers
from keystore.harness import TOOLS, check

COUNTED, PLAIN = bytes(range(32)).hex(), "00112233445566778899aabbccddeeff"
# The bytes of the wrapping key, the text, and what it is wrapped.
VECTORS = [
    (16, PLAIN, "1fa68b0a8112b447aef34bd8fb5a7b829d3e862371d2cfe5"),
    (24, PLAIN, "96778b25ae6ca435f92b5b97c050aed2468ab8a17ad84e5d"),
    (32, PLAIN, "64e8c3f9ce0f5ba263e9777905818a2a93c8191e7d6e8ae7"),
    (24, PLAIN + COUNTED[:16], "031d33264e15d33268f24ec260743edce1c6c7ddee725a936ba814915c6762d2"),
    (32, PLAIN + COUNTED[:16], "a8f9bc1612c68b3ff6e6f4fbe30e71e4769c8b80a32cb8958cd5d17d6b254da1"),
    (32, PLAIN + COUNTED[:32], "28c9f404c4b810f4cbccb35cfb87f8263f5786e2d80ed326cbc7f0e71a99f43bfb988b9b7a02dd21"),
]
KEY, WRAPPED = COUNTED[:32], VECTORS[0][2]
# Words, with the status and the end of what is told.
REFUSED = [
    (["open", KEY, WRAPPED[:-2] + "e4"], 1, "wrap_key: it does not open under this key"),
    (["open", COUNTED[:48], WRAPPED], 1, "wrap_key: it does not open under this key"),
    (["open", KEY, WRAPPED[:-2]], 2, "argument WRAPPED: 23 bytes, and not 24, 32, 40, 48, 56, 64, 72"),
    (["open", KEY, ""], 2, "argument WRAPPED: 0 bytes, and not 24, 32, 40, 48, 56, 64, 72"),
    (["open", KEY, "00" * 80], 2, "argument WRAPPED: 80 bytes, and not 24, 32, 40, 48, 56, 64, 72"),
    (["wrap", KEY, PLAIN[:16]], 2, "argument TEXT: 8 bytes, and not 16, 24, 32, 40, 48, 56, 64"),
    (["wrap", KEY, "0b" * 20], 2, "argument TEXT: 20 bytes, and not 16, 24, 32, 40, 48, 56, 64"),
    (["wrap", KEY, "00" * 72], 2, "argument TEXT: 72 bytes, and not 16, 24, 32, 40, 48, 56, 64"),
    (["wrap", KEY[:-2], PLAIN], 2, "argument KEY: 15 bytes, and not 16, 24, 32"),
    (["wrap", KEY, "@absent"], 2, "argument TEXT: [Errno 2] No such file or directory: 'absent'"),
    (["wrap", KEY, PLAIN, "--out", "absent/file"], 2, "wrap_key: [Errno 2] No such file or directory: 'absent/file'"),
]


class OfTheTool(Case):
    def ended(self, *words, given=b""):
        tool = [sys.executable, TOOLS / "wrap_key.py", *words]
        done = subprocess.run(tool, cwd=self.folder, input=given, capture_output=True, check=False)
        return done.returncode, done.stdout.decode(), done.stderr.decode()


@needs_ciphers
@each([(f"{size} bytes, text of {len(text) // 2}", COUNTED[: 2 * size], text, it) for size, text, it in VECTORS])
class Vectors(OfTheTool):
    def show(self, key, text, wrapped):
        check("wrap", self.ended("wrap", key, text), (0, wrapped + "\n", ""))
        check("open", self.ended("open", key, wrapped), (0, text + "\n", ""))


@needs_ciphers
@each([(f"{place:02} {said}", words, status, said) for place, (words, status, said) in enumerate(REFUSED, 1)])
class Refused(OfTheTool):
    def show(self, words, status, said):
        ended, written, fault = self.ended(*words)
        check("the status and the output", (ended, written), (status, ""))
        self.assertTrue(fault.endswith(said + "\n"), fault)


@needs_ciphers
class Files(OfTheTool):
    def test_keys_stand_in_files_that_their_owner_alone_may_read(self):
        (self.folder / "key").write_bytes(bytes.fromhex(KEY))
        (self.folder / "wrapped").write_bytes(b"a longer file that was there before")
        ended = self.ended("wrap", "@key", "@-", "--out", "wrapped", given=bytes.fromhex(PLAIN))
        check("wrap", ended, (0, "", ""))
        check("the wrapped bytes", (self.folder / "wrapped").read_bytes().hex(), WRAPPED)
        check("open", self.ended("open", "@key", "@wrapped", "--out", "text"), (0, "", ""))
        check("the text", (self.folder / "text").read_bytes().hex(), PLAIN)
        modes = [(self.folder / name).stat().st_mode & 0o777 for name in ("wrapped", "text")]
        check("who may read them", modes, [0o600, 0o600])
