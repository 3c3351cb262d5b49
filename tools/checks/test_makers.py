"""The makers of checks/ still make what stands there: each writes into a folder, which is compared with checks/, file
by file.

What a maker should not write any more, and a script that was written by hand, it cannot tell apart."""
import pathlib
import subprocess
import sys

from keystore.cases import HAS_CIPHERS, Case, each
from keystore.harness import TOOLS, check
from keystore.lines import FOLDER

MAKERS = ["state_checks", "token_checks", "domain_checks", "vectors", "wrong_tags"]
# These need the package.
SEALING = ["blob_checks", "rule_checks", "upgrade_checks", "wrapped_checks", "cuttings"]


def files_of(folder):
    return {file.name: file.read_bytes() for file in folder.iterdir()}


@each([(it, it) for it in MAKERS + SEALING])
class Makers(Case):
    def show(self, maker):
        if maker in SEALING and not HAS_CIPHERS:
            self.skipTest("the Python package cryptography is not there")
        words = [sys.executable, TOOLS / "ks", "make", maker, "--folder", self.folder]
        check("the status", subprocess.run(words, check=False).returncode, 0)
        made, kept = files_of(self.folder), files_of(FOLDER)
        # A maker that had written elsewhere would have nothing that differs.
        self.assertTrue(made, "it made nothing")
        scripts = {pathlib.Path(name).stem for name in made}
        # Words beside a script that takes none any more are a difference too.
        self.assertEqual(sorted(made), sorted(name for name in kept if pathlib.Path(name).stem in scripts))
        for name, data in made.items():
            self.assertEqual(data, kept[name], f"{name} is made otherwise than it stands in checks/")
