"""The tools are written as `tools/pyproject.toml` says: black and flake8 at 120 columns, and mypy strict on `keystore/`
and `model/`.

Each is skipped where it is not installed."""
import importlib.util
import subprocess
import sys
import unittest

from keystore.cases import each
from keystore.harness import TOOLS

STYLES = {
    "black": ["--check", "--quiet", "--diff", "."],
    # What black does otherwise: blanks around a slice's colon, a line that begins with an operator.
    "flake8": ["--max-line-length", "120", "--extend-ignore", "E203,W503", ".", "ks"],
    "mypy": ["--config-file", "pyproject.toml", "-p", "keystore", "-p", "model"],
}


@each([(name, name) for name in STYLES])
class Style(unittest.TestCase):
    maxDiff = None

    def show(self, name):
        if importlib.util.find_spec(name) is None:
            self.skipTest(f"{name} is not installed")
        words = [sys.executable, "-m", name, *STYLES[name]]
        done = subprocess.run(words, cwd=TOOLS, capture_output=True, text=True, check=False)
        self.assertEqual((done.returncode, done.stdout), (0, done.stdout), done.stdout + done.stderr)
