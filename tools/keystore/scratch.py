"""A folder for runs whose store need not outlive a loss of power: in memory where the machine has such a place,
since a run syncs its store twice for each change of what lasts, and a sync of a real disk takes some milliseconds."""
from __future__ import annotations

import os
import tempfile

MEMORY = "/dev/shm"


def scratch_folder(prefix: str = "keystore2-") -> tempfile.TemporaryDirectory[str]:
    """A temporary folder, as a context manager that gives its name."""
    where = MEMORY if os.path.isdir(MEMORY) and os.access(MEMORY, os.W_OK) else None
    return tempfile.TemporaryDirectory(prefix=prefix, dir=where)
