"""The shared library that tests call.

It is that of the variable BPFHOST_LIBRARY, or the one next to the program, or one that is linked from the archive next to the program.
"""

from __future__ import annotations

import functools
import os
import subprocess
import tempfile
from pathlib import Path

from bpfhost.shards.library import SONAME
from tests.common import PROGRAM

_LINKS = Path(__file__).resolve().parents[4] / "tools/shared-library"
_scratch = tempfile.TemporaryDirectory()


@functools.cache
def library_file() -> Path | None:
    """The file, or None if there is none to try."""
    named = os.environ.get("BPFHOST_LIBRARY")
    if named:
        return Path(named)
    folder = Path(PROGRAM).absolute().parent
    if (folder / SONAME).is_file():
        return folder / SONAME
    if not (folder / "libbpfhost.a").is_file():
        return None
    linked = subprocess.run([_LINKS, folder, _scratch.name], check=False, capture_output=True)
    return Path(_scratch.name) / SONAME if not linked.returncode else None
