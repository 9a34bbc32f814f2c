"""How often a program calls a function, by valgrind."""

from __future__ import annotations

import re
import shutil
import subprocess
import tempfile
from collections.abc import Mapping, Sequence
from pathlib import Path

# The function of crates/ordered_keys that fills a map's table of keys anew.
FILLS_ANEW = "rebuild_without"


def calls_in(profile: str, function: str) -> int:
    """The calls in what callgrind writes. Names are numbered when they first occur, and a callee is named in the line before its calls."""
    names: dict[str, str] = {}
    called, count = "", 0
    for line in profile.splitlines():
        if found := re.match(r"c?fn=\((\d+)\)(?: (.*))?", line):
            names.setdefault(found[1], found[2] or "")
            called = names[found[1]] if line.startswith("c") else ""
        elif line.startswith("calls=") and function in called:
            count += int(line[6:].split()[0])
    return count


def calls_of(function: str, command: Sequence[str], stream: Path, environment: Mapping[str, str]) -> int | None:
    """The calls of a function, with this stream as input. None if valgrind is missing, or the program has no such symbol."""
    if not shutil.which("valgrind") or function.encode() not in Path(command[0]).read_bytes():
        return None
    with tempfile.TemporaryDirectory() as folder, stream.open("rb") as frames:
        profile = Path(folder) / "profile"
        words = ["valgrind", "-q", "--tool=callgrind", f"--callgrind-out-file={profile}", *command]
        subprocess.run(words, stdin=frames, stdout=subprocess.DEVNULL, stderr=subprocess.DEVNULL, env=environment, check=True)
        return calls_in(profile.read_text(), function)
