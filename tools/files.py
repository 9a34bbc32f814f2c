"""The files of the repository."""

from __future__ import annotations

import subprocess
from pathlib import Path

OUTPUTS = {"out", "target", "build", "dist", "__pycache__"}


def tracked(top: Path, *patterns: str) -> list[Path]:
    """The files below `top` that git has, including those that are not committed yet; without a history, all that are not output of a build."""
    call = ["git", "ls-files", "-z", "--cached", "--others", "--exclude-standard", *patterns]
    try:
        names = subprocess.run(call, cwd=top, capture_output=True, text=True, check=True).stdout.split("\0")
    except (OSError, subprocess.CalledProcessError):
        found = (path.relative_to(top) for pattern in patterns or ("*",) for path in top.rglob(pattern))
        names = [str(path) for path in found if not OUTPUTS & set(path.parts)]
    return sorted(path for path in {top / name for name in names if name} if path.is_file())
