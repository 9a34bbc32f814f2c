"""Optional JSON lines of a log: each line that a process writes on standard error is an object."""

from __future__ import annotations

import datetime
import io
import json
import os
import threading
from typing import TextIO


class JsonLines(io.TextIOBase):
    """A standard error whose lines are JSON objects, with the time in UTC, the process, and fields common to all lines."""

    def __init__(self, out: TextIO, **of_all: object) -> None:
        self._out, self._of_all = out, of_all
        self._begun = ""
        self._lock = threading.Lock()

    def write(self, text: str) -> int:
        """Writes text; a line is written when it is whole."""
        with self._lock:
            *lines, self._begun = (self._begun + text).split("\n")
            for line in lines:
                now = datetime.datetime.now(datetime.timezone.utc).isoformat(timespec="milliseconds")
                said = {"time": now, "process": os.getpid(), **self._of_all, "says": line}
                self._out.write(json.dumps(said, ensure_ascii=False) + "\n")
        return len(text)

    def flush(self) -> None:
        """Writes the whole lines."""
        self._out.flush()
