"""Workers as separate processes, which start quickly: they are forked from a server that has imported all modules."""

from __future__ import annotations

import contextlib
import multiprocessing.connection
import os
import signal
import sys
import threading
from pathlib import Path

from bpfhost.shards.command import main

_context = multiprocessing.get_context("forkserver")
_context.set_forkserver_preload(["bpfhost.shards.command", "redis"])
# The server of forks says only once how a process has ended, and the start of another asks for it, too. Of two threads that ask at the same
# time, one would get 255.
_lock = threading.Lock()


def _run(words: list[str], errors: str) -> None:
    """The command, with its errors in a file."""
    os.dup2(os.open(errors, os.O_WRONLY | os.O_CREAT | os.O_TRUNC, 0o644), 2)
    # The server of forks ignores it, and a worker is stopped by it.
    signal.signal(signal.SIGINT, signal.default_int_handler)
    sys.exit(main(words))


class WorkerProcess:
    """The command `worker` in a process."""

    def __init__(self, words: list[str], errors: Path) -> None:
        self._errors = errors
        self._process = _context.Process(target=_run, args=(words, str(errors)), daemon=True)
        with _lock:
            self._process.start()

    @property
    def pid(self) -> int:
        """The process."""
        return self._process.pid or 0

    def status(self) -> int | None:
        """Its exit status, negative for a signal, or None."""
        with _lock:
            return self._process.exitcode

    def send(self, number: signal.Signals) -> None:
        """Sends a signal, if it still runs."""
        with contextlib.suppress(ProcessLookupError):
            if self.status() is None:
                os.kill(self.pid, number)

    def host(self) -> int | None:
        """The process of its host, if it has one."""
        try:
            children = Path(f"/proc/{self.pid}/task/{self.pid}/children").read_text().split()
        except OSError:
            return None
        return int(children[0]) if children else None

    def wait(self, seconds: float) -> int | None:
        """Waits until it ends."""
        multiprocessing.connection.wait([self._process.sentinel], seconds)
        return self.status()

    def said(self) -> str:
        """Its output on standard error."""
        return self._errors.read_text() if self._errors.exists() else ""
