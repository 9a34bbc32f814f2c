"""What a run prints: its progress, and its results at the end."""

from __future__ import annotations

import argparse
import contextlib
import sys
import time
from collections.abc import Callable, Iterator
from typing import TYPE_CHECKING, TextIO

if TYPE_CHECKING:
    from rich.progress import Progress

    from bpfhost.captures import Capture
    from bpfhost.filtering import Outcome

Advanced = Callable[["Outcome"], None]


def _nothing(_outcome: Outcome) -> None:
    pass


def microseconds(outcome: Outcome) -> float | None:
    """The processor time of the host for a packet, by all tenants, if it is known."""
    return outcome.seconds / outcome.packets * 1e6 if outcome.packets and outcome.seconds else None


def told_time(outcome: Outcome) -> str:
    """The time in the host, on a line of its own: it differs in each run, and the tables do not."""
    time = microseconds(outcome)
    return "time a packet: -" if time is None else f"time a packet: {time:.2f} us"


class Shown:
    """The results of a run, which a function writes, in the form that the arguments name."""

    def __init__(self, said: argparse.Namespace, write: Callable[[Outcome, TextIO], None]) -> None:
        self._every: float | None = said.every
        self._write = write
        self._has_tables = not said.json and said.csv is None
        # If the kept packets go to standard output, the report goes to standard error.
        self._output: TextIO = sys.stderr if said.accepted == "-" else sys.stdout

    @contextlib.contextmanager
    def advancing(self, capture: Capture) -> Iterator[Advanced]:
        """Shows the progress of a run: the tables again after each interval, or how much of the capture is read."""
        if self._every is not None:
            yield _Every(self._every, self.show).advanced
            return
        with _progress(capture) as progress:
            yield progress

    def show(self, outcome: Outcome) -> None:
        """Prints the results of the run."""
        is_repeated = self._has_tables and self._every is not None
        if is_repeated and self._output.isatty():
            self._output.write(_CLEAR)
        self._write(outcome, self._output)
        if is_repeated:
            print(file=self._output)
        self._output.flush()


# Clears a terminal, and moves to its first line.
_CLEAR = "\x1b[2J\x1b[H"


class _Every:
    """Prints again once an interval has passed."""

    def __init__(self, seconds: float, show: Advanced) -> None:
        self._seconds, self._show = seconds, show
        self._next = time.monotonic() + seconds

    def advanced(self, outcome: Outcome) -> None:
        if time.monotonic() >= self._next:
            self._show(outcome)
            self._next = time.monotonic() + self._seconds


@contextlib.contextmanager
def _progress(capture: Capture) -> Iterator[Advanced]:
    """Shows how much of the capture is read, if standard error is a terminal and rich is installed."""
    shown = _progress_bar() if sys.stderr.isatty() else None
    if shown is None:
        yield _nothing
        return
    with shown as progress:
        task = progress.add_task(capture.name, total=capture.size())
        yield lambda _: progress.update(task, completed=capture.bytes_read)


def _progress_bar() -> Progress | None:
    try:
        from rich.console import Console
        from rich.progress import BarColumn, DownloadColumn, Progress, TimeRemainingColumn
    except ModuleNotFoundError:
        return None
    return Progress(BarColumn(), DownloadColumn(), TimeRemainingColumn(), console=Console(stderr=True), transient=True)
