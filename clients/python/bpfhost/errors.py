"""The exceptions of this package. The text of each is one sentence."""

from __future__ import annotations

import os
import signal
import sys
from typing import TYPE_CHECKING

from bpfhost.numbers import Errno

if TYPE_CHECKING:
    from bpfhost.replies import Reply


class BpfhostError(Exception):
    """The base of all exceptions that this package raises, except a ValueError for a wrong argument."""


class HostError(BpfhostError):
    """bpfhost did not start, or exited with an unexpected status.

    `fault` is what it wrote to standard error, `written` the part of its standard output that was not read yet, and `status` its exit
    status, or None if it has not exited.
    """

    def __init__(self, message: str, fault: str = "", written: bytes = b"", status: int | None = None) -> None:
        super().__init__(message)
        self.fault = fault
        self.written = written
        self.status = status

    @classmethod
    def of(cls, what: str, status: int, fault: bytes, written: bytes = b"") -> HostError:
        """`what` exited with a status, or, if that is negative, was ended by a signal; `fault` is what it wrote to standard error."""
        said = "; ".join(line for line in fault.decode(errors="replace").splitlines() if line.strip())
        by = f"by {_signal_name(-status)}" if status < 0 else f"with status {status}"
        return cls(f"{what} ended {by}: {said or 'it gave no reason'}", said, written, status)


def _signal_name(number: int) -> str:
    try:
        return signal.Signals(number).name
    except ValueError:
        return f"signal {number}"


class ReplyError(BpfhostError, ValueError):
    """Bytes that are not a stream of replies, or a reply to another command than the one sent."""


class Refused(BpfhostError):
    """The host refused a command: `status` is the reply's negative status, and `reply` the whole reply."""

    def __init__(self, reply: Reply) -> None:
        super().__init__(str(reply))
        self.reply = reply

    @property
    def status(self) -> int:
        """The negative status."""
        return self.reply.status

    def has(self, errno: Errno) -> bool:
        """Whether this is the error."""
        return self.reply.status == -errno


class ProgramRefused(Refused):
    """The host refused a program: the slot, and the reason of the verifier or of the decoder."""

    def __init__(self, reply: Reply, slot: int, reason: int) -> None:
        super().__init__(reply)
        self.slot = slot
        self.reason = reason


class SourceRefused(BpfhostError):
    """A program of an object is rejected: the slot and the reason.

    The text has the line of the source if the object has it. `log` is the verifier's log, if there is one.
    """

    def __init__(self, message: str, slot: int, reason: int, log: str | None = None) -> None:
        super().__init__(message)
        self.slot = slot
        self.reason = reason
        self.log = log


class InputError(BpfhostError, ValueError):
    """A file or a text that does not have the expected format."""


class StateError(BpfhostError):
    """A tenant's maps can't be read with the frames that are left."""


class CaptureError(InputError):
    """A capture that is cut off, is not a capture, or has a packet that no test run takes."""


# Packages that parts of this package need: the names of their modules, and of Debian's packages.
PACKAGES = {
    "elftools": "python3-pyelftools",
    "rich": "python3-rich",
    "redis": "python3-redis",
    "hiredis": "python3-hiredis",
    "prometheus_client": "python3-prometheus-client",
}


# Only Debian's own Python sees Debian's packages, and another Python may come first in PATH.
_DEBIANS_PYTHON, _DEBIANS_PACKAGES = "/usr/bin/python3", "/usr/lib/python3/dist-packages"


class MissingPackage(BpfhostError):
    """A Python package that is not installed."""

    def __init__(self, module: str, debian: str) -> None:
        self.module = module
        found = f"the Python package {module} is missing"
        if not _is_debians_python() and os.path.isdir(os.path.join(_DEBIANS_PACKAGES, module)):
            super().__init__(f"{found} for {sys.executable}, and {_DEBIANS_PYTHON} has it: use that one")
        elif not _is_debians_python() and os.path.exists(_DEBIANS_PYTHON):
            own = f"which {_DEBIANS_PYTHON} sees, and {sys.executable} does not"
            super().__init__(f"{found}: apt-get install {debian}, {own}")
        else:
            super().__init__(f"{found}: apt-get install {debian}")


def _is_debians_python() -> bool:
    return os.path.realpath(sys.executable) == os.path.realpath(_DEBIANS_PYTHON)
